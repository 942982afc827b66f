#!/bin/sh
# A workstation on the loopback address: a user logs on at it and off again, whatever becomes of it or of its
# controller.
#
# usage: demo/station.sh [FOLDER]      FOLDER has the three programs, bin/ where none is named
#
# While nobody listens the workstation has no answer. At our controller ann logs on and off, and is refused with a wrong
# hash; a workstation in Python, peers/station.py, logs her on and off, and a second logoff finds no session. Behind a
# proxy of peers/ that goes mute the workstation is killed at each of its steps, and each time the next start logs on
# and off; the two that were killed behind their logon left two sessions. Where the controller is lost meanwhile, the
# user is in and the workstation has no answer. Then it logs on and off at a controller in Python, peers/judge.py. It
# ends with status 0 only where each status and line was right, and with 1 else; each wait has an end, and all is
# stopped before it ends.
set -u

bin=${1:-bin}
. "$(dirname "$0")/domain.sh"
peers=$(dirname "$0")/../peers

proxy_port=$(free_port $((member_port + 1)))
judge_port=$(free_port $((proxy_port + 1)))
boot=0
peer=

# whether the workstation ends with that status and these lines: WHAT WANTED PORT FILE LINE..
station_ends() {
    what=$1
    wanted=$2
    boot=$((boot + 1))
    log_on_and_off "$3" "$folder/$4" $boot "$folder/station.out"
    found=$?
    shift 4
    echo "$what, the workstation ends with status $found"
    printf '%s\n' "$@" > "$folder/wanted"
    [ $found -eq "$wanted" ] && cmp -s "$folder/wanted" "$folder/station.out" && return 0
    echo "not with status $wanted and these lines:"
    cat "$folder/wanted"
    echo "but:"
    cat "$folder/station.out"
    failed=1
}

# whether a workstation in Python ends with that status and these lines, for these calls: WHAT WANTED CALLS LINE..
peer_ends() {
    what=$1
    wanted=$2
    calls=$3
    shift 3
    timeout 30 python3 "$peers/station.py" "$controller_port" WS1 "$station_secret" CORP ann "$hash" $calls \
        > "$folder/peer_station.out" 2>&1
    found=$?
    echo "$what, a workstation in Python ends with status $found"
    printf '%s\n' "$@" > "$folder/wanted"
    [ $found -eq "$wanted" ] && cmp -s "$folder/wanted" "$folder/peer_station.out" && return 0
    cat "$folder/peer_station.out"
    failed=1
}

# starts a peer, and waits until it listens: FILE PORT WORD..
start_peer() {
    file=$1
    shift
    python3 "$peers/$file" "$@" > "$folder/peer.out" 2>&1 &
    peer=$!
    silent="$silent $peer"
    wait_for $peer "$1" || { echo "$file doesn't listen"; cat "$folder/peer.out"; exit 1; }
}

# kills this process, and waits until it is gone
end() {
    kill -KILL "$1" 2>/dev/null
    wait "$1" 2>/dev/null
}

# starts the workstation behind a proxy that goes mute on that link behind so many answers, and waits until it is mute:
# LINK ANSWERS
start_muted() {
    start_peer mute_proxy.py "$proxy_port" "$controller_port" "$1" "$2"
    boot=$((boot + 1))
    "$bin/nt_logon" station --controller "127.0.0.1:$proxy_port" --computer WS1 --secret "$folder/ws1.secret" \
        --domain CORP --user ann --hash "$folder/ann.hash" --seed "$folder/station.seed" --boot $boot \
        > "$folder/muted.out" 2>&1 &
    station=$!
    silent="$silent $station"
    soon grep -q mute "$folder/peer.out" || { echo "the proxy isn't mute at link $1"; cat "$folder/muted.out"; exit 1; }
}

station_ends "while nobody listens" 8 "$controller_port" ann.hash 'no answer'

start_controller
station_ends "with the right hash" 0 "$controller_port" ann.hash 'in CORP\ann' off
station_ends "with a wrong hash" 1 "$controller_port" wrong.hash refused
peer_ends "at our controller" 0 "logon logoff logoff" 00000000 00000000 'CORP\ann' 00000000 c000005f

for link in 1 2 3 4; do
    for answers in 0 1; do
        start_muted $link $answers
        end "$station"
        end "$peer"
        : > "$folder/wanted"
        [ $link -lt 4 ] || printf '%s\n' 'in CORP\ann' > "$folder/wanted"
        cmp -s "$folder/wanted" "$folder/muted.out" ||
            { echo "killed at link $link behind $answers answers, it had put:"; cat "$folder/muted.out"; failed=1; }
        station_ends "after one was killed at link $link behind $answers answers" 0 "$controller_port" ann.hash 'in CORP\ann' off
    done
done
peer_ends "after these" 0 "logon logoff logoff logoff logoff" 00000000 00000000 'CORP\ann' 00000000 00000000 00000000 c000005f

start_muted 4 0
end "$controller"
end "$peer"
controller=
wait "$station"
lost=$?
echo "where the controller is lost before the logoff, the workstation ends with status $lost"
[ $lost -eq 8 ] || failed=1
printf '%s\n' 'in CORP\ann' 'no answer' > "$folder/wanted"
cmp -s "$folder/wanted" "$folder/muted.out" || { cat "$folder/muted.out"; failed=1; }

start_peer judge.py "$judge_port" "$station_secret" "$hash"
station_ends "at a controller in Python" 0 "$judge_port" ann.hash 'in CORP\ann' off
station_ends "at it with a wrong hash" 1 "$judge_port" wrong.hash refused
printf '%s\n' 'passed 00000000' 'passed 00000000' 'passed c000006a' > "$folder/wanted"
cmp -s "$folder/wanted" "$folder/peer.out" || { echo "the controller in Python printed:"; cat "$folder/peer.out"; failed=1; }

[ $failed -eq 0 ] && echo "a workstation logs its user on and off"
exit $failed
