#!/bin/sh
# A member server that replaces its secret, on the loopback address: no lost reply and no kill leaves it apart from its
# controller.
#
# usage: demo/changed_secret.sh [FOLDER]      FOLDER has the three programs, bin/ where none is named
#
# The member is started with a new secret before there is a controller, behind a proxy, peers/losing_proxy.py, that
# loses the reply by which the controller takes it. Between the steps servers are killed and started again, over the
# files that both keep. What the files hold is looked at after each step. In the end they have the new secret, and the
# user is let in. It ends with status 0 only where each status, line and file was right, and with 1 else; each wait has
# an end, and all is stopped before it ends.
set -u

bin=${1:-bin}
. "$(dirname "$0")/domain.sh"
peers=$(dirname "$0")/../peers

mkdir -m 700 "$folder/kept" "$folder/own" || exit 1
kept=$folder/kept/secrets
member_secrets=$folder/own/secret
new=$(digits 16)
(umask 077 && : > "$kept" && printf '%s\n' "$secret" > "$member_secrets")
printf '%s\n' "$new" > "$folder/new.secret"
: > "$folder/member.all"
: > "$folder/controller.all"
member_words="--change $folder/new.secret"

# kills the member server, and starts it again
restart_member() {
    kill -KILL "$member" 2>/dev/null
    wait "$member" 2>/dev/null
    cat "$folder/member.out" >> "$folder/member.all"
    member_boot=$((member_boot + 1))
    start_member
}

# kills the controller, and starts it again
restart_controller() {
    kill -KILL "$controller" 2>/dev/null
    wait "$controller" 2>/dev/null
    cat "$folder/controller.out" >> "$folder/controller.all"
    start_controller --secrets "$kept"
}

# whether a file soon holds exactly these lines: WHAT FILE LINE..
holds() {
    what=$1
    file=$2
    shift 2
    if [ $# -eq 0 ]; then : > "$folder/wanted"; else printf '%s\n' "$@" > "$folder/wanted"; fi
    soon cmp -s "$folder/wanted" "$file" && return 0
    echo "$what the file ${file##*/} holds:"
    cat "$file"
    failed=1
}

# whether what the servers printed so far has so many of such lines: WANTED LINE
printed() {
    found=$(cat "$folder/member.all" "$folder/member.out" "$folder/controller.all" "$folder/controller.out" | grep -cx -e "$2")
    [ "$found" -eq "$1" ] && return 0
    echo "printed $found times, not $1: $2"
    failed=1
}

# whether a logon ends with that status: WHAT WANTED
boot=0
logs_on() {
    boot=$((boot + 1))
    log_on "$folder/ann.hash" $boot "$folder/logon.out"
    found=$?
    echo "$1 a logon ends with status $found"
    [ $found -eq "$2" ] || { failed=1; cat "$folder/logon.out"; }
}

asked_port=$(free_port $((member_port + 1)))
start_member
holds "with a new secret" "$member_secrets" "$secret" "$new"
logs_on "without a controller" 8
restart_member
holds "after a new start" "$member_secrets" "$secret" "$new"

start_controller --secrets "$kept"
python3 "$peers/losing_proxy.py" "$asked_port" "$controller_port" 6 > "$folder/proxy.out" 2>&1 &
proxy=$!
silent="$silent $proxy"
wait_for $proxy "$asked_port" || { echo "the proxy doesn't listen"; cat "$folder/proxy.out"; exit 1; }
restart_controller
holds "before a logon" "$kept"
restart_member
holds "before a logon" "$member_secrets" "$secret" "$new"

logs_on "where the reply is lost" 8
has "$folder/proxy.out" lost
holds "where the reply is lost" "$kept" "FILE1\$ $new"
holds "where the reply is lost" "$member_secrets" "$secret" "$new"

restart_controller
holds "after the controller was killed" "$kept" "FILE1\$ $new"
restart_member
holds "after both were killed" "$kept" "FILE1\$ $new"
holds "after both were killed" "$member_secrets" "$secret" "$new"
logs_on "with the old secret" 8
holds "where the old one was denied" "$member_secrets" "$secret" "$new"
restart_controller
holds "after the controller was killed again" "$kept" "FILE1\$ $new"
logs_on "with the new secret" 0
holds "where the new one opened the channel" "$member_secrets" "$new"
holds "where the new one opened the channel" "$kept" "FILE1\$ $new"
printed 3 'link [0-9]* no controller'
printed 1 'link [0-9]* in CORP\\ann'
printed 2 'passed 00000000'
printed 0 'barred'

restart_member
holds "with --change once more" "$member_secrets" "$new" "$new"
logs_on "with --change once more" 0
holds "with --change once more" "$member_secrets" "$new"
restart_controller
logs_on "at a controller that knows no channel" 8
logs_on "after that" 0
member_words=
restart_member
logs_on "once --change is gone" 0
holds "in the end" "$kept" "FILE1\$ $new"
holds "in the end" "$member_secrets" "$new"
[ "$(stat -c %a "$kept" "$member_secrets" | sort -u)" = 600 ] || { echo "the files have other modes"; failed=1; }

echo "what the servers printed:"
cat "$folder/member.out" >> "$folder/member.all"
cat "$folder/controller.out" >> "$folder/controller.all"
show "nt_member    " "$folder/member.all"
show "nt_controller" "$folder/controller.all"

[ $failed -eq 0 ] && echo "the secret is changed"
exit $failed
