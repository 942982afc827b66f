#!/bin/sh
# A Netlogon channel that seals, on the loopback address.
#
# usage: demo/sealed_channel.sh [FOLDER]      FOLDER has the three programs, bin/ where none is named
#
# A member server with --seal on logs a user on over nt_controller, at level 3 with identifiers beyond the domain's, and
# changes its secret on that channel. A machine in Python does the same at nt_controller, and more
# (peers/sealing.py), and a controller in Python serves a sealed member; one that can't seal is of no use to it. Beside
# that four members ask through proxies (peers/altering_proxy.py) that alter each byte of a sealed request and of a
# sealed reply, one logon after the other: no altered request passes, no altered reply lets anybody in, and of the next
# two logons one is let in. It ends with status 0 only where each line and status was right, and with 1 else; each wait
# has an end, and all is stopped before it ends.
set -u

bin=${1:-bin}
. "$(dirname "$0")/domain.sh"
peers=$(dirname "$0")/../peers
shares=4

sed -i 's/^rid = 1001$/&\nextra_sids = ["S-1-5-32-544", "S-1-18-1"]/' "$folder/accounts.toml"
machine_secret=$(digits 16)
printf '\n[[machine]]\nname = "FILE2$"\nkind = "workstation"\nhash = "%s"\n' "$machine_secret" >> "$folder/accounts.toml"
# the domain of the altered units: FILE10 and on
cp "$folder/accounts.toml" "$folder/altered.toml"
share=0
while [ $share -lt $shares ]; do
    digits 16 > "$folder/file1$share.secret"
    printf '\n[[machine]]\nname = "FILE1%s$"\nkind = "workstation"\nhash = "%s"\n' $share "$(cat "$folder/file1$share.secret")" \
        >> "$folder/altered.toml"
    share=$((share + 1))
done

# a port that nobody listens at, behind those that were taken before
last_port=$member_port
next_port() { last_port=$(free_port $((last_port + 1))); }

# waits until a peer that was started last listens: WHAT PORT OUTPUT
began() { silent="$silent $!"; wait_for $! "$2" || { echo "$1 doesn't listen"; cat "$3"; exit 1; }; }

# whether a file has exactly these lines: WHAT FILE LINE..
printed() {
    what=$1
    file=$2
    shift 2
    printf '%s\n' "$@" > "$folder/wanted"
    cmp -s "$folder/wanted" "$file" && return 0
    echo "$what printed:"
    cat "$file"
    failed=1
}

# how many lines of a file are like that: FILE LINE
count() { grep -cx -e "$2" "$1"; }

# ---- altered units, beside all that follows

next_port
altered_port=$last_port
"$bin/nt_controller" serve --listen "127.0.0.1:$altered_port" --name PDC --table "$folder/altered.toml" \
    --seed "$folder/client.seed" --boot 1 > "$folder/altered.out" 2> "$folder/altered.err" &
began "the second nt_controller" "$altered_port" "$folder/altered.err"
share=0
proxies=
while [ $share -lt $shares ]; do
    next_port
    proxy_port=$last_port
    next_port
    "$bin/nt_member" serve --listen "127.0.0.1:$last_port" --computer FILE1$share --domain CORP \
        --secret "$folder/file1$share.secret" --controller "127.0.0.1:$proxy_port" --seed "$folder/member.seed" \
        --boot $((100 + share)) --seal on > "$folder/member$share.out" 2> "$folder/member$share.err" &
    began "nt_member of FILE1$share" "$last_port" "$folder/member$share.err"
    timeout 60 python3 "$peers/altering_proxy.py" "$proxy_port" "$altered_port" "$last_port" CORP ann "$hash" $share $shares \
        > "$folder/proxy$share.out" 2>&1 &
    silent="$silent $!"
    proxies="$proxies $!"
    share=$((share + 1))
done

# ---- a sealed member server, and the change of its secret

mkdir -m 700 "$folder/kept" "$folder/own" || exit 1
digits 16 > "$folder/new.secret"
new=$(cat "$folder/new.secret")
(umask 077 && : > "$folder/kept/secrets" && printf '%s\n' "$secret" > "$folder/own/secret")
start_controller --secrets "$folder/kept/secrets"
member_secrets=$folder/own/secret
member_words="--seal on --change $folder/new.secret"
start_member
log_on "$folder/ann.hash" 1 "$folder/right.out"
right=$?
log_on "$folder/wrong.hash" 2 "$folder/wrong.out"
wrong=$?
log_on "$folder/ann.hash" 3 "$folder/again.out"
again=$?
echo "over a sealed channel logons end with status $right, $wrong, $again"
[ "$right $wrong $again" = "0 1 0" ] || failed=1
has "$folder/right.out" 'in CORP\\ann'
printed nt_member "$folder/member.out" 'link 1 in CORP\ann' 'link 2 out c000006a' 'link 3 in CORP\ann'
printed nt_controller "$folder/controller.out" 'passed 00000000' 'passed 00000000' 'passed c000006a' 'passed 00000000'
printed "the change of the secret" "$folder/kept/secrets" "FILE1\$ $new"
printed "the change of the secret" "$folder/own/secret" "$new"

# ---- a machine in Python

timeout 30 python3 "$peers/sealing.py" machine "$controller_port" CORP FILE2 "$machine_secret" "$(digits 16)" ann "$hash" \
    > "$folder/machine.out" 2>&1
found=$?
echo "a machine in Python ends with status $found:"
show "machine      " "$folder/machine.out"
[ $found -eq 0 ] || failed=1
printed "the machine" "$folder/machine.out" 'opened 00000000 400041ff' 'logon 00000000 S-1-18-1 S-1-5-32-544' \
    'unsealed c0000022' 'logon 00000000 S-1-18-1 S-1-5-32-544' 'logon 00000000 S-1-18-1 S-1-5-32-544' 'changed 00000000' \
    'again closed' 'opened 00000000 400041ff' 'replaced closed' 'logon 00000000 S-1-18-1 S-1-5-32-544'
printed nt_controller "$folder/controller.out" 'passed 00000000' 'passed 00000000' 'passed c000006a' 'passed 00000000' \
    'passed 00000000' 'no channel' 'passed 00000000' 'passed 00000000' 'passed 00000000' 'passed 00000000' 'passed 00000000'

# ---- a controller in Python, and one that can't seal

member_words="--seal on"
for kind in controller plain; do
    what="controller in Python"
    [ $kind = plain ] && what="controller in Python that can't seal"
    kill "$member" 2>/dev/null
    wait "$member" 2>/dev/null
    next_port
    asked_port=$last_port
    timeout 60 python3 "$peers/sealing.py" $kind "$asked_port" CORP FILE1 "$new" ann "$hash" > "$folder/peer_$kind.out" 2>&1 &
    began "the $what" "$asked_port" "$folder/peer_$kind.out"
    member_boot=$((member_boot + 1))
    start_member
    log_on "$folder/ann.hash" $((member_boot + 10)) "$folder/right.out"
    right=$?
    log_on "$folder/wrong.hash" $((member_boot + 20)) "$folder/wrong.out"
    wrong=$?
    echo "over a $what logons end with status $right, $wrong"
    if [ $kind = controller ]; then
        [ "$right $wrong" = "0 1" ] || failed=1
        printed nt_member "$folder/member.out" 'link 1 in CORP\ann' 'link 2 out c000006a'
        printed "the controller in Python" "$folder/peer_controller.out" 'passed 00000000' 'passed c000006a'
    else
        [ "$right $wrong" = "8 8" ] || failed=1
        printed nt_member "$folder/member.out" 'link 1 no controller' 'link 2 no controller'
        [ -s "$folder/peer_plain.out" ] && { echo "one that can't seal:"; cat "$folder/peer_plain.out"; failed=1; }
    fi
done

# ---- what came of the altered units

share=0
requests=0
replies=0
granted=0
for proxy in $proxies; do
    wait "$proxy" || { echo "the proxy of FILE1$share ends with status $?"; cat "$folder/proxy$share.out"; failed=1; }
    requests=$((requests + $(sed -n 's/^request //p' "$folder/proxy$share.out")))
    replies=$((replies + $(sed -n 's/^reply //p' "$folder/proxy$share.out")))
    granted=$((granted + $(sed -n 's/^in //p' "$folder/proxy$share.out")))
    told=$(count "$folder/member$share.out" 'link [0-9]* in CORP\\ann')
    [ "$told" -eq "$(sed -n 's/^in //p' "$folder/proxy$share.out")" ] || { echo "FILE1$share let in $told"; failed=1; }
    share=$((share + 1))
done
passed=$(count "$folder/altered.out" 'passed 00000000')
echo "of $requests altered requests and $replies altered replies none let anybody in; $granted logons beside them did"
echo "the controller passed $passed calls"
[ "$requests" -gt 300 ] && [ "$replies" -gt 300 ] && [ "$passed" -eq $((granted + replies)) ] || failed=1
[ "$(grep -cvx 'passed 00000000' "$folder/altered.out")" -eq 0 ] || { echo "the controller printed:"; sort "$folder/altered.out" | uniq -c; failed=1; }

[ $failed -eq 0 ] && echo "the channel is sealed"
exit $failed
