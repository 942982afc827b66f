#!/bin/sh
# A secret that a machine changes is the controller's after a new start, on the loopback address.
#
# usage: demo/kept_secret.sh [FOLDER]      FOLDER has the three programs, bin/ where none is named
#
# A controller keeps changed secrets in a file of a folder of its own. A machine, peers/machine.py, opens a secure
# channel by the secret of the table and sets another one. The controller is killed, and started again with the same
# file: the new secret opens a channel, and the old one, which is still in the table, is denied. A member server that
# has the new secret lets a user in, and the secret is changed back, with another start in between. Then the controller
# runs without the file, and the secret of the table opens a channel; a file that isn't of its form is refused. It ends
# with status 0 only where each status was right and the file had its line, and with 1 else; each wait has an end, and
# all is stopped before it ends.
set -u

bin=${1:-bin}
. "$(dirname "$0")/domain.sh"
peers=$(dirname "$0")/../peers

# a machine that asks has that status: WANTED WORD..
asks() {
    wanted=$1
    shift
    timeout 60 python3 "$peers/machine.py" "$controller_port" FILE1 "$@" > "$folder/machine.out" 2>&1
    found=$?
    [ $found -eq "$wanted" ] && return 0
    echo "a machine ended with status $found, not $wanted:"
    cat "$folder/machine.out"
    failed=1
}

# kills the controller, and starts one with these words
restart_controller() {
    kill -KILL "$controller" 2>/dev/null
    wait "$controller" 2>/dev/null
    start_controller "$@"
}

mkdir -m 700 "$folder/kept" || exit 1
secrets=$folder/kept/secrets
(umask 077 && : > "$secrets")
new=$(digits 16)

start_controller --secrets "$secrets"
asks 0 "$secret"
asks 0 "$secret" "$new"
echo "a machine set a secret; the file of changed secrets:"
show "secrets      " "$secrets"
has "$secrets" "FILE1\\$ $new"
[ "$(stat -c %a "$secrets")" = 600 ] || { echo "the file has mode $(stat -c %a "$secrets")"; failed=1; }

restart_controller --secrets "$secrets"
asks 0 "$new"
asks 1 "$secret"
echo "after a new start its status with the old one:"
show "machine      " "$folder/machine.out"
has "$folder/machine.out" c0000022

printf %s "$new" > "$folder/file1.secret"
start_member
log_on "$folder/ann.hash" 1 "$folder/right.out"
right=$?
echo "a logon at a member server with the new secret ends with status $right"
[ $right -eq 0 ] || failed=1

asks 0 "$new" "$secret"
restart_controller --secrets "$secrets"
asks 1 "$new"
asks 0 "$secret" "$new"

restart_controller
asks 0 "$secret"
asks 1 "$new"

kill -KILL "$controller" 2>/dev/null
wait "$controller" 2>/dev/null
printf 'FILE2$ %s\n' "$new" >> "$secrets"
"$bin/nt_controller" serve --listen "127.0.0.1:$controller_port" --name PDC --table "$folder/accounts.toml" \
    --seed "$folder/controller.seed" --boot 1 --secrets "$secrets" --events 0 2> "$folder/refused.err"
refused=$?
[ $refused -eq 4 ] || { echo "a line of no account ends with status $refused, not 4"; failed=1; }
has "$folder/refused.err" 'bad input: 7'
controller=

[ $failed -eq 0 ] && echo "a changed secret outlives the controller"
exit $failed
