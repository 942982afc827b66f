#!/bin/sh
# A member server that has hardly any descriptors, on the loopback address: what is wanting costs one logon, and the
# server goes on.
#
# usage: demo/few_descriptors.sh [FOLDER]      FOLDER has the three programs, bin/ where none is named
#
# Silent peers hold all descriptors of the member server but one. A logon is told no answer then, since its controller
# can't be dialled. With some of the peers gone the next logon comes in. Then peers hold all descriptors, and two more
# wait; a logon waits behind them, and comes in once they are gone. It ends with status 0 only where each logon had its
# status and both servers still run, and with 1 else; each wait has an end, and all is stopped before it ends.
set -u

bin=${1:-bin}
. "$(dirname "$0")/domain.sh"

# how many descriptors the member server may have: their numbers are below this one
most=12

# how many of these it has open
held() { ls "/proc/$member/fd" | awk -v most=$most '$1 < most' | wc -l; }

# whether it has so many open
holds() { [ "$(held)" -eq "$1" ]; }

# opens silent links to it until it has so many open
crowd() {
    while ! holds "$1"; do
        next=$(($(held) + 1))
        keep_silent "$member_port" && soon holds $next || { echo "no silent link"; exit 1; }
    done
}

# closes the silent links, and waits until the server has as many open as at its start
disperse() {
    for process in $silent; do kill "$process" 2>/dev/null; done
    silent=
    soon holds "$atstart" || { echo "the silent links stay"; failed=1; }
}

# whether a logon had its status: WHAT STATUS WANTED
ends_with() {
    echo "$1 ends with status $2"
    [ "$2" -eq "$3" ] || failed=1
}

start_controller
start_member $most
atstart=$(held)

crowd $((most - 1))
log_on "$folder/ann.hash" 1 "$folder/one.out"
ends_with "a logon, while one descriptor is left," $? 8
disperse
log_on "$folder/ann.hash" 2 "$folder/two.out"
ends_with "a logon, once there are some," $? 0

crowd $most
keep_silent "$member_port" && keep_silent "$member_port" || { echo "no silent link"; exit 1; }
log_on "$folder/ann.hash" 3 "$folder/three.out" &
waiting=$!
sleep 2
kill -0 $waiting 2>/dev/null || { echo "a logon didn't wait for a descriptor"; failed=1; }
disperse
wait $waiting
ends_with "a logon that waited for a descriptor" $? 0

has "$folder/member.out" 'link [0-9]* no controller'
for server in $controller $member; do
    kill -0 "$server" 2>/dev/null || { echo "a server ended"; failed=1; }
done
[ $failed -eq 0 ] && echo "want of descriptors cost one logon"
exit $failed
