#!/bin/sh
# A domain on the loopback address: a controller, a member server and two logons, one with the right password and one
# with a wrong one; and a workstation at which a user logs on and off.
#
# usage: demo/run.sh [FOLDER]      FOLDER has the three programs, bin/ where none is named
#
# It makes a table, seeds and a secret in a folder of its own and starts nt_controller and nt_member on two free ports.
# A peer that stays silent has a link to each of them all the while (by bash, which opens TCP links). It logs a user on
# with a sealed echo of 16 bytes, and lets a logon with a wrong password be refused. Then the user logs on at a
# workstation, by the controller alone, and off again. It ends with status 0 only where each program printed what it
# should and each logon had its status, and with 1 else; each wait has an end, and both servers are stopped before it
# ends.
set -u

bin=${1:-bin}
. "$(dirname "$0")/domain.sh"

start_controller
start_member
keep_silent "$controller_port" && keep_silent "$member_port" || { echo "no silent link"; exit 1; }

log_on "$folder/ann.hash" 1 "$folder/right.out"
right=$?
log_on "$folder/wrong.hash" 2 "$folder/wrong.out"
wrong=$?
log_on_and_off "$controller_port" "$folder/ann.hash" 1 "$folder/station.out"
station=$?

echo "a logon with the right password, which ends with status $right:"
show "nt_logon     " "$folder/right.out"
echo "one with a wrong password, which ends with status $wrong:"
show "nt_logon     " "$folder/wrong.out"
echo "a logon at a workstation and the logoff, which end with status $station:"
show "nt_logon     " "$folder/station.out"
echo "what the servers printed meanwhile:"
show "nt_member    " "$folder/member.out"
show "nt_controller" "$folder/controller.out"

has "$folder/right.out" 'in CORP\\ann'
has "$folder/right.out" 'echo 16'
has "$folder/wrong.out" 'refused'
has "$folder/station.out" 'in CORP\\ann'
has "$folder/station.out" 'off'
has "$folder/member.out" 'link [0-9]* in CORP\\ann'
has "$folder/member.out" 'link [0-9]* out c000006a'
has "$folder/controller.out" 'passed 00000000'
has "$folder/controller.out" 'passed c000006a'
[ $right -eq 0 ] || failed=1
[ $wrong -eq 1 ] || failed=1
[ $station -eq 0 ] || failed=1
[ $failed -eq 0 ] && echo "the domain works"
exit $failed
