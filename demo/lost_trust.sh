#!/bin/sh
# A trusted domain's controller that isn't there, is started again, mute or slow, or whose reply is lost, on the
# loopback address: what fails is told in its time, and the next logon comes in.
#
# usage: demo/lost_trust.sh [FOLDER]      FOLDER has the three programs, bin/ where none is named
#
# CORP trusts ROAM, and sam of ROAM logs on over CORP's member server. Nobody listens at the trust's address, then
# nobody answers a dial there, and then ROAM's controller listens. It is killed and started again between two logons,
# and then stopped, so that it takes links and answers nothing; while sam waits for it ann logs on over another member
# server. By proxies of peers/ each of its answers comes a second late, and then one reply is lost. It ends with status
# 0 only where each status, line and time was right, and with 1 else; each wait has an end, and all is stopped before it
# ends.
set -u

bin=${1:-bin}
. "$(dirname "$0")/domain.sh"
. "$(dirname "$0")/two_domains.sh"

# whether what began then lasted so many seconds: WHAT BEGUN LEAST MOST. The port counts whole seconds, so a limit of
# silence may be over a second early. The most leaves a slow machine time, under the 15 seconds after which a member
# server gives its controller up.
lasted() {
    seconds=$(($(date +%s) - $2))
    [ $seconds -ge "$3" ] && [ $seconds -le "$4" ] && return 0
    echo "$1 it lasted $seconds seconds, not $3 to $4"
    failed=1
}

# whether CORP's controller has handed on so many logons
forwarded() { [ "$(grep -cx forwarded "$folder/controller.out")" -eq "$1" ]; }

# whether sam's logon ends with that status, in so many seconds: WHAT WANTED LEAST MOST
sam_logs_on() {
    begun=$(date +%s)
    logs_on "$1" "$2" "$member_port" ROAM sam sam.hash
    lasted "$1" "$begun" "$3" "$4"
}

start_corp
start_second FILE2 CORP "$controller_port"
sam_logs_on "while nobody listens" 1 0 12

start_peer full_place.py
soon grep -q full "$folder/peer.out" || { echo "the place isn't full"; exit 1; }
sam_logs_on "while no dial is answered" 1 1 12
end "$peer"

start_other "$trust_port"
sam_logs_on "once ROAM's controller is there" 0 0 12
end "$other"
start_other "$trust_port"
sam_logs_on "after it was started again" 1 0 12
printed "ROAM's" other 'no channel'
sam_logs_on "after that" 0 0 12

kill -STOP "$other"
begun=$(date +%s)
log_on_at "$member_port" ROAM sam "$folder/sam.hash" 1000 "$folder/mute.out" &
waiting=$!
soon forwarded 6 || { echo "the logon isn't handed on"; failed=1; }
logs_on "while it is mute, over another member server" 0 "$second_port" CORP ann ann.hash
# on a machine so slow that ann's logon took the limit's time this tells nothing
kill -0 $waiting 2>/dev/null || [ $(($(date +%s) - begun)) -ge 2 ] ||
    { echo "sam's logon was over before ann's"; failed=1; }
wait $waiting
mute=$?
echo "while it is mute, sam of ROAM ends with status $mute"
[ $mute -eq 1 ] || failed=1
lasted "while it is mute" "$begun" 1 12
kill -CONT "$other"
sam_logs_on "once it goes on" 0 0 12
printed "CORP's" member 'link 1 out c000005e' 'link 2 out c000005e' 'link 3 in ROAM\sam' 'link 4 out c000005e' \
    'link 5 in ROAM\sam' 'link 6 out c000005e' 'link 7 in ROAM\sam'
printed "CORP's" controller 'forwarded' 'answered c000005e' 'forwarded' 'answered c000005e' \
    'forwarded' 'answered 00000000' 'forwarded' 'answered c000005e' 'forwarded' 'answered 00000000' \
    'forwarded' 'passed 00000000' 'answered c000005e' 'forwarded' 'answered 00000000'

end "$controller" "$member" "$other"
start_other "$behind_port"
start_peer slow_proxy.py "$behind_port" 1
start_corp
sam_logs_on "while each answer is a second late" 0 5 14
printed "CORP's" controller 'forwarded' 'answered 00000000'

end "$controller" "$member" "$peer"
start_peer losing_proxy.py "$behind_port" 2
start_corp
sam_logs_on "where the reply is lost" 1 0 12
has "$folder/peer.out" lost
printed "ROAM's" other 'passed 00000000' 'passed 00000000'
sam_logs_on "after that" 0 0 12
printed "CORP's" member 'link 1 out c000005e' 'link 2 in ROAM\sam'
printed "CORP's" controller 'forwarded' 'answered c000005e' 'forwarded' 'answered 00000000'
printed "ROAM's" other 'passed 00000000' 'passed 00000000' 'passed 00000000'

[ $failed -eq 0 ] && echo "a trust that is lost costs its own logons alone"
exit $failed
