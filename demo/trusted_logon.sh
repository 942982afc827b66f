#!/bin/sh
# Two domains on the loopback address, of which one trusts the other, and then each the other: a user of the one logs on
# over a member server of the other.
#
# usage: demo/trusted_logon.sh [FOLDER]      FOLDER has the three programs, bin/ where none is named
#
# CORP's table has a trust of ROAM, and ROAM's a machine of kind trust with the same secret. Over CORP's member server
# sam of ROAM is let in, refused with a wrong password, and not known in a third domain; ann of CORP is let in. Over
# ROAM's member server ann is refused, since ROAM doesn't trust CORP. Then both tables have both entries, all is started
# again, and each is let in over the other domain's member server. It ends with status 0 only where each status was
# right and each server printed exactly what it should, and with 1 else; each wait has an end, and all is stopped before
# it ends.
set -u

bin=${1:-bin}
. "$(dirname "$0")/domain.sh"
. "$(dirname "$0")/two_domains.sh"

start_other "$trust_port"
start_corp
start_second HALL ROAM "$trust_port"

logs_on "with the right password" 0 "$member_port" ROAM sam sam.hash
show "nt_logon     " "$folder/logon.out"
logs_on "with a wrong password" 1 "$member_port" ROAM sam wrong.hash
logs_on "in a domain that nobody knows" 1 "$member_port" NOWHERE sam sam.hash
logs_on "with the right password" 0 "$member_port" CORP ann ann.hash
logs_on "where CORP isn't trusted" 1 "$second_port" CORP ann ann.hash
logs_on "at home" 0 "$second_port" ROAM sam sam.hash

echo "what CORP's servers printed meanwhile, and ROAM's:"
show "nt_member    " "$folder/member.out"
show "nt_controller" "$folder/controller.out"
show "nt_member    " "$folder/second.out"
show "nt_controller" "$folder/other.out"
printed "CORP's" member 'link 1 in ROAM\sam' 'link 2 out c000006a' 'link 3 out c00000df' 'link 4 in CORP\ann'
printed "CORP's" controller 'forwarded' 'answered 00000000' 'forwarded' 'answered c000006a' 'passed c00000df' \
    'passed 00000000'
printed "ROAM's" second 'link 1 out c00000df' 'link 2 in ROAM\sam'
printed "ROAM's" other 'passed 00000000' 'passed c000006a' 'passed c00000df' 'passed 00000000'

# each trusts the other
end "$controller" "$member" "$second" "$other"
cat >> "$folder/accounts.toml" <<TABLE

[[machine]]
name = "ROAM\$"
kind = "trust"
hash = "$(cat "$folder/back.secret")"
controllers = ["RDC"]
TABLE
cat >> "$folder/roam.toml" <<TABLE

[[trust]]
domain = "CORP"
hash = "$(cat "$folder/back.secret")"
address = "127.0.0.1:$controller_port"
TABLE
start_other "$trust_port"
start_corp
start_second HALL ROAM "$trust_port"

logs_on "where each domain trusts the other" 0 "$member_port" ROAM sam sam.hash
logs_on "where each domain trusts the other" 0 "$second_port" CORP ann ann.hash
logs_on "where each domain trusts the other" 0 "$member_port" ROAM sam sam.hash
printed "CORP's" member 'link 1 in ROAM\sam' 'link 2 in ROAM\sam'
printed "CORP's" controller 'forwarded' 'answered 00000000' 'passed 00000000' 'forwarded' 'answered 00000000'
printed "ROAM's" second 'link 1 in CORP\ann'
printed "ROAM's" other 'passed 00000000' 'forwarded' 'answered 00000000' 'passed 00000000'

[ $failed -eq 0 ] && echo "users are let in by their own domains"
exit $failed
