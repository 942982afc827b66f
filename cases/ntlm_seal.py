"""Cases of ntlm_seal.

`seal.run EXPORTED FLAGS SIDE STEP..`, whose steps are `sign,UNIT` (the signature), `check,UNIT,SIGNATURE` (the answer),
`seal,UNIT,FROM,TO` (the signature and the sealed unit) and `open,UNIT,FROM,TO,SIGNATURE` (the answer and what the unit
then is). The answers stand with `;` between them.
"""

from forms import err, line, ok, values

OTHER = {"client": "server", "server": "client"}


def zeroed(unit, start, end):
    """A unit with zeros in a range."""
    return unit[: 2 * start] + "00" * (end - start) + unit[2 * end :]


def altered(data, at):
    """Bytes in hex with one bit of the byte at a place changed."""
    changed = bytearray.fromhex(data)
    changed[at] ^= 1
    return changed.hex()


def seal_step(unit):
    """A unit is sealed."""
    return f"seal,{unit['unit']},{unit['from']},{unit['to']}", f"{unit['signature']} {unit['sealed_unit']}"


def open_step(unit, answer=None, signature=None, left=None):
    """A sealed unit is opened: to the plain one, if nothing else is said."""
    words = unit["sealed_unit"], str(unit["from"]), str(unit["to"]), signature or unit["signature"]
    return "open," + ",".join(words), f"{answer or ok('()')} {left or unit['unit']}"


def sign_step(unit):
    """A unit is signed."""
    return f"sign,{unit['unit']}", unit["signature"]


def check_step(unit, answer=None, signature=None):
    """A signed unit is checked."""
    return f"check,{unit['unit']},{signature or unit['signature']}", answer or ok("()")


def scenario(session, side, steps):
    """A line of steps, each with its answer, at the end of one side."""
    words = [step for step, _ in steps]
    answers = ";".join(answer for _, answer in steps)
    return line("seal.run", session["exported_key"], session["flags"], side, *words), answers


def broken(sealed):
    """What every call answers after a refusal."""
    refusal = err("Broken")
    return [
        open_step(sealed, refusal, left=sealed["sealed_unit"]),
        check_step(sealed, refusal),
        (f"seal,{sealed['unit']},{sealed['from']},{sealed['to']}", f"Broken {sealed['unit']}"),
        (f"sign,{sealed['unit']}", "Broken"),
    ]


def of_session(session):
    """Both sides' units, as they are sent and as they are taken; then refusals (MS-NLMP 3.4)."""
    out = []
    for side, other in OTHER.items():
        for name in ["sealed", "sealed_whole"]:
            units = session.get(f"{side}_{name}") or []
            if units:
                out.append(scenario(session, side, [seal_step(unit) for unit in units]))
                out.append(scenario(session, other, [open_step(unit) for unit in units]))
        units = session.get(f"{side}_signed") or []
        if units:
            out.append(scenario(session, side, [sign_step(unit) for unit in units]))
            out.append(scenario(session, other, [check_step(unit) for unit in units]))
    # Both directions on one session: they don't share a key stream.
    mine, theirs = session.get("client_sealed"), session.get("server_sealed")
    if mine and theirs:
        steps = [seal_step(mine[0]), open_step(theirs[0]), seal_step(mine[1]), open_step(theirs[1])]
        out.append(scenario(session, "client", steps))
    return out


def of_refusals(session):
    """A unit that comes twice, out of order, with another version or another checksum; each refusal breaks the
    session."""
    first, second = session["client_sealed"]
    version = altered(first["signature"], 0)
    checksum = altered(first["signature"], 4)
    gone = zeroed(first["sealed_unit"], first["from"], first["to"])
    whole = first["sealed_unit"]
    again = err("BadSequence { found: 0, wanted: 1 }")
    early = err("BadSequence { found: 1, wanted: 0 }")
    lists = [
        [open_step(first), open_step(first, again, left=whole)],
        [open_step(second, early, left=second["sealed_unit"])],
        [open_step(first, err("BadVersion"), signature=version, left=whole)],
        [open_step(first, err("BadChecksum"), signature=checksum, left=gone)],
    ]
    out = [scenario(session, "server", steps + broken(first)) for steps in lists]
    first, second = session["client_signed"]
    version = altered(first["signature"], 3)
    checksum = altered(first["signature"], 11)
    lists = [
        [check_step(first), check_step(first, again)],
        [check_step(second, early)],
        [check_step(first, err("BadVersion"), signature=version)],
        [check_step(first, err("BadChecksum"), signature=checksum)],
        [check_step(first, err("BadSequence { found: 256, wanted: 0 }"), signature=altered(first["signature"], 13))],
    ]
    after = broken(session["client_sealed"][0])
    out += [scenario(session, "server", steps + after) for steps in lists]
    return out


def of_message(case):
    """The units that another client sealed after its message, whole: as it sealed them, and as the server opens
    them."""
    units = [
        {
            "unit": each["plain"],
            "from": 0,
            "to": len(each["plain"]) // 2,
            "sealed_unit": each["sealed"],
            "signature": each["signature"],
        }
        for each in case["sealed_by_client"] or []
    ]
    if not units:
        return []
    session = {"exported_key": case["exported_key"], "flags": case["agreed_flags"]}
    return [
        scenario(session, "client", [seal_step(unit) for unit in units]),
        scenario(session, "server", [open_step(unit) for unit in units]),
    ]


def of_link(link):
    """A recorded link: each end sends its units and takes the other's, in the order in which they went."""
    is_sealed = link["name"] == "level privacy"
    ends = {"client": [], "server": []}
    for each in link["units"]:
        if "plain_unit_before_value" not in each:
            continue
        unit = {
            "unit": each["plain_unit_before_value"],
            "from": each["sealed_from"],
            "to": each["sealed_to"],
            "sealed_unit": each["unit"][:-32],
            "signature": each["unit"][-32:],
        }
        sender = each["sender"]
        ends[sender].append(seal_step(unit) if is_sealed else sign_step(unit))
        ends[OTHER[sender]].append(open_step(unit) if is_sealed else check_step(unit))
    return [scenario(link, end, steps) for end, steps in ends.items()]


def cases():
    """Each line and its answer."""
    out = []
    settings = values("ntlm")["settings"]
    for case in settings:
        for session in case["v1_ess"]["sessions"] + case["v2"]["sessions"]:
            out += of_session(session)
    # The refusals under every strength, with keys exchanged and without.
    for session in settings[0]["v2"]["sessions"]:
        out += of_refusals(session)
    for case in values("messages")["authenticate"]:
        out += of_message(case)
    for link in values("units")["sessions"]:
        out += of_link(link)
    return out
