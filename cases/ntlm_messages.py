"""Cases of ntlm_messages.

For each of `negotiate`, `challenge` and `authenticate`: `messages.KIND BYTES`: the message that is read;
`messages.KIND_view BYTES`: the same as a view that lends its parts; `messages.KIND_again BYTES`: the bytes written of
the message that is read.
`messages.negotiate_of FLAGS DOMAIN WORKSTATION VERSION`, `messages.challenge_of FLAGS TARGET CHALLENGE INFO VERSION`
and
`messages.authenticate_of FLAGS LM NT DOMAIN USER WORKSTATION KEY VERSION MIC`: the bytes written of these fields, where
they may be written; flags are 8 hex digits, and a version or a message integrity code that isn't there is `-`.
`messages.pairs BYTES`: the AV_PAIRs that are read; `messages.pairs_again BYTES`: the bytes written of them;
`messages.pairs_of ID=BYTES ..`: the bytes written of these pairs, where they may be written. `messages.pair_value ID
BYTES`: the value of the first pair of an id, of pairs that are read; `messages.timestamp BYTES`: the time in them.
`messages.text FLAGS BYTES`: a text field as units; `messages.read_text FLAGS BYTES`: the same of a message that was
read, whose texts are even.

Fields of foreign messages are the published ones. Of changed messages and of written forms they are worked out here by
the layouts of MS-NLMP 2.2.1, 2.2.1.1 to 2.2.1.3, 2.2.2.1 and the rules of docs/FORMATS.md.
"""

import random

from forms import agree, array, blob, err, items, line, ok, option, struct, units_of, values
from wire import changed, compact, flipped, le, lent, long, short

SIGNATURE = b"NTLMSSP\0"
UNICODE, DOMAIN_SUPPLIED, WORKSTATION_SUPPLIED, VERSION = 0x1, 0x1000, 0x2000, 0x02000000

# A message's type, its fixed header, the place of its flags, its fields in the header's order with their places, and
# the texts among them.
KINDS = {
    "negotiate": (1, 16, 12, [("Domain", 16), ("Workstation", 24)], []),
    "challenge": (2, 48, 20, [("Target", 12), ("Info", 40)], ["Target"]),
    "authenticate": (3, 64, 60, [("Lm", 12), ("Nt", 20), ("Domain", 28), ("User", 36), ("Workstation", 44), ("Key", 52)],
                     ["Domain", "User", "Workstation"]),
}
# The payload's order in the written form.
ORDER = {
    "negotiate": ["Domain", "Workstation"],
    "challenge": ["Target", "Info"],
    "authenticate": ["Domain", "User", "Workstation", "Lm", "Nt", "Key"],
}


class Refused(Exception):
    """A refusal, as it is printed."""


def read(kind, data):
    """The fields of a message, or `Refused`: a short header, the signature, the type, the first field outside, the
    first odd text."""
    number, least, flags_at, fields, texts = KINDS[kind]
    if len(data) < least:
        raise Refused("ShortHeader")
    if data[:8] != SIGNATURE:
        raise Refused("BadSignature")
    if long(data, 8) != number:
        raise Refused(f"BadType({long(data, 8)})")
    flags = long(data, flags_at)
    size = 32 if kind == "negotiate" else least
    found = {"flags": flags}
    gap = len(data)
    for name, at in fields:
        found[name] = b""
        if kind == "negotiate" and not (len(data) >= 32 and flags & (DOMAIN_SUPPLIED if name == "Domain" else WORKSTATION_SUPPLIED)):
            continue
        count, offset = short(data, at), long(data, at + 4)
        if not count:
            continue
        if offset < size or offset + count > len(data):
            raise Refused(f"FieldOutside({name})")
        found[name] = data[offset:offset + count]
        gap = min(gap, offset)
    if flags & UNICODE:
        for name in texts:
            if len(found[name]) % 2:
                raise Refused(f"OddText({name})")
    found["version"] = data[size:size + 8] if flags & VERSION and gap >= size + 8 else None
    if kind == "challenge":
        found["challenge"] = data[24:32]
    if kind == "authenticate":
        found["mic"] = data[72:88] if found["version"] is not None and gap >= 88 else None
    return found


def write(kind, found):
    """The written form: the header, the version, the message integrity code, and the payload without gaps."""
    number, least, flags_at, fields, _ = KINDS[kind]
    for name, _ in fields:
        if len(found[name]) > 65535:
            raise Refused(f"TooLong({name})")
    front = (found["version"] or b"") + (found.get("mic") or b"")
    size = 32 if kind == "negotiate" else least
    places, at = {}, size + len(front)
    for name in ORDER[kind]:
        places[name] = at
        at += len(found[name])

    def field(name):
        return le(len(found[name]), 2) * 2 + le(places[name], 4)

    head = SIGNATURE + le(number, 4)
    if kind == "negotiate":
        head += le(found["flags"], 4) + field("Domain") + field("Workstation")
    elif kind == "challenge":
        head += field("Target") + le(found["flags"], 4) + found["challenge"] + bytes(8) + field("Info")
    else:
        head += b"".join(field(name) for name, _ in fields) + le(found["flags"], 4)
    return head + front + b"".join(found[name] for name in ORDER[kind])


def shown(kind, found, view=False):
    """What `{:?}` prints of it."""
    part = lent if view else lambda data: blob(data.hex())
    name = {"negotiate": "Negotiate", "challenge": "Challenge", "authenticate": "Authenticate"}[kind] + ("View" if view else "")
    version = option(found["version"], lent)
    if kind == "negotiate":
        return struct(name, flags=found["flags"], domain=part(found["Domain"]), workstation=part(found["Workstation"]), version=version)
    if kind == "challenge":
        return struct(name, flags=found["flags"], target=part(found["Target"]), challenge=lent(found["challenge"]),
                      info=part(found["Info"]), version=version)
    return struct(name, flags=found["flags"], lm=part(found["Lm"]), nt=part(found["Nt"]), domain=part(found["Domain"]),
                  user=part(found["User"]),
                  workstation=part(found["Workstation"]), key=part(found["Key"]), version=version, mic=option(found["mic"], lent))


def published(kind, fields):
    """The published fields in the form that `read` gives."""
    found = {"flags": int(fields["flags"], 16)}
    for name, _ in KINDS[kind][3]:
        found[name] = bytes.fromhex(fields[name.lower()])
    for name in ("version", "mic", "challenge"):
        if name in fields:
            found[name] = None if fields[name] is None else bytes.fromhex(fields[name])
    return found


def read_cases(kind, data, both=True):
    """A message read, as a value and as a view; worked out here."""
    try:
        found = read(kind, data)
    except Refused as refused:
        out = [(line(f"messages.{kind}", compact(data)), err(refused))]
        return out + [(line(f"messages.{kind}_view", compact(data)), err(refused))] if both else out
    out = [(line(f"messages.{kind}", compact(data)), ok(shown(kind, found)))]
    return out + [(line(f"messages.{kind}_view", compact(data)), ok(shown(kind, found, True)))] if both else out


def foreign_cases():
    """Messages of foreign clients and servers, with the published fields."""
    out = []
    for kind in KINDS:
        for case in values("messages")[kind]:
            data, found = bytes.fromhex(case["message"]), published(kind, case["fields"])
            agree(lambda: read(kind, data), found, case["name"])
            again = write(kind, found)
            agree(lambda: again == data, case["same_when_written"], case["name"])
            out.append((line(f"messages.{kind}", data), ok(shown(kind, found))))
            out.append((line(f"messages.{kind}_view", data), ok(shown(kind, found, True))))
            out.append((line(f"messages.{kind}_again", data), ok(compact(again))))
            out.append((line(f"messages.{kind}_again", again), ok(compact(again))))
            if kind == "authenticate":
                asked = bytes.fromhex(case["challenge_message"])
                out += read_cases("challenge", asked)
                out.append((line("messages.challenge_again", asked), ok(compact(write("challenge", read("challenge", asked))))))
    return out


def recorded_messages(session):
    """The NEGOTIATE, CHALLENGE and AUTHENTICATE of a recorded link: the values of the trailers of bind, bind_ack and
    auth3 (C706 13.2.6.1)."""
    units = [bytes.fromhex(unit["unit"]) for unit in session["units"][:3]]
    return [unit[len(unit) - short(unit, 10):] for unit in units]


def recorded_cases():
    """The messages of Samba's client and controller on two recorded links."""
    out = []
    for session in values("units")["sessions"]:
        messages = recorded_messages(session)
        for kind, data in zip(KINDS, messages):
            out += read_cases(kind, data)
            out.append((line(f"messages.{kind}_again", data), ok(compact(write(kind, read(kind, data))))))
        agree(lambda: read("authenticate", messages[2])["flags"], int(session["flags"], 16), session["name"])
    return out


# An NTLMv1 AUTHENTICATE of domain `Domain`, user `User` and workstation `COMPUTER`, without an LM response: the NT
# response is that of MS-NLMP 4.2.2.2.1.
NTLMV1 = write("authenticate", {
    "flags": 0x8201, "Lm": b"", "Nt": bytes.fromhex("67c43011f30298a2ad35ece64f16331c44bdbed927841f94"),
    "Domain": "Domain".encode("utf-16-le"),
    "User": "User".encode("utf-16-le"), "Workstation": "COMPUTER".encode("utf-16-le"), "Key": b"", "version": None, "mic": None,
})
# A NEGOTIATE that ends behind its flags, as old clients send it.
SHORT_NEGOTIATE = SIGNATURE + le(1, 4) + le(0x8207, 4)
# A CHALLENGE with its target information first, a gap of three bytes, and no room for the version that its flag names.
TURNED_CHALLENGE = bytes.fromhex(
    "4e544c4d53535000020000000800400043000000058281020123456789abcdef111111111111111110000900300000000200080043004f005200500000000000eeeeee43004f0052005000")


# Refused messages worked out by hand from the layouts: the first fault that stands in each is named.
REFUSED = [
    ("negotiate", "4e544c4d5353500001000000078200", "ShortHeader"),
    ("negotiate", "4e544c4d535351000100000007820000", "BadSignature"),
    ("negotiate", "4e544c4d535350000200000007820000", "BadType(2)"),
    ("negotiate", "4e544c4d53535000010000000712000001000100200000000000000020000000", "FieldOutside(Domain)"),
    ("challenge", "4e544c4d53535000020000000000000030000000058200000000000000000000000000000000000000000000300000", "ShortHeader"),
    ("challenge", "4e544c4d5353510002000000000000003000000005820000000000000000000000000000000000000000000030000000", "BadSignature"),
    ("challenge", "4e544c4d5353500003000000000000003000000005820000000000000000000000000000000000000000000030000000", "BadType(3)"),
    ("challenge", "4e544c4d5353500002000000020002002f00000005820000000000000000000000000000000000000000000030000000",
     "FieldOutside(Target)"),
    ("challenge", "4e544c4d535350000200000000000000300000000582000000000000000000000000000000000000020002003000000000",
     "FieldOutside(Info)"),
    ("challenge", "4e544c4d535350000200000001000100300000000582000000000000000000000000000000000000000000003000000000", "OddText(Target)"),
    ("authenticate",
     "4e544c4d5353500003000000000000004000000000000000400000000000000040000000000000004000000000000000400000000000000040000000058200",
     "ShortHeader"),
    ("authenticate",
     "4e544c4d535351000300000000000000400000000000000040000000000000004000000000000000400000000000000040000000000000004000000005820000",
     "BadSignature"),
    ("authenticate",
     "4e544c4d535350000100000000000000400000000000000040000000000000004000000000000000400000000000000040000000000000004000000005820000",
     "BadType(1)"),
    ("authenticate",
     "4e544c4d5353500003000000010001003f0000000000000040000000000000004000000000000000400000000000000040000000010001004000000005820000",
     "FieldOutside(Lm)"),
    ("authenticate",
     "4e544c4d53535000030000000000000040000000000000004000000000000000400000000000000040000000000000004000000002000200400000000582000000",
     "FieldOutside(Key)"),
    ("authenticate",
     "4e544c4d53535000030000000000000040000000000000004000000000000000400000000100010040000000000000004000000000000000400000000582000000",
     "OddText(User)"),
]


def base_messages(kind):
    """Messages to be changed: each part is there in one of them."""
    foreign = [bytes.fromhex(case["message"]) for case in values("messages")[kind]]
    if kind == "negotiate":
        names = {"flags": 0x02003201, "Domain": b"CORP", "Workstation": b"WS7", "version": bytes.fromhex("0601b11d0000000f")}
        return [SHORT_NEGOTIATE, write(kind, names), write(kind, dict(names, flags=0x3201, version=None)), foreign[7]]
    if kind == "challenge":
        plain = {"flags": 0x8205, "Target": "CORP".encode("utf-16-le"), "challenge": bytes(range(1, 9)),
                 "Info": bytes.fromhex("0200040041004200") + bytes(4), "version": None}
        return [write(kind, plain), write(kind, dict(plain, flags=0x02008205, version=bytes.fromhex("0601b11d0000000f"))), TURNED_CHALLENGE]
    plain = {"flags": 0x02008201, "Lm": b"\x11" * 24, "Nt": b"\x22" * 24, "Domain": b"C\0", "User": b"a\0n\0", "Workstation": b"W\0S\0",
             "Key": b"\x33" * 16,
             "version": bytes.fromhex("0601b11d0000000f"), "mic": bytes(range(0x40, 0x50))}
    return [NTLMV1, write(kind, plain), write(kind, dict(plain, mic=None))]


def changed_messages(kind):
    """Each change of a message meets a rule of the layout, or just doesn't."""
    _, least, flags_at, fields, _ = KINDS[kind]
    size = 32 if kind == "negotiate" else least
    out = []
    for number, data in enumerate(base_messages(kind)):
        out.append(data)
        # cut short, and longer
        for count in sorted({0, 1, 7, 8, 11, 12, least - 1, least, size - 1, size, size + 7, size + 8, size + 23, size + 24, len(data) - 1,
                             len(data) - 2}):
            if 0 <= count < len(data):
                out.append(data[:count])
        out.append(data + b"\xee")
        # the signature and the type
        for at in range(8):
            out.append(flipped(data, at, 0x20))
        for other in (0, 1, 2, 3, 4, 0x101, 0x203, 0x01000001, 0x02000002, 2**32 - 1):
            out.append(changed(data, 8, le(other, 4)))
        # both faults at once: the earlier is named
        out.append(flipped(changed(data, 8, le(9, 4)), 0, 1))
        # flags of texts, of names and of the version
        if len(data) >= flags_at + 4:
            for flag in (UNICODE, 2, DOMAIN_SUPPLIED, WORKSTATION_SUPPLIED, DOMAIN_SUPPLIED | WORKSTATION_SUPPLIED, VERSION,
                         VERSION | UNICODE):
                out.append(changed(data, flags_at, le(long(data, flags_at) ^ flag, 4)))
            out.append(changed(data, flags_at, le(0, 4)))
            out.append(changed(data, flags_at, le(2**32 - 1, 4)))
        # each field: its length, its maximum, which is free, and its offset
        for name, at in fields:
            if len(data) < size:
                continue
            count, offset = short(data, at), long(data, at + 4)
            for length in sorted({0, 1, count + 1, max(len(data) - offset, 0), max(len(data) - offset, 0) + 1, 0xFFFF}):
                out.append(changed(data, at, le(length & 0xFFFF, 2)))
            out.append(changed(data, at + 2, le(0xABCD, 2)))
            out.append(changed(data, at + 2, le(0, 2)))
            last = len(data) - count
            for place in sorted({0, size - 1, size, size + 7, size + 8, size + 23, size + 24, max(last, 0), last + 1, len(data), 2**32 - 1,
                                 2**32 - count}):
                out.append(changed(data, at + 4, le(place % 2**32, 4)))
            # an empty field's offset is free
            for place in (0, 2**32 - 1):
                out.append(changed(changed(data, at, le(0, 2)), at + 4, le(place, 4)))
            # all fields are the same bytes: overlaps are free
            out.append(changed(data, at, b"".join([le(2, 2), le(2, 2), le(max(len(data) - 2, 0), 4)])))
        # two faults at once: the first field of the header's order is named, and a field outside before an odd text
        outside = data
        for name, at in fields:
            if len(data) >= size:
                outside = changed(outside, at, le(1, 2) + le(1, 2) + le(1, 4))
        out.append(outside)
        for name, at in fields:
            if len(data) >= size:
                outside = changed(outside, at, le(0, 2))
                out.append(outside)
        # every byte of the header
        if number == 1:
            for at in range(min(size + 8, len(data))):
                out.append(flipped(data, at, 0x81))
    return out


def worked_cases():
    """Messages worked out by hand."""
    out = [(line(f"messages.{kind}", data), err(refused)) for kind, data, refused in REFUSED]
    for kind, data, refused in REFUSED:
        assert read_cases(kind, bytes.fromhex(data))[0][1] == err(refused), data
    # the user is empty, at an offset outside of the message; the last byte of the NT response is cut
    empty = changed(NTLMV1, 36, bytes(4) + b"\xff" * 4)
    assert read("authenticate", empty)["User"] == b""
    out += read_cases("authenticate", NTLMV1) + read_cases("authenticate", empty)
    out.append((line("messages.authenticate_again", empty), ok(compact(write("authenticate", read("authenticate", empty))))))
    for operation in ("authenticate", "authenticate_view"):
        out.append((line(f"messages.{operation}", NTLMV1[:-1]), err("FieldOutside(Nt)")))
    # the same names with the responses of MS-NLMP 4.2.3 (extended session security) and 4.2.4 (NTLMv2)
    published_setting = values("ntlm")["settings"][0]
    ess, v2 = published_setting["v1_ess"], published_setting["v2"]
    for flags, lm, nt in ((0x88201, ess["lm_response"], ess["nt_response"]), (0x8201, "", v2["nt_response"])):
        found = dict(read("authenticate", NTLMV1), flags=flags, Lm=bytes.fromhex(lm), Nt=bytes.fromhex(nt))
        out.append(write_case("authenticate", found))
        out += read_cases("authenticate", write("authenticate", found))
    out += read_cases("negotiate", SHORT_NEGOTIATE) + read_cases("challenge", TURNED_CHALLENGE)
    for data, refused in (("", "NoEnd"), ("0100", "CutPair(0)"), ("0700040000000000", "BadLength(7)")):
        out.append((line("messages.pairs", data), err(refused)))
    return out


def change_cases():
    out = []
    for kind in KINDS:
        for number, data in enumerate(dict.fromkeys(changed_messages(kind))):
            out += read_cases(kind, data, both=number % 8 == 0)
        for data in base_messages(kind):
            again = write(kind, read(kind, data))
            assert read(kind, again) == read(kind, data), data.hex()
            out.append((line(f"messages.{kind}_again", compact(data)), ok(compact(again))))
        # a message of one kind is none of another
        for other in KINDS:
            if other != kind:
                out += read_cases(kind, base_messages(other)[1])
    return out


def odd_cases():
    """Texts of odd length: the first of domain, user and workstation is named where texts are UTF-16LE; responses and
    keys may have any length."""
    out = []
    plain = {"flags": 0x8201, "Lm": b"l", "Nt": b"n", "Domain": b"", "User": b"", "Workstation": b"", "Key": b"k", "version": None,
             "mic": None}
    for flags in (0x8201, 0x8202, 0x8200, 0x8203):
        for domain in (b"", b"d", b"do"):
            for user in (b"", b"u", b"us"):
                for workstation in (b"", b"w", b"wo"):
                    data = write("authenticate", dict(plain, flags=flags, Domain=domain, User=user, Workstation=workstation))
                    out += read_cases("authenticate", data, both=False)
        for target in (b"", b"t", b"ta", b"tar"):
            for info in (b"", b"i"):
                data = write("challenge", {"flags": flags, "Target": target, "challenge": b"challeng", "Info": info, "version": None})
                out += read_cases("challenge", data, both=False)
        for domain in (b"", b"d", b"do"):
            data = write("negotiate", {"flags": flags | DOMAIN_SUPPLIED, "Domain": domain, "Workstation": b"", "version": None})
            out += read_cases("negotiate", data, both=False)
    return out


def gap_cases():
    """Where the first field that isn't empty begins, and whether the version and the message integrity code are
    there."""
    out = []
    for kind, size in (("negotiate", 32), ("challenge", 48), ("authenticate", 64)):
        _, _, flags_at, fields, _ = KINDS[kind]
        for flags in (0, VERSION):
            for name, at in fields:
                for gap in (0, 1, 7, 8, 9, 23, 24, 25):
                    head = SIGNATURE + le(KINDS[kind][0], 4) + bytes(size - 12)
                    head = changed(head, flags_at, le(flags | 2 | DOMAIN_SUPPLIED | WORKSTATION_SUPPLIED, 4))
                    head = changed(head, at, le(4, 2) + le(4, 2) + le(size + gap, 4))
                    data = head + bytes(range(0x61, 0x61 + gap)) + b"last"
                    out += read_cases(kind, data, both=name == fields[0][0])
            for gap in (0, 7, 8, 9, 23, 24, 40):
                head = SIGNATURE + le(KINDS[kind][0], 4) + bytes(size - 12)
                head = changed(head, flags_at, le(flags | DOMAIN_SUPPLIED | WORKSTATION_SUPPLIED, 4))
                out += read_cases(kind, head + bytes(range(0x61, 0x61 + gap)))
        # a name that isn't read leaves room: only the fields that are read count
    head = SIGNATURE + le(1, 4) + le(VERSION | DOMAIN_SUPPLIED, 4) + le(1, 2) * 2 + le(40, 4) + le(1, 2) * 2 + le(32, 4)
    out += read_cases("negotiate", head + b"versions" + b"D")
    out += read_cases("negotiate", changed(head, 12, le(VERSION | WORKSTATION_SUPPLIED, 4)) + b"versions" + b"D")
    out += read_cases("negotiate", changed(head, 12, le(VERSION, 4)) + b"versions" + b"D")
    return out


def words_of(kind, found):
    fields = [name for name, _ in KINDS[kind][3]]
    words = [f"{found['flags']:08x}"] + [compact(found[name]) for name in fields]
    if kind == "challenge":
        words.insert(2, found["challenge"].hex())
    words.append("-" if found["version"] is None else found["version"].hex())
    if kind == "authenticate":
        words.append("-" if found["mic"] is None else found["mic"].hex())
    return words


def may_be_written(kind, found):
    """A version only with its flag, a message integrity code only with a version, texts of even length where they are
    UTF-16LE, and names of NEGOTIATE only with their flags."""
    flags = found["flags"]
    if found["version"] is not None and not flags & VERSION:
        return False
    if kind == "authenticate" and found["mic"] is not None and found["version"] is None:
        return False
    if kind == "negotiate":
        return not (found["Domain"] and not flags & DOMAIN_SUPPLIED) and not (found["Workstation"] and not flags & WORKSTATION_SUPPLIED)
    return not (flags & UNICODE and any(len(found[name]) % 2 for name in KINDS[kind][4]))


def write_case(kind, found):
    if not may_be_written(kind, found):
        answer = "not to be written"
    else:
        try:
            data = write(kind, found)
            answer = ok(compact(data))
            assert read(kind, data) == found, (kind, found)
        except Refused as refused:
            answer = err(refused)
    return line(f"messages.{kind}_of", *words_of(kind, found)), answer


def write_cases():
    version, mic = bytes.fromhex("0601b11d0000000f"), bytes(range(0x80, 0x90))
    out = []
    both = DOMAIN_SUPPLIED | WORKSTATION_SUPPLIED
    plain = {"flags": both, "Domain": b"CORP", "Workstation": b"WS", "version": None}
    for flags in (0, DOMAIN_SUPPLIED, WORKSTATION_SUPPLIED, both, both | VERSION, VERSION, both | UNICODE, 2**32 - 1):
        for domain in (b"", b"CORPS"):
            for workstation in (b"", b"WS7"):
                for there in (None, version):
                    out.append(write_case("negotiate", dict(plain, flags=flags, Domain=domain, Workstation=workstation, version=there)))
    challenge = {"flags": 0, "Target": b"", "challenge": bytes(range(8)), "Info": b"", "version": None}
    for flags in (0, UNICODE, VERSION, VERSION | UNICODE, 2**32 - 1):
        for target in (b"", b"T\0", b"odd"):
            for info in (b"", b"any bytes"):
                for there in (None, version):
                    out.append(write_case("challenge", dict(challenge, flags=flags, Target=target, Info=info, version=there)))
    last = {"flags": 0, "Lm": b"", "Nt": b"", "Domain": b"", "User": b"", "Workstation": b"", "Key": b"", "version": None, "mic": None}
    for flags in (0, UNICODE, VERSION, VERSION | UNICODE, 2**32 - 1):
        for there, code in ((None, None), (version, None), (version, mic), (None, mic)):
            out.append(write_case("authenticate", dict(last, flags=flags, version=there, mic=code)))
            out.append(write_case("authenticate", dict(last, flags=flags, Lm=b"l", Nt=b"nt", Domain=b"do", User=b"user",
                                                       Workstation=b"work", Key=b"key", version=there, mic=code)))
        for name in ("Lm", "Nt", "Domain", "User", "Workstation", "Key"):
            out.append(write_case("authenticate", dict(last, **{"flags": flags, name: b"odd"})))
            out.append(write_case("authenticate", dict(last, **{"flags": flags, name: b"even"})))
    # a length has 16 bits
    for kind, value in (("negotiate", plain), ("challenge", challenge), ("authenticate", last)):
        names = [name for name, _ in KINDS[kind][3]]
        for name in names:
            for count in (65534, 65535, 65536, 65537):
                out.append(write_case(kind, dict(value, **{name: bytes([len(name) * 16]) * count})))
        # the first in the header's order is named
        out.append(write_case(kind, dict(value, **{name: b"\x77" * 65536 for name in names})))
        out.append(write_case(kind, dict(value, **{name: b"\x77" * 65535 for name in names})))
        if len(names) > 2:
            for first in range(1, len(names)):
                out.append(write_case(kind, dict(value, **{name: b"\x77" * 65536 for name in names[first:]})))
        # the longest are read back
        full = dict(value, **{name: bytes([0x40 + number]) * 65535 for number, name in enumerate(names)})
        data = write(kind, full)
        out.append((line(f"messages.{kind}_again", compact(data)), ok(compact(data))))
    return out


def read_pairs(data):
    """Pairs up to the end pair, or the refusal of the first that isn't taken."""
    pairs, at = [], 0
    while True:
        if at == len(data):
            raise Refused("NoEnd")
        head = data[at:at + 4]
        kind, count = short(head, 0), short(head, 2)
        if len(head) < 4 or at + 4 + count > len(data):
            raise Refused(f"CutPair({at})")
        if {0: 0, 6: 4, 7: 8}.get(kind, count) != count:
            raise Refused(f"BadLength({kind})")
        if kind == 0:
            return pairs
        pairs.append((kind, data[at + 4:at + 4 + count]))
        at += 4 + count


def write_pairs(pairs):
    return b"".join(le(kind, 2) + le(len(value), 2) + value for kind, value in pairs) + bytes(4)


def pairs_shown(pairs):
    return items([f"({kind}, {blob(value.hex())})" for kind, value in pairs])


def published_pairs(pairs):
    """Published pairs in the form that `read_pairs` gives."""
    return [(kind, bytes.fromhex(value)) for kind, value in pairs]


def pair_cases():
    out = []

    def add(data):
        try:
            pairs = read_pairs(data)
            out.append((line("messages.pairs", compact(data)), ok(pairs_shown(pairs))))
            out.append((line("messages.pairs_again", compact(data)), compact(write_pairs(pairs))))
        except Refused as refused:
            out.append((line("messages.pairs", compact(data)), err(refused)))

    for case in values("messages")["challenge"]:
        info, pairs = case["fields"]["info"], case["fields"]["pairs"]
        if info:
            agree(lambda: read_pairs(bytes.fromhex(info)), published_pairs(pairs), case["name"])
        add(bytes.fromhex(info))
    for case in values("ntlm")["settings"]:
        data = bytes.fromhex(case["v2"]["pairs"])
        agree(lambda: read_pairs(data), published_pairs(case["v2"]["pair_list"]), case["name"])
        add(data)
    server = write_pairs([(2, "Domain".encode("utf-16-le")), (1, "Server".encode("utf-16-le"))])
    every = write_pairs([(1, b"S\0"), (2, b"D\0"), (3, b"s\0.\0"), (4, b""), (5, b"f"), (6, b"\2\0\0\0"), (7, bytes(range(8))), (8, b"xyz"),
                         (9, b"t\0"), (10, bytes(16)), (0xFFFF, b"?")])
    for data in (server, every):
        for count in range(len(data) + 1):
            add(data[:count])
        add(data + b"\xaa\xbb")
        add(data + data)
    for kind in (0, 1, 5, 6, 7, 8, 255, 256, 0x600, 0xFFFF):
        for count in (0, 1, 3, 4, 5, 7, 8, 9):
            add(le(kind, 2) + le(count, 2) + bytes(count) + bytes(4))
            add(le(2, 2) + le(2, 2) + b"D\0" + le(kind, 2) + le(count, 2) + bytes(count))
    # a cut pair is named before its length
    add(le(7, 2) + le(4, 2) + bytes(3))
    add(le(0, 2) + le(1, 2))
    add(le(1, 2) + le(65535, 2) + b"\x55" * 65535 + bytes(4))
    add(le(1, 2) + le(65535, 2) + b"\x55" * 65534)
    out = [case for case in out if len(case[1]) < 100000] + [
        (line("messages.pairs_again", compact(le(1, 2) + le(65535, 2) + b"\x55" * 65535 + bytes(4))),
         compact(le(1, 2) + le(65535, 2) + b"\x55" * 65535 + bytes(4)))]
    for pairs in ([], [(2, b"D\0"), (1, b"S\0")], [(1, b"")], [(6, bytes(4)), (7, bytes(8))], [(0xFFFF, b"last")], [(1, b"\x66" * 65535)]):
        out.append((line("messages.pairs_of", *[f"{kind}={compact(value)}" for kind, value in pairs]), compact(write_pairs(pairs))))
    for pairs in ([(0, b"")], [(0, b"x")], [(6, b"")], [(6, bytes(5))], [(7, bytes(4))], [(7, bytes(9))], [(1, b"\x66" * 65536)],
                  [(2, b"D\0"), (0, b"")]):
        out.append((line("messages.pairs_of", *[f"{kind}={compact(value)}" for kind, value in pairs]), "not to be written"))
    return out


def value_cases():
    """Pairs by their ids: the first of an id counts."""
    out = []

    def add(data, ids):
        pairs = read_pairs(data)
        for kind in ids:
            found = next((value for other, value in pairs if other == kind), None)
            out.append((line("messages.pair_value", kind, compact(data)), option(found, lent)))
        time = next((int.from_bytes(value, "little") for other, value in pairs if other == 7), None)
        out.append((line("messages.timestamp", compact(data)), option(time)))

    for case in values("messages")["challenge"]:
        if case["fields"]["info"]:
            data = bytes.fromhex(case["fields"]["info"])
            agree(lambda: read_pairs(data), published_pairs(case["fields"]["pairs"]), case["name"])
            add(data, (0, 1, 2, 3, 4, 6, 7, 9))
    top = b"\xff" * 8
    for pairs in ([], [(7, bytes(8))], [(7, top)], [(7, bytes(7) + b"\x80")], [(7, bytes(range(8))), (7, top)], [(1, b"a"), (1, b"b")],
                  [(1, b""), (1, b"b")], [(6, bytes(4)), (7, top)], [(0xFFFF, b"z"), (7, bytes(range(8)))]):
        add(write_pairs(pairs), (0, 1, 6, 7, 0xFFFF))
    return out


def text_cases():
    out = []
    for flags in (UNICODE, 2, 0, UNICODE | 2, 0x62898235, 0x62898234, 2**32 - 1, 2**32 - 2):
        for data in (b"", b"D", b"D\0", b"D\0\xe9", b"D\0\xe9\x20", bytes(range(0xF0, 0x100)), "Ünïcode €".encode("utf-16-le"),
                     "x\U0001F600".encode("utf-16-le")):
            if not flags & UNICODE:
                answer = ok(units_of(bytes(byte for one in data for byte in (one, 0)).hex()))
            else:
                answer = err("Odd") if len(data) % 2 else ok(units_of(data.hex()))
            out.append((line("messages.text", f"{flags:08x}", data), answer))
            if answer == err("Odd"):
                out.append((line("messages.read_text", f"{flags:08x}", data), "odd"))
            else:
                out.append((line("messages.read_text", f"{flags:08x}", data), answer[3:-1]))
    return out


def random_cases():
    """Messages with random fields and single random changes; the random numbers are Python's for this seed."""
    draw = random.Random(2001)
    out = []
    for kind in KINDS:
        bases = base_messages(kind)[1:]
        for _ in range(60):
            data = draw.choice(bases)
            for _ in range(draw.randrange(1, 3)):
                at = draw.randrange(8, min(len(data), 72))
                data = changed(data, at, bytes([draw.choice([0, 1, 2, 16, 32, 48, 64, 72, 88, draw.randrange(256)])]))
            out += read_cases(kind, data, both=False)
    return out


def cases():
    """Each line and its answer."""
    return foreign_cases() + recorded_cases() + worked_cases() + change_cases() + odd_cases() + gap_cases() + write_cases() + pair_cases() + value_cases() + text_cases() + random_cases()
