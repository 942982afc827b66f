"""Cases of logon_stubs.

`stubs.call OPNUM STUB`, `stubs.reply OPNUM STUB`: the parameters that are read of a request or a reply;
`stubs.call_again OPNUM STUB`,
`stubs.reply_again OPNUM STUB`: the stub written of them. An opnum is a decimal number.

Fields of foreign stubs are the published ones. Of changed stubs and of written forms they are worked out here by the
layouts of MS-NRPC 3.5.4, 2.2.1.4 and C706 14.2 and 14.3 and the rules of docs/FORMATS.md.
"""

from forms import agree, blob, err, items, line, ok, option, struct, units_of, values
from ndr_codec import PartReader, PartWriter, Reader, Refused, Writer, sid_shown
from wire import changed, compact, flipped, le, lent

LOGON, LOGOFF, CHALLENGE, AUTHENTICATE = 2, 3, 4, 15
TIMES = ["logon_time", "logoff_time", "kickoff_time", "password_set", "password_can_change", "password_must_change"]
NAMES = ["effective_name", "full_name", "script", "profile", "home", "home_drive"]


class BadArm(Exception):
    """A union's tag that is not its level, or that has no arm."""


# ---- reading


def unique(reader, item):
    return item() if reader.pointer() else None


def authenticator(reader):
    return reader.take(8), reader.long()


def network_info(reader):
    domain, control, logon_id = reader.head(2), reader.long(), reader.halves()
    user, workstation, challenge, nt, lm = reader.head(2), reader.head(2), reader.take(8), reader.head(1), reader.head(1)
    return {"domain": reader.units(*domain), "control": control, "logon_id": logon_id, "user": reader.units(*user),
            "workstation": reader.units(*workstation),
            "challenge": challenge, "nt": reader.bytes(*nt), "lm": reader.bytes(*lm)}


def entries_head(reader):
    """The count of an array and whether it is there; it may be missing only where the count is 0."""
    place = reader.start(4)
    count = reader.long()
    if count > 256:
        raise Refused("BadPart", place)
    place = reader.start(4)
    there = reader.pointer()
    if count and not there:
        raise Refused("BadPart", place)
    return count, there


def array_count(reader, count):
    """The count of an array again, in front of it."""
    place = reader.start(4)
    if reader.long() != count:
        raise Refused("BadPart", place)


def sam_info(reader, level):
    """NETLOGON_VALIDATION_SAM_INFO, and at level 3 NETLOGON_VALIDATION_SAM_INFO2, with identifiers beside the
    groups."""
    info = {name: reader.halves() for name in TIMES}
    heads = {name: reader.head(2) for name in NAMES}
    info.update(logon_count=reader.short(), bad_count=reader.short(), user_id=reader.long(), group_id=reader.long())
    group_count, groups = entries_head(reader)
    info.update(user_flags=reader.long(), key=reader.take(16))
    server, domain = reader.head(2), reader.head(2)
    reader.some_pointer()
    reader.reserved(10)
    extra_count, extra = entries_head(reader) if level == 3 else (0, False)
    info.update((name, reader.units(*heads[name])) for name in NAMES)
    info["groups"], info["extra"] = [], []
    if groups:
        array_count(reader, group_count)
        info["groups"] = [(reader.long(), reader.long()) for _ in range(group_count)]
    info.update(server=reader.units(*server), domain=reader.units(*domain), sid=reader.sid())
    if extra:
        array_count(reader, extra_count)
        attributes = []
        for _ in range(extra_count):
            reader.some_pointer()
            attributes.append(reader.long())
        info["extra"] = [(reader.sid(), each) for each in attributes]
    return info


def logoff_call(reader):
    fields = {"server": reader.unique_text(), "computer": reader.unique_text(),
              "authenticator": unique(reader, lambda: authenticator(reader)),
              "returned": unique(reader, lambda: authenticator(reader))}
    level, tag = reader.short(), reader.short()
    if tag != level or tag != 2:
        raise BadArm(tag)
    reader.some_pointer()
    fields["info"] = network_info(reader)
    return fields


def read(kind, opnum, stub, reads=Reader):
    """The fields and the reader that read them."""
    reader = reads(stub)
    if kind == "call":
        if opnum == CHALLENGE:
            fields = {"primary": reader.unique_text(), "computer": reader.text(), "challenge": reader.take(8)}
        elif opnum == AUTHENTICATE:
            fields = {"primary": reader.unique_text(), "account": reader.text(), "channel": reader.short(), "computer": reader.text(),
                      "credential": reader.take(8),
                      "flags": reader.long()}
        else:
            fields = logoff_call(reader)
            if opnum == LOGON:
                fields["validation"] = reader.short()
    elif opnum == CHALLENGE:
        fields = {"challenge": reader.take(8), "status": reader.long()}
    elif opnum == AUTHENTICATE:
        fields = {"credential": reader.take(8), "flags": reader.long(), "status": reader.long()}
    else:
        fields = {"returned": unique(reader, lambda: authenticator(reader))}
        if opnum == LOGON:
            fields["level"] = reader.short()
            there = reader.pointer()
            if there and fields["level"] not in (2, 3):
                raise BadArm(fields["level"])
            fields["info"] = sam_info(reader, fields["level"]) if there else None
            fields["authoritative"] = reader.byte()
        fields["status"] = reader.long()
    return fields, reader


# ---- writing


def write_unique(writer, value, put):
    writer.pointer(value is not None)
    if value is not None:
        put(value)


def write_authenticator(writer, value):
    writer.raw(value[0])
    writer.long(value[1])


def write_network(writer, info):
    writer.units_head(info["domain"])
    writer.long(info["control"])
    writer.halves(info["logon_id"])
    writer.units_head(info["user"])
    writer.units_head(info["workstation"])
    writer.raw(info["challenge"])
    writer.bytes_head(info["nt"])
    writer.bytes_head(info["lm"])
    for name in ("domain", "user", "workstation"):
        writer.units(info[name])
    for name in ("nt", "lm"):
        writer.bytes(info[name])


def write_sam(writer, info, level):
    for name in TIMES:
        writer.halves(info[name])
    for name in NAMES:
        writer.units_head(info[name])
    writer.short(info["logon_count"])
    writer.short(info["bad_count"])
    writer.long(info["user_id"])
    writer.long(info["group_id"])
    writer.long(len(info["groups"]))
    writer.pointer(bool(info["groups"]))
    writer.long(info["user_flags"])
    writer.raw(info["key"])
    writer.units_head(info["server"])
    writer.units_head(info["domain"])
    writer.pointer(True)
    writer.reserved(10)
    if level == 3:
        writer.long(len(info["extra"]))
        writer.pointer(bool(info["extra"]))
    for name in NAMES:
        writer.units(info[name])
    if info["groups"]:
        writer.long(len(info["groups"]))
        for group, attributes in info["groups"]:
            writer.long(group)
            writer.long(attributes)
    writer.units(info["server"])
    writer.units(info["domain"])
    writer.sid(info["sid"])
    if info["extra"]:
        writer.long(len(info["extra"]))
        for _, attributes in info["extra"]:
            writer.pointer(True)
            writer.long(attributes)
        for sid, _ in info["extra"]:
            writer.sid(sid)


def write(kind, opnum, fields, writes=Writer):
    """The writer of the one written form."""
    writer = writes()
    if kind == "call":
        if opnum == CHALLENGE:
            writer.unique_text(fields["primary"])
            writer.text(fields["computer"])
            writer.raw(fields["challenge"])
        elif opnum == AUTHENTICATE:
            writer.unique_text(fields["primary"])
            writer.text(fields["account"])
            writer.short(fields["channel"])
            writer.text(fields["computer"])
            writer.raw(fields["credential"])
            writer.long(fields["flags"])
        else:
            writer.unique_text(fields["server"])
            writer.unique_text(fields["computer"])
            write_unique(writer, fields["authenticator"], lambda value: write_authenticator(writer, value))
            write_unique(writer, fields["returned"], lambda value: write_authenticator(writer, value))
            writer.short(2)
            writer.short(2)
            writer.pointer(True)
            write_network(writer, fields["info"])
            if opnum == LOGON:
                writer.short(fields["validation"])
    elif opnum == CHALLENGE:
        writer.raw(fields["challenge"])
        writer.long(fields["status"])
    elif opnum == AUTHENTICATE:
        writer.raw(fields["credential"])
        writer.long(fields["flags"])
        writer.long(fields["status"])
    else:
        write_unique(writer, fields["returned"], lambda value: write_authenticator(writer, value))
        if opnum == LOGON:
            writer.short(fields["level"])
            write_unique(writer, fields["info"], lambda value: write_sam(writer, value, fields["level"]))
            writer.byte(fields["authoritative"])
        writer.long(fields["status"])
    return writer


# ---- what is printed


def text(data):
    return units_of(data.hex())


def text_option(data):
    return option(data, text)


def authenticator_option(value):
    return option(value, lambda it: struct("Authenticator", credential=lent(it[0]), timestamp=it[1]))


def network_shown(info):
    return struct("NetworkInfo", domain=text(info["domain"]), control=info["control"], logon_id=info["logon_id"], user=text(info["user"]),
                  workstation=text(info["workstation"]),
                  challenge=lent(info["challenge"]), nt=blob(info["nt"].hex()), lm=blob(info["lm"].hex()))


def sam_shown(info):
    fields = {name: info[name] for name in TIMES}
    fields.update((name, text(info[name])) for name in NAMES)
    fields.update((name, info[name]) for name in ("logon_count", "bad_count", "user_id", "group_id"))
    fields["groups"] = items([f"({group}, {attributes})" for group, attributes in info["groups"]])
    return struct("SamInfo", **fields, user_flags=info["user_flags"], key=lent(info["key"]), server=text(info["server"]),
                  domain=text(info["domain"]), sid=sid_shown(info["sid"]),
                  extra=items([f"({sid_shown(sid)}, {attributes})" for sid, attributes in info["extra"]]))


def shown(kind, opnum, fields):
    """What `{:?}` prints of the parameters."""
    if kind == "call" and opnum == CHALLENGE:
        return f"Challenge({struct('ChallengeCall', primary=text_option(fields['primary']), computer=text(fields['computer']), challenge=lent(fields['challenge']))})"
    if kind == "call" and opnum == AUTHENTICATE:
        return "Authenticate(" + struct("AuthCall", primary=text_option(fields["primary"]), account=text(fields["account"]),
                                        channel=fields["channel"], computer=text(fields["computer"]),
                                        credential=lent(fields["credential"]), flags=fields["flags"]) + ")"
    if kind == "call":
        front = {"server": text_option(fields["server"]), "computer": text_option(fields["computer"]),
                 "authenticator": authenticator_option(fields["authenticator"]),
                 "returned": authenticator_option(fields["returned"]), "info": network_shown(fields["info"])}
        if opnum == LOGON:
            return f"Logon({struct('LogonCall', **front, validation=fields['validation'])})"
        return f"Logoff({struct('LogoffCall', **front)})"
    if opnum == CHALLENGE:
        return f"Challenge({struct('ChallengeReply', challenge=lent(fields['challenge']), status=fields['status'])})"
    if opnum == AUTHENTICATE:
        return f"Authenticate({struct('AuthReply', credential=lent(fields['credential']), flags=fields['flags'], status=fields['status'])})"
    returned = authenticator_option(fields["returned"])
    if opnum == LOGOFF:
        return f"Logoff({struct('LogoffReply', returned=returned, status=fields['status'])})"
    return "Logon(" + struct("LogonReply", returned=returned, level=fields["level"], info=option(fields["info"], sam_shown),
                             authoritative=fields["authoritative"],
                             status=fields["status"]) + ")"


# ---- cases


def answer(kind, opnum, stub):
    """The parameters or the refusal, worked out here."""
    if opnum not in (LOGON, LOGOFF, CHALLENGE, AUTHENTICATE):
        return err(f"NoSuchCall({opnum})")
    try:
        return ok(shown(kind, opnum, read(kind, opnum, stub)[0]))
    except BadArm as refused:
        return err(f"BadArm({refused})")
    except Refused as refused:
        return err(f"BadStub({refused.place})")


def read_case(kind, opnum, stub):
    return line(f"stubs.{kind}", opnum, compact(stub)), answer(kind, opnum, stub)


def again_case(kind, opnum, stub):
    fields, _ = read(kind, opnum, stub)
    again = write(kind, opnum, fields).stub
    assert read(kind, opnum, again)[0] == fields
    return line(f"stubs.{kind}_again", opnum, compact(stub)), compact(again)


def utf16(value):
    return None if value is None else value.encode("utf-16-le", "surrogatepass")


def sid_parts(text):
    """The authority and the numbers of a security identifier."""
    parts = text.split("-")
    return int(parts[2]), [int(part) for part in parts[3:]]


def published(case):
    """The published fields in the form that `read` gives."""
    fields = dict(case["fields"])
    if case["direction"] == "request" and fields.pop("level", 2) != 2:
        raise ValueError(case["name"])
    for name in ("primary", "computer", "account", "server"):
        if name in fields:
            fields[name] = utf16(fields[name])
    for name in ("challenge", "credential"):
        if name in fields:
            fields[name] = bytes.fromhex(fields[name])
    for name in ("authenticator", "returned"):
        if name in fields and fields[name]:
            fields[name] = bytes.fromhex(fields[name]["credential"]), fields[name]["timestamp"]
    if fields.get("info"):
        info = dict(fields["info"])
        for name in ["domain", "user", "workstation", "server"] + NAMES:
            if name in info:
                info[name] = utf16(info[name])
        for name in ("challenge", "nt", "lm", "key"):
            if name in info:
                info[name] = bytes.fromhex(info[name])
        if "sid" in info:
            info["sid"] = sid_parts(info["sid"])
            info["groups"] = [tuple(group) for group in info["groups"]]
            info["extra"] = [(sid_parts(sid), attributes) for sid, attributes in info.get("extra", [])]
        fields["info"] = info
    return fields


def foreign():
    """Each foreign stub with its kind and its number."""
    for case in values("stubs")["stubs"]:
        yield case, "call" if case["direction"] == "request" else "reply", case["opnum"], bytes.fromhex(case["stub"])


def stub_named(name):
    return next(stub for case, _, _, stub in foreign() if case["name"] == name)


def walks():
    """Foreign stubs item by item, for the reader and the writer of items."""
    out = []
    for case, kind, opnum, stub in foreign():
        if case["refused_by_the_form"]:
            continue
        fields, reader = read(kind, opnum, stub)
        agree(lambda: fields, published(case), case["name"])
        writer = write(kind, opnum, fields)
        agree(lambda: writer.stub == stub, case["same_when_written"], case["name"])
        out += [reader.case(), writer.case(), read(kind, opnum, stub, PartReader)[1].case(), write(kind, opnum, fields, PartWriter).case()]
    return out


def foreign_cases():
    """Stubs of Samba and impacket, with the published fields."""
    out = []
    for case, kind, opnum, stub in foreign():
        if case["refused_by_the_form"]:
            # A validation whose identifier's pointer is null.
            assert answer(kind, opnum, stub) == "Err(BadStub(176))"
            out.append((line(f"stubs.{kind}", opnum, stub), "Err(BadStub(176))"))
            continue
        fields = published(case)
        out.append((line(f"stubs.{kind}", opnum, stub), ok(shown(kind, opnum, fields))))
        again = write(kind, opnum, fields).stub
        agree(lambda: again == stub, case["same_when_written"], case["name"])
        out.append((line(f"stubs.{kind}_again", opnum, stub), compact(again)))
        out.append((line(f"stubs.{kind}_again", opnum, again), compact(again)))
        # What follows the last parameter is passed over; the last byte isn't.
        out.append((line(f"stubs.{kind}", opnum, stub + b"\xee\xee"), ok(shown(kind, opnum, fields))))
        out.append(read_case(kind, opnum, stub[:-1]))
    return out


def worked_cases():
    """Stubs worked out by hand: a request for FILE1 without a primary name, and a reply whose level has no arm and
    whose pointer is null."""
    out = []
    for kind, opnum, data, fields in [
        ("call", CHALLENGE, "00000000060000000000000006000000460049004c004500310000000102030405060708",
         {"primary": None, "computer": utf16("FILE1"), "challenge": bytes(range(1, 9))}),
        ("reply", LOGON, "000000000300000000000000010000000d0000c0",
         {"returned": None, "level": 3, "info": None, "authoritative": 1, "status": 0xC000000D}),
    ]:
        assert read(kind, opnum, bytes.fromhex(data))[0] == fields
        out.append((line(f"stubs.{kind}", opnum, data), ok(shown(kind, opnum, fields))))
        out.append((line(f"stubs.{kind}_again", opnum, data), data))
    out.append((line("stubs.call", 5, "00000000060000000000000006000000460049004c004500310000000102030405060708"), err("NoSuchCall(5)")))
    # Samba's granted replies with six times apart, two counts, and not authoritative, and with the maxima of two names
    # that are their lengths
    granted = stub_named("logon granted, one group, by Samba")
    fields = read("reply", LOGON, granted)[0]
    info = dict(fields["info"], **{name: 0x1D40000000000000 + place for place, name in enumerate(TIMES)}, logon_count=0x1234, bad_count=3)
    apart = dict(fields, info=info, authoritative=0)
    for one in (apart, fields):
        stub = write("reply", LOGON, one).stub
        out.append((line("stubs.reply", LOGON, stub), ok(shown("reply", LOGON, one))))
        out.append((line("stubs.reply_again", LOGON, stub), compact(stub)))
    return out


def number_cases():
    """Calls that there are, and others."""
    out = []
    stub = stub_named("logon, 24-byte responses, by Samba")
    for opnum in (0, 1, 5, 6, 14, 16, 21, 26, 39, 255, 256, 258, 65535):
        for kind in ("call", "reply"):
            out.append(read_case(kind, opnum, stub))
            out.append(read_case(kind, opnum, b""))
    for opnum in (LOGON, LOGOFF, CHALLENGE, AUTHENTICATE):
        for kind in ("call", "reply"):
            out.append(read_case(kind, opnum, b""))
            out.append(read_case(kind, opnum, bytes(400)))
            out.append(read_case(kind, opnum, b"\xff" * 400))
            # one call's stub read as another's
            for case, _, _, other in foreign():
                if "by Samba" in case["name"] and "all strings" not in case["name"]:
                    found = read_case(kind, opnum, other)
                    if found[1].startswith("Err") or len(found[1]) < 400:
                        out.append(found)
    return out


BASES = [
    ("call", CHALLENGE, "challenge, primary name and an odd computer name, by Samba"),
    ("call", AUTHENTICATE, "authenticate, backup controller, primary name, by Samba"),
    ("call", LOGON, "logon, 24-byte responses, by Samba"), ("call", LOGOFF, "logoff, by Samba"),
    ("reply", LOGON, "logon granted, one group, by Samba"),
    ("reply", LOGON, "logon refused, credential returned, by Samba"), ("reply", LOGOFF, "logoff answered, by Samba"),
    ("reply", CHALLENGE, "challenge answered, by Samba"),
    ("reply", AUTHENTICATE, "authenticate granted, by Samba"),
]


def byte_cases():
    """Each byte changed, and each length."""
    out = []
    for kind, opnum, name in BASES:
        stub = stub_named(name)
        short_one = len(stub) < 100
        for at in range(len(stub)):
            for mask in (0x01, 0x80) if short_one else (0x01,):
                found = read_case(kind, opnum, flipped(stub, at, mask))
                if short_one or found[1].startswith("Err") or at % 16 == 0:
                    out.append(found)
        if name.startswith("logoff, "):
            continue
        for size in range(0, len(stub), 1 if short_one else 5):
            out.append(read_case(kind, opnum, stub[:size]))
    # the item that is missed, of a logon cut short
    stub = stub_named("logon, 24-byte responses, by Samba")
    for size, place in ((0, 0), (31, 8), (35, 32), (43, 36), (65, 64), (171, 172), (183, 172), (261, 260)):
        assert answer("call", LOGON, stub[:size]) == f"Err(BadStub({place}))"
        out.append((line("stubs.call", LOGON, compact(stub[:size])), f"Err(BadStub({place}))"))
    return out


def change_cases():
    """Changes that meet a rule of the layout, or just don't."""
    out = []
    stub = stub_named("logon, 24-byte responses, by Samba")
    # Its level is at 64, its tag at 66, the pointer to the structure at 68, the structure at 72, its targets from 132
    # on, the domain's first, and the validation level at 260.
    for at, new in [
        # referents and padding are free
        (0, le(0, 4)), (4, le(1, 4)), (4, le(0x20000, 4)), (4, le(2**32 - 1, 4)), (4, le(0, 4)), (32, le(1, 4)), (32, le(0x20000, 4)),
        (32, le(0, 4)), (48, le(0, 4)), (48, le(1, 4)),
        (30, b"\xff\xff"), (170, b"\xff\xff"),
        # a tag that isn't the level, and levels that have no arm
        (66, b"\1"), (64, b"\1"), (64, le(1, 2) * 2), (64, le(3, 2) * 2), (64, le(0, 2) * 2), (64, le(4, 2) * 2), (64, le(2, 2) + le(3, 2)),
        (64, le(3, 2) + le(2, 2)),
        (64, le(0x102, 2) * 2), (64, le(65535, 2) * 2),
        # the tag comes before the items of the structure, and the text in front of it before the tag
        (66, bytes([1, 0, 0, 0, 0, 0, 7])), (30, b"\1"), (8, le(7, 4)), (8, le(5, 4)), (12, le(1, 4)), (16, le(0, 4)), (16, le(7, 4)),
        (16, le(2**32 - 1, 4)),
        # no structure
        (68, le(0, 4)), (68, le(1, 4)),
        # heads: an odd length, one above the maximum, one without a target, and a maximum above the length
        (72, b"\7"), (72, b"\x0a"), (74, b"\7"), (74, b"\6"), (74, b"\x09"), (74, le(65535, 2)), (76, le(0, 4)), (72, bytes(8)),
        (72, le(0, 2) + le(8, 2) + le(0, 4)),
        (92, b"\5"), (92, b"\x08"), (96, le(0, 4)), (100, b"\3"), (104, le(0, 4)), (116, b"\x17"), (116, b"\x19"), (120, le(0, 4)),
        (124, b"\0"), (128, le(0, 4)),
        (124, le(0, 2) + le(24, 2) + le(0, 4)),
        # targets: an offset, another count than the head's, and one above the maximum
        (136, b"\1"), (140, b"\3"), (132, b"\3"), (132, b"\5"), (132, le(2**32 - 1, 4)), (140, le(2**31 + 4, 4)), (228, b"\1"),
        (232, b"\x17"), (232, b"\xff"), (224, b"\x17"), (224, b"\x19"),
        # validation levels are any
        (260, le(0, 2)), (260, le(3, 2)), (260, le(65535, 2)),
    ]:
        out.append(read_case("call", LOGON, changed(stub, at, new)))
        logoff = changed(stub, at, new)[:260]
        found = read_case("call", LOGOFF, logoff)
        if found[1].startswith("Err"):
            out.append(found)
    granted = stub_named("logon granted, one group, by Samba")
    # Its level is at 16, the pointer to the structure at 20, the heads of the texts from 72 on, that of the home drive
    # at 112, the counts at 120, the group count at 132, the pointer to the groups at 136, the key at 144, the heads of
    # server and domain at 160 and 168, the pointer to the identifier at 176, ten reserved numbers from 180 on, the
    # name's target at 220, the groups' at 240.
    for at, new in [
        (0, le(0, 4)), (0, le(7, 4)), (16, le(3, 2)), (16, le(0, 2)), (16, le(1, 2)), (16, le(6, 2)), (16, le(65535, 2)), (18, b"\xff\xff"),
        (20, le(0, 4)), (20, le(1, 4)),
        (16, le(3, 2) + le(0, 2) + le(0, 4)), (136, le(0, 4)), (136, le(1, 4)), (132, le(0, 4)), (132, le(0, 4) + le(0, 4)),
        (132, le(2, 4)), (132, le(256, 4)), (132, le(257, 4)),
        (132, le(2**32 - 1, 4)), (132, le(257, 4) + le(0, 4)), (240, b"\0"), (240, b"\2"), (240, le(2**32 - 1, 4)), (176, le(0, 4)),
        (176, le(5, 4)), (180, b"\xff" * 40), (180, b"\xff" * 4), (72, le(5, 2)),
        (72, le(8, 2)), (72, bytes(8)), (76, le(0, 4)), (112, le(2, 2) * 2 + le(0, 4)), (112, le(0, 2) + le(2, 2) + le(1, 4)),
        (160, le(0, 4)), (164, le(0, 4)), (168, le(7, 2)),
        (172, le(0, 4)), (144, b"\xee" * 16), (120, b"\xff" * 12), (220, le(2, 4)), (224, b"\1"), (228, le(2, 4)), (296, b"\2"),
        (297, b"\3"), (292, le(3, 4)), (292, le(16, 4)), (292, le(0, 4)),
        (297, b"\5"), (298, b"\xff" * 6), (304, b"\xff" * 16), (320, b"\0"), (320, b"\xff"), (321, b"\xff\xff\xff"), (324, b"\xff" * 4),
    ]:
        out.append(read_case("reply", LOGON, changed(granted, at, new)))
    return out


def extra_cases():
    """Changes of identifiers beside the groups."""
    out = []
    stub = stub_named("logon granted at level 3, two identifiers beside the groups, by Samba")
    fields, _ = read("reply", LOGON, stub)
    assert fields["level"] == 3 and len(fields["info"]["extra"]) == 2
    # The level is at 16; the count of identifiers at 220, and the pointer to them at 224, behind ten reserved numbers.
    # The array behind the domain's identifier has its count, a pointer and attributes of each, and then the
    # identifiers.
    for place, new in [
        (16, le(2, 2)), (16, le(4, 2)), (16, le(6, 2)), (16, le(0x103, 2)),
        (220, le(257, 4)), (220, le(256, 4)), (220, le(1, 4)), (220, le(3, 4)), (220, le(0, 4)), (220, le(2**32 - 1, 4)),
        (224, le(0, 4)), (224, le(1, 4)), (220, bytes(8)), (220, le(257, 4) + le(0, 4)),
    ]:
        out.append(read_case("reply", LOGON, changed(stub, place, new)))
    for size in range(216, len(stub)):
        out.append(read_case("reply", LOGON, stub[:size]))
    for place in range(216, len(stub)):
        found = read_case("reply", LOGON, flipped(stub, place, 0x01))
        if found[1].startswith("Err") or place % 8 == 0:
            out.append(found)
    return out


def plain_info(**fields):
    return dict({"domain": utf16("CORP"), "control": 0, "logon_id": 1, "user": utf16("ann"), "workstation": utf16("WS"),
                 "challenge": bytes(range(8)), "nt": b"\x11" * 24, "lm": b"\x22" * 24},
                **fields)


def plain_logon(**fields):
    return dict({"server": None, "computer": utf16("FILE1"), "authenticator": (b"\x33" * 8, 7), "returned": (bytes(8), 0),
                 "info": plain_info(), "validation": 2}, **fields)


def plain_sam(**fields):
    info = {name: 0x7FFFFFFFFFFFFFFF for name in TIMES}
    info.update((name, b"") for name in NAMES)
    info.update(logon_count=0, bad_count=0, user_id=1001, group_id=513, groups=[(513, 7)], user_flags=0, key=bytes(range(16)),
                server=utf16("PDC"), domain=utf16("CORP"), sid=(5, [21, 1, 2, 3]), extra=[])
    return dict(info, **fields)


def plain_reply(**fields):
    return dict({"returned": (b"\x44" * 8, 9), "level": 2, "info": plain_sam(), "authoritative": 1, "status": 0}, **fields)


def value_cases():
    """Values of each field, written and read back."""
    out = []

    def add(kind, opnum, fields, printed=True):
        stub = write(kind, opnum, fields).stub
        assert read(kind, opnum, stub)[0] == fields
        if printed:
            out.append((line(f"stubs.{kind}", opnum, compact(stub)), ok(shown(kind, opnum, fields))))
        out.append((line(f"stubs.{kind}_again", opnum, compact(stub)), compact(stub)))

    names = ["", "A", "FILE1", "Ä", "\U0001F600", "x" * 64]
    top16, top32, top64 = 2**16 - 1, 2**32 - 1, 2**64 - 1
    for name in names:
        for primary in (None, "", "\\\\PDC"):
            add("call", CHALLENGE, {"primary": utf16(primary), "computer": utf16(name), "challenge": bytes(range(8))})
            add("call", AUTHENTICATE, {"primary": utf16(primary), "account": utf16(name + "$"), "channel": 2, "computer": utf16(name),
                                       "credential": b"\xcc" * 8, "flags": 0x41FF})
        add("call", AUTHENTICATE, {"primary": None, "account": utf16(name), "channel": 6, "computer": utf16("FILE1"),
                                   "credential": b"\xcc" * 8, "flags": 0x1FF})
    for channel, flags in ((0, 0), (1, 1), (4, 0x40000000), (top16, top32)):
        add("call", AUTHENTICATE, {"primary": None, "account": utf16("FILE1$"), "channel": channel, "computer": utf16("FILE1"),
                                   "credential": bytes(8), "flags": flags})
    for status in (0, 5, 0xC0000022, 0xC0000388, top32):
        add("reply", CHALLENGE, {"challenge": b"\x55" * 8, "status": status})
        add("reply", AUTHENTICATE, {"credential": b"\x66" * 8, "flags": status ^ top32, "status": status})
        for returned in (None, (b"\x77" * 8, 0), (bytes(8), top32)):
            add("reply", LOGOFF, {"returned": returned, "status": status})
            for level in (0, 1, 2, 3, 6, top16):
                add("reply", LOGON, {"returned": returned, "level": level, "info": None, "authoritative": level % 256, "status": status})
    for server in (None, "", "\\\\PDC"):
        for computer in (None, "", "FILE1"):
            for one in (None, (b"\x33" * 8, top32)):
                for two in (None, (bytes(8), 0)):
                    fields = plain_logon(server=utf16(server), computer=utf16(computer), authenticator=one, returned=two)
                    add("call", LOGON, fields)
                    fields.pop("validation")
                    add("call", LOGOFF, fields, printed=server is None)
    for field in ("domain", "user", "workstation"):
        for name in names:
            add("call", LOGON, plain_logon(info=plain_info(**{field: utf16(name)})))
    for field in ("nt", "lm"):
        for count in (0, 1, 2, 3, 16, 23, 24, 25, 84, 301):
            add("call", LOGON, plain_logon(info=plain_info(**{field: b"\x5c" * count})))
    add("call", LOGON, plain_logon(info=plain_info(domain=b"", user=b"", workstation=b"", nt=b"", lm=b"")))
    # identifiers beside the groups, at level 3 alone
    aliases = (5, [32, 544])
    for extra in ([], [(aliases, 7)], [(aliases, 7), ((18, [1]), 7)], [((0, [0]), 0), ((2**48 - 1, [top32] * 15), top32), (aliases, 7)],
                  [((5, [21, 1, 2, place]), 7) for place in range(16)], [((5, [place]), 7) for place in range(256)]):
        add("reply", LOGON, plain_reply(level=3, info=plain_sam(extra=extra, user_flags=0x20 if extra else 0)), printed=len(extra) < 17)
    add("reply", LOGON, plain_reply(level=3, info=plain_sam(groups=[], extra=[(aliases, 7)])))
    # S-1-5-32-544: its count of numbers in front, revision 1 and 2 numbers, authority 5, and the numbers (MS-DTYP
    # 2.4.2.2)
    stub = write("reply", LOGON, plain_reply(level=3, info=plain_sam(extra=[(aliases, 7)]))).stub
    assert bytes.fromhex("02000000" "0102000000000005" "20000000" "20020000") in stub
    for number in (0, 1, 2**31, 2**32 - 1, 2**32, 2**63, top64):
        add("call", LOGON, plain_logon(info=plain_info(logon_id=number, control=number & top32), validation=number & top16))
        for name in TIMES:
            add("reply", LOGON, plain_reply(info=plain_sam(**{name: number})), printed=name == TIMES[number % 6])
        add("reply", LOGON, plain_reply(info=plain_sam(user_id=number & top32, group_id=number >> 32, user_flags=number & top32,
                                                       logon_count=number & top16, bad_count=number >> 48)))
    for name in NAMES + ["server", "domain"]:
        for value in ("", "A", "AB", "x" * 40):
            add("reply", LOGON, plain_reply(info=plain_sam(**{name: utf16(value)})), printed=value in ("", "A"))
    add("reply", LOGON, plain_reply(info=plain_sam(**{name: utf16(name) for name in NAMES})))
    add("reply", LOGON, plain_reply(info=plain_sam(server=b"", domain=b"")))
    for count in (0, 1, 2, 3, 10, 255, 256):
        add("reply", LOGON, plain_reply(info=plain_sam(groups=[(1000 + place, 7) for place in range(count)])), printed=count < 11)
    for sid in ((0, [0]), (5, [32, 544]), (2**48 - 1, [top32] * 15), (5, list(range(1, 15)))):
        add("reply", LOGON, plain_reply(info=plain_sam(sid=sid)))
    # texts of 32,767 units and byte strings of 65,535 bytes are the longest
    long_text, long_bytes = b"\x41" * 65534, b"\x42" * 65535
    add("call", CHALLENGE, {"primary": long_text, "computer": long_text, "challenge": bytes(8)}, printed=False)
    add("call", AUTHENTICATE, {"primary": None, "account": long_text, "channel": 2, "computer": long_text, "credential": bytes(8),
                               "flags": 0}, printed=False)
    add("call", LOGON, plain_logon(server=long_text, computer=long_text,
                                   info=plain_info(domain=long_text, user=long_text, workstation=long_text, nt=long_bytes, lm=long_bytes)),
        printed=False)
    add("reply", LOGON, plain_reply(info=plain_sam(**{name: long_text for name in NAMES}, server=long_text, domain=long_text)),
        printed=False)
    # a `string` of 32,768 units is read, and isn't written
    longer = Writer()
    longer.pointer(False)
    longer.text(b"\x41" * 65536)
    longer.raw(bytes(8))
    out.append((line("stubs.call_again", CHALLENGE, compact(longer.stub)), "not to be written"))
    return out


def cases():
    """Each line and its answer."""
    return foreign_cases() + worked_cases() + number_cases() + byte_cases() + change_cases() + extra_cases() + value_cases()
