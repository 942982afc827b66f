"""Cases of ntlm_responses.

`responses.nt_hash PASSWORD` (units), `responses.lm_hash PASSWORD` (bytes), `responses.nt_key_v2 HASH USER DOMAIN`,
`responses.respond_v1 HASH CHALLENGE`, `responses.hashed_challenge CHALLENGE CLIENT`, `responses.respond_v1_ess HASH
CHALLENGE CLIENT`,
`responses.respond_v2 HASH USER DOMAIN CHALLENGE TIME CLIENT PAIRS`, `responses.verify HASH USER DOMAIN CHALLENGE NT`
(the base key, or
`none`), `responses.challenge_for FLAGS CHALLENGE LM NT`, `responses.exchange_key BASE FLAGS CHALLENGE LM NT` and
`responses.exported_key EXCHANGE FLAGS KEY` (the key, or `none`).
"""

import hashlib
import hmac

from forms import line, utf16, values
from md4 import md4
from ntlm_messages import read, recorded_messages

# Flags of MS-NLMP 2.2.2.5.
KEY_EXCH = 0x40000000
EXTENDED_SESSIONSECURITY = 0x00080000


def hmac_md5(key, *parts):
    """HMAC-MD5 of bytes in hex, by Python's own library."""
    return hmac.new(bytes.fromhex(key), bytes.fromhex("".join(parts)), "md5").hexdigest()


def altered(data, at):
    """Bytes in hex with one bit of the byte at a place changed."""
    changed = bytearray.fromhex(data)
    changed[at] ^= 1
    return changed.hex()


def of_hashes(case):
    """The hashes of a setting's password, and the key of NTLMv2."""
    out = [(line("responses.nt_hash", case["password_utf16"]), case["nt_hash"])]
    if case.get("lm_hash"):
        password = case["password"].encode("ascii")
        out.append((line("responses.lm_hash", password), case.get("lm_hash")))
        # The hash is of the first 14 bytes in upper case.
        out.append((line("responses.lm_hash", password.lower()[:14]), case.get("lm_hash")))
    user, domain = case["user_utf16"], case["domain_utf16"]
    out.append((line("responses.nt_key_v2", case["nt_hash"], user, domain), case["nt_key_v2"]))
    return out


def of_logon(case, logon, flags, key, exported, lm, answered):
    """The verdict on the responses of a message, and the keys that follow."""
    challenge, nt, base = case["server_challenge"], logon["nt_response"], logon["base_key"]
    who = case["nt_hash"], case["user_utf16"], case["domain_utf16"]
    out = [
        (line("responses.challenge_for", flags, challenge, lm, nt), answered),
        (line("responses.verify", *who, answered, nt), base),
        (line("responses.exchange_key", base, flags, challenge, lm, nt), logon["exchange_key"]),
    ]
    if exported:
        out.append((line("responses.exported_key", logon["exchange_key"], flags, key or ""), exported))
    if exported and key:
        # The same of the exported key is the key field again.
        out.append((line("responses.exported_key", logon["exchange_key"], flags, exported), key))
    # Another challenge, another hash and another byte of the response are refused.
    out.append((line("responses.verify", *who, altered(answered, 7), nt), "none"))
    out.append((line("responses.verify", altered(who[0], 0), *who[1:], answered, nt), "none"))
    out.append((line("responses.verify", *who, answered, altered(nt, 0)), "none"))
    out.append((line("responses.verify", *who, answered, altered(nt, len(nt) // 2 - 1)), "none"))
    return out


def of_v1(case):
    """NTLMv1 (MS-NLMP 3.3.1)."""
    v1, challenge = case["v1"], case["server_challenge"]
    nt = v1["nt_response"]
    out = [(line("responses.respond_v1", case["nt_hash"], challenge), nt)]
    if case.get("lm_hash") and v1.get("lm_response_of_lm_hash"):
        # The LM response is the same function of the LM hash.
        out.append((line("responses.respond_v1", case.get("lm_hash"), challenge), v1["lm_response_of_lm_hash"]))
    exported = case["chosen_session_key"] if v1.get("encrypted_session_key") else v1["exchange_key"]
    out += of_logon(case, v1, v1["flags"], v1.get("encrypted_session_key"), exported, nt, challenge)
    # The same flags without key exchange.
    flags = f"{int(v1['flags'], 16) & ~KEY_EXCH:08x}"
    out += of_logon(case, v1, flags, "", v1["exchange_key"], nt, challenge)
    # The names have no part in it.
    line_of = line("responses.verify", case["nt_hash"], utf16("another"), "", challenge, nt)
    out.append((line_of, v1["base_key"]))
    return out


def of_v1_ess(case):
    """NTLMv1 with extended session security (MS-NLMP 3.3.1, 3.4.5.1)."""
    ess, challenge, client = case["v1_ess"], case["server_challenge"], case["client_challenge"]
    nt, hashed, lm = ess["nt_response"], ess["hashed_challenge"], ess["lm_response"]
    out = [
        (line("responses.hashed_challenge", challenge, client), hashed),
        (line("responses.respond_v1_ess", case["nt_hash"], challenge, client), nt),
        (line("responses.respond_v1", case["nt_hash"], hashed), nt),
    ]
    for session in ess["sessions"]:
        key, exported = session["encrypted_session_key"], session["exported_key"]
        out += of_logon(case, ess, session["flags"], key, exported, lm, hashed)
    # Without the flag, or with an LM response that hasn't 24 bytes, the server's challenge is answered, and the
    # exchange key is the base key.
    flags = ess["sessions"][0]["flags"]
    without = f"{int(flags, 16) & ~EXTENDED_SESSIONSECURITY:08x}"
    for other_flags, other_lm in [(without, lm), (flags, ""), (flags, lm[:-2]), (flags, lm + "00")]:
        words = other_flags, challenge, other_lm, nt
        out.append((line("responses.challenge_for", *words), challenge))
        out.append((line("responses.exchange_key", ess["base_key"], *words), ess["base_key"]))
    return out


def of_v2(case):
    """NTLMv2 (MS-NLMP 3.3.2)."""
    v2, challenge = case["v2"], case["server_challenge"]
    nt, user, domain = v2["nt_response"], case["user_utf16"], case["domain_utf16"]
    who = case["nt_hash"], user, domain
    time = f"{v2['time']:016x}"
    of_response = challenge, time, case["client_challenge"], v2["pairs"]
    out = [(line("responses.respond_v2", *who, *of_response), nt)]
    for session in v2["sessions"]:
        key, exported = session["encrypted_session_key"], session["exported_key"]
        # An LM response of 24 bytes beside it changes nothing: the challenge is the server's.
        for lm in ["00" * 24, ""]:
            out += of_logon(case, v2, session["flags"], key, exported, lm, challenge)
    # The user's name counts in upper case, the domain's as it stands.
    upper = case["user"].upper()
    out.append((line("responses.verify", who[0], utf16(upper), domain, challenge, nt), v2["base_key"]))
    out.append((line("responses.verify", who[0], user, utf16(case["domain"] + "x"), challenge, nt), "none"))
    if case["domain"].swapcase() != case["domain"]:
        other = utf16(case["domain"].swapcase())
        out.append((line("responses.verify", who[0], user, other, challenge, nt), "none"))
    out.append((line("responses.verify", who[0], utf16(case["user"] + "x"), domain, challenge, nt), "none"))
    # A key that isn't of 16 bytes is refused where keys are exchanged (MS-NLMP 2.2.1.3).
    exchange = v2["exchange_key"]
    for key in ["", "11" * 15, "11" * 17]:
        out.append((line("responses.exported_key", exchange, "40088231", key), "none"))
        out.append((line("responses.exported_key", exchange, "00088231", key), exchange))
    return out


def of_lengths(case):
    """Only 24 bytes, or 44 and more, are a response; 44 are the proof over the shortest rest, here of zeros."""
    who = case["nt_hash"], case["user_utf16"], case["domain_utf16"]
    challenge, key = case["server_challenge"], case["nt_key_v2"]
    rest = "00" * 28
    proof = hmac_md5(key, challenge, rest)
    base = hmac_md5(key, proof)
    nt = proof + rest
    out = [(line("responses.verify", *who, challenge, nt), base)]
    out.append((line("responses.verify", *who, "00" * 8, nt), "none"))
    out.append((line("responses.verify", *who, challenge, altered(nt, 43)), "none"))
    for length in [0, 1, 16, 23, 25, 43]:
        # The proof over what a response of this length would hold is refused all the same.
        short = "00" * max(length - 16, 0)
        proof = hmac_md5(key, challenge, short)
        out.append((line("responses.verify", *who, challenge, (proof + short)[: 2 * length]), "none"))
    return out


def of_message(case):
    """The responses and keys of another client's message (MS-NLMP 3.3 and 3.4.5.1): the base and exchange keys by
    Python's HMAC-MD5."""
    fields, nt_hash = case["fields"], case["nt_hash"]
    # Names are UTF-16LE under flag NTLMSSP_NEGOTIATE_UNICODE, and ASCII else.
    is_unicode = int(fields["flags"], 16) & 1
    user, domain = [
        bytes.fromhex(fields[name]).decode("utf-16-le" if is_unicode else "ascii")
        for name in ["user", "domain"]
    ]
    who = nt_hash, utf16(user), utf16(domain)
    challenge, flags = case["checks"][0]["challenge"], fields["flags"]
    lm, nt = fields["lm"], fields["nt"]
    is_ess = int(flags, 16) & EXTENDED_SESSIONSECURITY and len(lm) == 48 and len(nt) == 48
    out = []
    if is_ess:
        answered = hashlib.md5(bytes.fromhex(challenge + lm[:16])).hexdigest()[:16]
    else:
        answered = challenge
    if len(nt) == 48:
        base = md4(bytes.fromhex(nt_hash)).hex()
        out.append((line("responses.respond_v1", nt_hash, answered), nt))
    else:
        key = hmac_md5(nt_hash, utf16(user.upper()), who[2])
        out.append((line("responses.nt_key_v2", *who), key))
        base = hmac_md5(key, nt[:32])
    exchange = hmac_md5(base, challenge, lm[:16]) if is_ess else base
    out += [
        (line("responses.challenge_for", flags, challenge, lm, nt), answered),
        (line("responses.verify", *who, answered, nt), base),
        (line("responses.exchange_key", base, flags, challenge, lm, nt), exchange),
        (line("responses.exported_key", exchange, flags, fields["key"]), case["exported_key"]),
    ]
    for check in case["checks"]:
        if not check["accepted"]:
            wrong = check["challenge"]
            if is_ess:
                wrong = hashlib.md5(bytes.fromhex(wrong + lm[:16])).hexdigest()[:16]
            out.append((line("responses.verify", *who, wrong, nt), "none"))
    return out


def of_recorded_link(session):
    """The responses and keys of the message of a recorded link between Samba's client and its controller."""
    _, challenge, message = recorded_messages(session)
    found = read("authenticate", message)
    server = read("challenge", challenge)["challenge"].hex()
    fields = {name.lower(): found[name].hex() for name in ["Lm", "Nt", "Domain", "User", "Key"]} | {"flags": f"{found['flags']:08x}"}
    checks = [{"challenge": server, "accepted": True}, {"challenge": altered(server, 7), "accepted": False}]
    return of_message({"fields": fields, "nt_hash": session["nt_hash"], "checks": checks, "exported_key": session["exported_key"]})


def cases():
    """Each line and its answer."""
    settings = values("ntlm")["settings"]
    out = []
    for case in settings:
        out += of_hashes(case) + of_v1(case) + of_v1_ess(case) + of_v2(case)
        out += of_lengths(case)
    for case in values("messages")["authenticate"]:
        out += of_message(case)
    for session in values("units")["sessions"]:
        out += of_recorded_link(session)
    return out
