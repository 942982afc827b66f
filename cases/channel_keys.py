"""Cases of channel_keys.

`channel.session_key SECRET CLIENT SERVER FLAGS`, `channel.strong_key SECRET CLIENT SERVER`, `channel.des_key SECRET
CLIENT SERVER`,
`channel.cred KEY INPUT`, `channel.cred_key KEY INPUT` (the kept key, and the credential), `channel.cred_back KEY
OUTPUT`,
`channel.credentials SECRET CLIENT SERVER FLAGS` (the client's and the server's), `channel.flag NAME` (the number, and
whether this project offers it), `channel.granted SUPPORTED OFFERED`, `channel.type NAME`.
"""

from forms import LIVE_SECRET, line, live_calls, values

# MS-NRPC 3.1.4.2 (C, O, W and Y of the table of options); what is offered is this project's own choice.
FLAGS = [
    ("RC4", "00000004 true"),
    ("STRONG_KEY", "00004000 true"),
    ("AES", "01000000 false"),
    ("SECURE_RPC", "40000000 false"),
    ("SUPPORTED_FLAGS", "000041ff true"),
]

# MS-NRPC 2.2.1.3.13.
TYPES = [("WORKSTATION", "2"), ("TRUSTED_DOMAIN", "4"), ("BACKUP_CONTROLLER", "6")]

# Flags that are offered, and those of them in 0x000041ff.
GRANTED = [
    ("000001ff", "000001ff"),
    ("000041ff", "000041ff"),
    ("000001fb", "000001fb"),
    ("ffffffff", "000041ff"),
    ("00000000", "00000000"),
    ("01004004", "00004004"),
    ("40020000", "00000000"),
]

# Flags without the strong key's 0x4000, and with it: MS-NRPC 3.1.4.3.
WITHOUT_STRONG_KEY = ["000001ff", "ffffbfff", "00000000"]
WITH_STRONG_KEY = ["40004004", "000041ff", "00004000"]


def of_live_link():
    """Both credentials of a recorded link, under the flags that the client offered."""
    asked, answered, offered, granted = [case["fields"] for case in live_calls()[:4]]
    flags = f"{offered['flags']:08x}"
    line_of = line("channel.credentials", LIVE_SECRET, asked["challenge"], answered["challenge"], flags)
    return [(line_of, f"{offered['credential']};{granted['credential']}")]


def cases():
    """Each line and its answer."""
    netlogon = values("netlogon")
    out = []
    for channel in netlogon["channels"]:
        of_channel = channel["secret"], channel["client_challenge"], channel["server_challenge"]
        strong, des = channel["strong_key"], channel["des_key"]
        out.append((line("channel.strong_key", *of_channel), strong))
        out.append((line("channel.des_key", *of_channel), des))
        for all_flags, key, name in [(WITHOUT_STRONG_KEY, des, "des"), (WITH_STRONG_KEY, strong, "strong")]:
            both = ";".join(channel[f"{side}_credential_{name}_key"] for side in ["client", "server"])
            for flags in all_flags:
                out.append((line("channel.session_key", *of_channel, flags), key))
                out.append((line("channel.credentials", *of_channel, flags), both))
        for key, name in [(strong, "strong"), (des, "des")]:
            for side in ["client", "server"]:
                challenge = channel[f"{side}_challenge"]
                credential = channel[f"{side}_credential_{name}_key"]
                out.append((line("channel.cred", key, challenge), credential))
                out.append((line("channel.cred_key", key, challenge), f"{key};{credential}"))
                out.append((line("channel.cred_back", key, credential), challenge))
    for case in netlogon["credentials"]:
        key, text, credential = case["key"], case["input"], case["credential"]
        out.append((line("channel.cred", key, text), credential))
        out.append((line("channel.cred_key", key, text), f"{key};{credential}"))
        out.append((line("channel.cred_back", key, credential), text))
        out.append((line("channel.cred_back", key, text), case["credential_back_of_input"]))
        out.append((line("channel.cred", key, case["credential_back_of_input"]), text))
    for maker in netlogon["challenge_maker"]:
        if maker["boot"] == 0:
            # The first draw is the credential of 8 zeros.
            out.append((line("channel.cred", maker["key"], "00" * 8), maker["first_draws"][0]))
    for name, answer in FLAGS:
        out.append((line("channel.flag", name), answer))
    for offered, answer in GRANTED:
        out.append((line("channel.granted", "000041ff", offered), answer))
        out.append((line("channel.granted", offered, "000041ff"), answer))
        out.append((line("channel.granted", offered, "ffffffff"), offered))
    for name, number in TYPES:
        out.append((line("channel.type", name), number))
    return out + of_live_link()
