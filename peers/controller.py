#!/usr/bin/env python3
"""impacket (Debian: python3-impacket) as a member of the domain, against the running controller.

usage: controller.py PROGRAM [ARGUMENT..]

Starts the program (bin/nt_controller) on the sample table and a free port of the loopback address, and opens a secure
channel for FILE1$ by NetrServerReqChallenge and NetrServerAuthenticate2. On it `ann` logs on with the right response,
with a wrong one, and with an authenticator that passed before; then at level 1 with the right hash and a wrong one, and
off, twice. Then FILE1$ changes its secret by NetrServerPasswordSet, and opens a channel by the new one, and by the old
one, which is denied. Compares each status, the lines that the program printed and its exit status, and ends with 0
where all are as wanted."""
import os, socket, subprocess, sys, tempfile, time

from Cryptodome.Cipher import ARC4
from Cryptodome.Hash import MD4
from impacket import crypto, ntlm
from impacket.dcerpc.v5 import nrpc, transport
from impacket.dcerpc.v5.dtypes import NULL, WSTR
from impacket.dcerpc.v5.ndr import NDRCALL
# impacket looks for it beside a call's class
from impacket.dcerpc.v5.nrpc import DCERPCSessionError

SECRET = bytes.fromhex('41' * 16)          # of FILE1$ in docs/sample-table.toml
HASH = bytes.fromhex('11' * 16)            # of ann
CLIENT = bytes.fromhex('0102030405060708')
ASKED = bytes.fromhex('0123456789abcdef')
TABLE = os.path.join(os.path.dirname(os.path.abspath(__file__)), '..', 'docs', 'sample-table.toml')
NEW_SECRET = bytes.fromhex('61' * 16)
# the link, the bind, fifteen calls, the end of the link
EVENTS = 18
PRINTED = ('00000000', 'c000006a', None, '00000000', 'c000006a', '00000000', 'c000005f', '00000000', None)


class NetrServerPasswordSet(NDRCALL):
    """MS-NRPC 3.5.4.4.6, which impacket has no call for: of its types."""

    opnum = 6
    structure = (
        ('PrimaryName', nrpc.PLOGONSRV_HANDLE),
        ('AccountName', WSTR),
        ('SecureChannelType', nrpc.NETLOGON_SECURE_CHANNEL_TYPE),
        ('ComputerName', WSTR),
        ('Authenticator', nrpc.NETLOGON_AUTHENTICATOR),
        ('UasNewPassword', nrpc.ENCRYPTED_NT_OWF_PASSWORD),
    )


class NetrServerPasswordSetResponse(NDRCALL):
    structure = (('ReturnAuthenticator', nrpc.NETLOGON_AUTHENTICATOR), ('ErrorCode', nrpc.NTSTATUS))


failed = 0


def expect(what, found, wanted):
    global failed
    same = found == wanted
    failed += not same
    print('%-44s %r%s' % (what, found, '' if same else ', wanted %r' % (wanted,)))


def free_port():
    with socket.socket() as place:
        place.bind(('127.0.0.1', 0))
        return place.getsockname()[1]


def connect(port):
    for _ in range(600):
        try:
            dce = transport.DCERPCTransportFactory('ncacn_ip_tcp:127.0.0.1[%d]' % port).get_dce_rpc()
            dce.connect()
            return dce
        except Exception:
            time.sleep(0.1)
    sys.exit('the program does not listen')


def added(seed, number):
    return ((int.from_bytes(seed[:4], 'little') + number) % 2 ** 32).to_bytes(4, 'little') + seed[4:]


def answered(dce, call):
    """The status of a call, and its reply where that is 0."""
    try:
        reply = dce.request(call)
    except DCERPCSessionError as refused:
        return '%08x' % (refused.get_error_code() % 2 ** 32), refused.get_packet()
    return '%08x' % reply['ErrorCode'], reply


def with_authenticator(call, key, seed, timestamp):
    call['Authenticator']['Credential'] = nrpc.ComputeNetlogonCredential(added(seed, timestamp), key)
    call['Authenticator']['Timestamp'] = timestamp
    return call


def of_level(call, level, key, seed, timestamp):
    """A logon or logoff of ann, and the information of its level, of which her names are written."""
    call['LogonServer'] = NULL
    call['ComputerName'] = 'FILE1\x00'
    with_authenticator(call, key, seed, timestamp)
    call['ReturnAuthenticator']['Credential'] = b'\x00' * 8
    call['ReturnAuthenticator']['Timestamp'] = 0
    call['LogonLevel'] = level
    call['LogonInformation']['tag'] = level
    network = level == nrpc.NETLOGON_LOGON_INFO_CLASS.NetlogonNetworkInformation
    info = call['LogonInformation']['LogonNetwork' if network else 'LogonInteractive']
    info['Identity']['LogonDomainName'] = 'CORP'
    info['Identity']['ParameterControl'] = 0
    info['Identity']['UserName'] = 'ann'
    info['Identity']['Workstation'] = 'WS'
    return info


def logon(dce, key, seed, timestamp, response):
    """A logon of ann at level 2, with that response."""
    call = nrpc.NetrLogonSamLogon()
    info = of_level(call, nrpc.NETLOGON_LOGON_INFO_CLASS.NetlogonNetworkInformation, key, seed, timestamp)
    info['LmChallenge'] = ASKED
    info['NtChallengeResponse'] = response
    info['LmChallengeResponse'] = b''
    call['ValidationLevel'] = nrpc.NETLOGON_VALIDATION_INFO_CLASS.NetlogonValidationSamInfo
    return answered(dce, call)


def interactive(dce, call, key, seed, timestamp, secret):
    """A logon of ann at level 1, or its logoff, with that hash."""
    info = of_level(call, nrpc.NETLOGON_LOGON_INFO_CLASS.NetlogonInteractiveInformation, key, seed, timestamp)
    info['LmOwfPassword'] = bytes(16)
    info['NtOwfPassword'] = ARC4.new(key).encrypt(secret)
    if isinstance(call, nrpc.NetrLogonSamLogon):
        call['ValidationLevel'] = nrpc.NETLOGON_VALIDATION_INFO_CLASS.NetlogonValidationSamInfo
    return answered(dce, call)


def set_secret(dce, key, seed, timestamp, secret):
    """A change of FILE1$'s secret."""
    call = with_authenticator(NetrServerPasswordSet(), key, seed, timestamp)
    call['PrimaryName'] = NULL
    call['AccountName'] = 'FILE1$\x00'
    call['SecureChannelType'] = nrpc.NETLOGON_SECURE_CHANNEL_TYPE.WorkstationSecureChannel
    call['ComputerName'] = 'FILE1\x00'
    call['UasNewPassword'] = crypto.SamEncryptNTLMHash(secret, key)
    return answered(dce, call)


def channel(dce, secret):
    """The challenges of a channel for FILE1$, and what it comes to: its key, its first seed, and its status."""
    challenged = nrpc.hNetrServerReqChallenge(dce, NULL, 'FILE1\x00', CLIENT)
    expect('NetrServerReqChallenge', challenged['ErrorCode'], 0)
    server = challenged['ServerChallenge']
    key = nrpc.ComputeSessionKeyStrongKey('', CLIENT, server, secret)
    seed = nrpc.ComputeNetlogonCredential(CLIENT, key)
    try:
        opened = nrpc.hNetrServerAuthenticate2(
            dce, NULL, 'FILE1$\x00', nrpc.NETLOGON_SECURE_CHANNEL_TYPE.WorkstationSecureChannel, 'FILE1\x00', seed, 0x000041FF)
    except DCERPCSessionError as refused:
        return key, seed, '%08x' % (refused.get_error_code() % 2 ** 32)
    expect('its credential', opened['ServerCredential'], nrpc.ComputeNetlogonCredential(server, key))
    return key, seed, '%08x' % opened['ErrorCode']


def returned(reply, key, seed, timestamp):
    """The return credential is the one that is awaited; gives the seed that is next."""
    expect('its return credential', reply['ReturnAuthenticator']['Credential'], nrpc.ComputeNetlogonCredential(added(seed, timestamp + 1), key))
    return added(seed, timestamp + 1)


def calls(dce):
    """All calls, in their order."""
    key, seed, status = channel(dce, SECRET)
    expect('NetrServerAuthenticate2', status, '00000000')
    right = ntlm.ntlmssp_DES_encrypt(HASH, ASKED)
    now = 0x10000000
    status, reply = logon(dce, key, seed, now, right)
    expect('NetrLogonSamLogon, the right response', status, '00000000')
    expect('its name', reply['ValidationInformation']['ValidationSam']['EffectiveName'], 'ann')
    first, seed = seed, returned(reply, key, seed, now)
    expect('NetrLogonSamLogon, a wrong response', logon(dce, key, seed, now, b'\x00' * 24)[0], 'c000006a')
    seed = added(seed, now + 1)
    expect('NetrLogonSamLogon, an authenticator again', logon(dce, key, first, now, right)[0], 'c0000022')
    status, reply = interactive(dce, nrpc.NetrLogonSamLogon(), key, seed, now, HASH)
    expect('NetrLogonSamLogon at level 1, the right hash', status, '00000000')
    info = reply['ValidationInformation']['ValidationSam']
    expect('its name', info['EffectiveName'], 'ann')
    session = info['UserSessionKey']
    expect('its session key', ARC4.new(key).decrypt(session), MD4.new(HASH).digest())
    seed = returned(reply, key, seed, now)
    expect('NetrLogonSamLogon at level 1, a wrong hash', interactive(dce, nrpc.NetrLogonSamLogon(), key, seed, now, bytes(16))[0], 'c000006a')
    seed = added(seed, now + 1)
    status, reply = interactive(dce, nrpc.NetrLogonSamLogoff(), key, seed, now, HASH)
    expect('NetrLogonSamLogoff at level 1', status, '00000000')
    seed = returned(reply, key, seed, now)
    expect('NetrLogonSamLogoff at level 1, again', interactive(dce, nrpc.NetrLogonSamLogoff(), key, seed, now, HASH)[0], 'c000005f')
    seed = added(seed, now + 1)
    status, reply = set_secret(dce, key, seed, now, NEW_SECRET)
    expect('NetrServerPasswordSet', status, '00000000')
    first, seed = seed, returned(reply, key, seed, now)
    expect('NetrServerPasswordSet, an authenticator again', set_secret(dce, key, first, now, SECRET)[0], 'c0000022')
    expect('NetrServerAuthenticate2, the new secret', channel(dce, NEW_SECRET)[2], '00000000')
    expect('NetrServerAuthenticate2, the old secret', channel(dce, SECRET)[2], 'c0000022')


def main():
    port = free_port()
    with tempfile.NamedTemporaryFile() as seed_file:
        seed_file.write(bytes(range(32)))
        seed_file.flush()
        program = subprocess.Popen(
            sys.argv[1:] + ['serve', '--listen', '127.0.0.1:%d' % port, '--name', 'PDC', '--table', TABLE, '--seed', seed_file.name,
                            '--boot', '1', '--events', str(EVENTS)], stdout=subprocess.PIPE, stderr=subprocess.PIPE)
        dce = connect(port)
        dce.bind(nrpc.MSRPC_UUID_NRPC)
        calls(dce)
        dce.disconnect()
        lines, errors = program.communicate(timeout=60)
    expect('printed', lines.decode(), ''.join('barred\n' if status is None else 'passed %s\n' % status for status in PRINTED))
    expect('said', errors.decode(), '')
    expect('exit status', program.returncode, 0)
    sys.exit(failed != 0)


if __name__ == '__main__':
    main()
