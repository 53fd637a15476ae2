"""Clients, a server and a reader that others wrote, against the panel: python3-fido2, libu2f-server's own tool, `u2f-server`, and pcscd."""

import os
import tempfile
import traceback
from contextlib import nullcontext
from hashlib import sha256

from cryptography.exceptions import InvalidSignature as InvalidLogin
from cryptography.x509 import load_der_x509_certificate
from fido2.attestation import InvalidSignature as InvalidEnrolment
from fido2.ctap1 import APDU, ApduError, Ctap1, SignatureData

from building import quietly, tell
from hardware import HANDLE, Attestation, Device, coordinates, ecdsa
from panel import USB, WIRELESS, Panel, Refusal, Trouble
from server import ORIGIN, Server, is_known, server_enrolment, server_login
from wireless import Daemon, Unavailable, laid_on

APPLICATION = sha256(ORIGIN.encode()).digest()
OTHER_APPLICATION = sha256(b"https://example.org").digest()
ROOM = 1024


def say(text):
    tell(f"    {text}")


def status(ask):
    """The status word that the client gets."""
    try:
        ask()
    except ApduError as error:
        return error.code
    return APDU.OK


def refusal(ask):
    """The core's refusal, if it refused."""
    try:
        ask()
    except Refusal as refused:
        return str(refused)
    return None


def spoiled(reply):
    """The same reply with one bit of its last byte turned."""
    return type(reply)(reply[:-1] + bytes([reply[-1] ^ 1]))


def rejected(verify):
    try:
        verify()
    except (InvalidEnrolment, InvalidLogin):
        return True
    return False


def touched(device, ask):
    """What a client does: it asks, is told that a finger is needed, waits for it, and asks again."""
    assert status(ask) == APDU.USE_NOT_SATISFIED and device.asks()
    assert device.touch() and not device.asks()
    say("6985, the light asks; a touch, accepted; asked again")
    return ask()


def enrolled(device):
    challenge = os.urandom(32)
    reply = touched(device, lambda: Ctap1(device).register(challenge, APPLICATION))
    assert_enrolment(device, reply, challenge)
    return reply


def assert_enrolment(device, reply, challenge):
    assert reply.certificate == device.attestation.certificate
    assert load_der_x509_certificate(reply.certificate) and len(reply.key_handle) == HANDLE
    reply.verify(APPLICATION, challenge)
    say(f"9000, enrolment of {len(reply)} bytes, certificate {len(reply.certificate)}: verified by fido2")


def version(device):
    """fido2 asks for the version"""
    said = Ctap1(device).get_version()
    assert said == "U2F_V2"
    say(f"9000, {said}")


def enrolment_and_logins(device):
    """fido2 enrols and logs in twice"""
    key = enrolled(device)
    for counter in (1, 2):
        challenge = os.urandom(32)
        reply = touched(device, lambda: Ctap1(device).authenticate(challenge, APPLICATION, key.key_handle))
        reply.verify(APPLICATION, challenge, key.public_key)
        assert (reply.user_presence, reply.counter) == (1, counter)
        say(f"9000, login with counter {counter}: verified by fido2")


def login_without_touch(device):
    """fido2 logs in with P1 08, which asks for no touch"""
    client, challenge, key = Ctap1(device), os.urandom(32), enrolled(device)
    data = challenge + APPLICATION + bytes([HANDLE]) + key.key_handle
    reply = SignatureData(client.send_apdu(ins=Ctap1.INS.AUTHENTICATE, p1=8, data=data))
    reply.verify(APPLICATION, challenge, key.public_key)
    assert (reply.user_presence, reply.counter) == (0, 1)
    say("9000 at once, presence byte 00: verified by fido2")


def changed_replies(device):
    """fido2 rejects replies of which one bit was turned"""
    challenge = os.urandom(32)
    key = touched(device, lambda: Ctap1(device).register(challenge, APPLICATION))
    assert not rejected(lambda: key.verify(APPLICATION, challenge))
    assert rejected(lambda: spoiled(key).verify(APPLICATION, challenge))
    login = touched(device, lambda: Ctap1(device).authenticate(challenge, APPLICATION, key.key_handle))
    counted_on = SignatureData(login[:4] + bytes([login[4] ^ 1]) + login[5:])
    for changed in (spoiled(login), counted_on):
        assert rejected(lambda: changed.verify(APPLICATION, challenge, key.public_key))
    say("enrolment with another signature, login with another signature, login with another counter: rejected")


def carried_over(device):
    """fido2 takes an enrolment's signature for no login's, though one key signs both, as long as all its bytes are signed"""
    application, challenge = os.urandom(31) + bytes([1]), bytes([0, 0, 0, 7]) + os.urandom(28)
    reply = touched(device, lambda: Ctap1(device).register(challenge, application))
    reply.verify(application, challenge)
    # the login that the first 69 bytes are: application, presence byte and counter, challenge
    signed = bytes(1) + application + challenge + reply.key_handle + reply.public_key
    key = device.attestation.key
    public = b"\x04" + b"".join(coordinates(key))
    login = lambda signature: SignatureData(signed[32:37] + signature).verify(signed[:32], signed[37:69], public)
    assert rejected(lambda: login(reply.signature)) and rejected(lambda: login(ecdsa(key, signed[:70])))
    say("the enrolment's signature as a login's: rejected")
    assert not rejected(lambda: login(ecdsa(key, signed[:69])))
    say("a signature of its first 69 bytes: accepted, so a signer is not to stop there")


def handles(device):
    """fido2 asks which handles are known, with no touch"""
    client, challenge = Ctap1(device), os.urandom(32)
    handle = enrolled(device).key_handle
    before = device.record()
    assert status(lambda: client.authenticate(challenge, APPLICATION, handle, check_only=True)) == 0x6985
    assert device.record()[:3] == before[:3] and not device.asks()
    say("its own handle, check only: 6985, and the light does not ask")
    for foreign, application in (handle, OTHER_APPLICATION), (os.urandom(HANDLE), APPLICATION), (b"", APPLICATION):
        for check_only in (True, False):
            assert status(lambda: client.authenticate(challenge, application, foreign, check_only)) == 0x6A80
    say("for another application, an invented one, an empty one: 6a80")


def wrong_lengths(device):
    """fido2 sends data that the command does not have, and is told 6700 and no more"""
    client, ins = Ctap1(device), Ctap1.INS
    for command, data in (ins.VERSION, bytes(1)), (ins.REGISTER, bytes(63)), (ins.AUTHENTICATE, bytes(64)):
        assert status(lambda: client.send_apdu(ins=command, data=data)) == 0x6700
    for frame in "00 03 00 00 00 01", "00 03 00 00 01 aa 00 00":
        assert device.answer(bytes.fromhex(frame), USB) == bytes.fromhex("6700")
    say("Version, Register and Authenticate with another Lc, bytes missing, bytes too many: 6700")


def lapsed_touch(device):
    """fido2 comes too late for a touch, and no key is made until it comes in time"""
    register = lambda: Ctap1(device).register(os.urandom(32), APPLICATION)
    assert status(register) == 0x6985 and device.touch()
    device.now += 5000
    assert status(register) == 0x6985 and device.keys.made == 0
    say("6985, a touch, five seconds: 6985 again; no key was made")
    assert device.touch() and status(register) == APDU.OK and device.keys.made == 1
    say("a touch, 9000: one key was made")


def too_long(device):
    """a certificate too long for the reply buffer costs no touch"""
    short, long = device.attestation, Attestation(900)
    challenge = os.urandom(32)
    register = lambda: Ctap1(device).register(challenge, APPLICATION)

    device.attestation, fresh = long, device.record()
    assert refusal(register) == "R2" and device.record() == fresh
    assert not device.asks() and not device.touch()
    say(f"certificate of 900 bytes, buffer of {ROOM}: R2; the light does not ask, a touch is not accepted")

    device.attestation = short
    assert status(register) == 0x6985 and device.asks() and device.touch()
    say("certificate of 300: 6985; the light asks, a touch is accepted")

    device.attestation, held = long, device.record()
    assert refusal(register) == "R2" and device.record() == held
    say("certificate of 900 again: R2; the record is as it was, so the touch is still there")

    device.attestation = short
    assert_enrolment(device, register(), challenge)
    assert status(register) == 0x6985
    say("that was with the same touch, and now it is spent: 6985")


def room_to_the_byte(device):
    """the reply buffer has the room that is asked for, or one byte less"""
    challenge, enough = os.urandom(32), 139 + HANDLE + len(device.attestation.certificate)
    register = lambda: Ctap1(device).register(challenge, APPLICATION)
    device.panel.call("room", enough - 1)
    assert refusal(register) == "R2"
    device.panel.call("room", enough)
    reply = touched(device, register)
    assert_enrolment(device, reply, challenge)
    device.panel.call("room", 76)
    login = lambda: Ctap1(device).authenticate(challenge, APPLICATION, reply.key_handle)
    assert refusal(login) == "R2"
    device.panel.call("room", 77)
    touched(device, login).verify(APPLICATION, challenge, reply.public_key)
    say(f"enrolment: {enough - 1} is R2, {enough} is enough; login: 76 is R2, 77 is enough")


def server_accepts(device):
    """libu2f-server judges an enrolment and two logins that fido2 made with the panel"""
    with tempfile.TemporaryDirectory() as folder:
        server = Server(folder)
        accepted, said = server_enrolment(device, server)
        say(f"u2f-server: {said}")
        assert accepted and "Registration successful" in said
        for counter in (1, 2):
            accepted, said = server_login(device, server)
            say(f"u2f-server: {said}")
            assert accepted and f"Successful authentication, counter: {counter}, user presence 1" in said
        assert is_known(device, server)
        say("a second enrolment for the same account: fido2 sees that this panel is enrolled")


def server_rejects(device):
    """libu2f-server rejects an enrolment and a login of which one bit was turned"""
    with tempfile.TemporaryDirectory() as folder:
        server = Server(folder)
        enrolment = server_enrolment(device, server, spoiled)
        assert server_enrolment(device, server)[0]
        login = server_login(device, server, spoiled)
        for accepted, said in enrolment, login:
            say(f"u2f-server: {said}")
            assert not accepted and "Unable to verify signature" in said


def parts_of(device, first):
    """The bodies of the responses from the one to that frame on, and their statuses: the frames after it are GET RESPONSE."""
    frames = [frame for frame, _ in device.card.frames]
    at = max(i for i, frame in enumerate(frames) if frame[:2] == first)
    assert all(frame[:4] == bytes.fromhex("00c00000") and len(frame) == 5 for frame in frames[at + 1:])
    responses = [response for _, response in device.card.frames[at:]]
    return [response[:-2] for response in responses], [response[-2:].hex() for response in responses]


def wireless_version(device):
    """by the reader: fido2 selects the applet, finds no CTAP2, and asks for the version"""
    (select, selected), (probe, probed) = device.card.frames
    assert select.hex() == "00a4040008a0000006472f0001" and selected == b"U2F_V2" + bytes.fromhex("9000")
    assert probe[:4].hex() == "80108000" and probed.hex() == "6e00"
    say(f"{select.hex()}: U2F_V2; {probe.hex()}: 6e00")
    version(device)
    assert device.exchange("00a4040008a0000006472f0002").hex() == "6a82"
    say("another applet: 6a82")


def wireless_enrolment_and_logins(device):
    """by the reader, in short frames: fido2 enrols and logs in twice, and fetches by GET RESPONSE"""
    challenge = os.urandom(32)
    key = touched(device, lambda: Ctap1(device).register(challenge, APPLICATION))
    assert_enrolment(device, key, challenge)
    bodies, statuses = parts_of(device, bytes.fromhex("0001"))
    left = len(key)
    for body, status in zip(bodies, statuses):
        assert len(body) == min(left, 256)
        left -= len(body)
        assert status == ("9000" if left == 0 else f"61{left if left < 256 else 0:02x}")
    assert left == 0 and b"".join(bodies) == key and len(bodies) == -(-len(key) // 256) > 1
    say(f"it came in {len(bodies)} parts: {', '.join(f'{len(body)} and {status}' for body, status in zip(bodies, statuses))}")
    for counter in (1, 2):
        challenge = os.urandom(32)
        reply = touched(device, lambda: Ctap1(device).authenticate(challenge, APPLICATION, key.key_handle))
        reply.verify(APPLICATION, challenge, key.public_key)
        assert (reply.user_presence, reply.counter) == (1, counter)
        assert parts_of(device, bytes.fromhex("0002"))[1] == ["9000"]
        say(f"9000, login with counter {counter}, in one part: verified by fido2")


def wireless_changed_replies(device):
    """by the reader: fido2 rejects replies of which one bit was turned"""
    changed_replies(device)


def wireless_fetching(device):
    """by the reader: what is left of an enrolment is kept by a GET RESPONSE that is refused, and dropped by any other frame"""
    register = "0001000040" + os.urandom(32).hex() + APPLICATION.hex() + "00"
    nothing, refused, version_frame = "00c0000000", "00c0010000", "0003000000"
    assert device.exchange(nothing).hex() == "6985" and not device.asks()
    say("nothing left: 6985, and the light does not ask")

    def first_part():
        assert device.exchange(register).hex() == "6985" and device.touch()
        first = device.exchange(register)
        assert len(first) == 258 and first[256] == 0x61
        return first

    first = first_part()
    assert device.exchange(refused).hex() == "6a86"
    left = device.exchange("00c00000" + f"{first[257]:02x}")
    assert len(left) == first[257] + 2 and left[-2:].hex() == "9000"
    assert device.exchange(nothing).hex() == "6985"
    say("6a86 in between: the rest comes, then 6985")
    for other, answer in (version_frame, b"U2F_V2".hex() + "9000"), ("0004000000", "6d00"), ("00c000000001", "6700"):
        first_part()
        assert device.exchange(other).hex() == answer and device.exchange(nothing).hex() == "6985"
    say("Version, an unknown INS, a damaged frame in between: 6985")
    first_part()
    assert device.exchange("00a4040008a0000006472f0001").hex() == b"U2F_V2".hex() + "9000"
    assert device.exchange(nothing).hex() == "6985"
    say("the applet selected anew: 6985")


def login_by(device, key):
    """A login with this key, by this way to the panel, verified; it says its counter."""
    challenge = os.urandom(32)
    reply = Ctap1(device).authenticate(challenge, APPLICATION, key.key_handle)
    reply.verify(APPLICATION, challenge, key.public_key)
    assert reply.user_presence == 1
    return reply.counter


def asked_by(device, key, side):
    """A login by this way is told that a finger is needed, and the panel asks for its side."""
    assert status(lambda: login_by(device, key)) == 0x6985 and device.asks()
    assert device.record()[4] == str(side)


def kept_out(device, key):
    """A login by this way finds the other side's touch: 6985, the light does not ask, and of the record the last moment alone moves."""
    held = device.record()
    assert held[2] != "-" and status(lambda: login_by(device, key)) == 0x6985 and not device.asks()
    after = device.record()
    assert after[:3] + after[4:] == held[:3] + held[4:] and after[3] != held[3]


def two_sides(wireless):
    """on USB and by the reader, on one pad: a touch serves the side that asked for it"""
    usb = wireless.device
    key = enrolled(usb)
    asked_by(wireless, key, WIRELESS)
    assert usb.touch()
    kept_out(usb, key)
    assert status(lambda: Ctap1(usb).register(os.urandom(32), APPLICATION)) == 0x6985 and usb.keys.made == 1
    say("by the reader 6985, a touch; on USB a login and an enrolment: 6985, and the touch is still there")
    assert login_by(wireless, key) == 1
    say("by the reader again: 9000, verified by fido2")

    asked_by(wireless, key, WIRELESS)
    asked_by(usb, key, USB)
    assert usb.touch()
    kept_out(wireless, key)
    assert login_by(usb, key) == 2
    say("by the reader 6985, then on USB 6985, a touch: by the reader 6985; on USB 9000, verified by fido2")

    asked_by(wireless, key, WIRELESS)
    assert usb.touch()
    usb.now += 5000
    asked_by(usb, key, USB)
    assert usb.touch() and login_by(usb, key) == 3
    say("by the reader 6985, a touch, five seconds: on USB 6985, and the light asks; a touch, 9000")


def two_bodies(wireless):
    """on USB and by the reader, on one pad: what is left to fetch for the one is not fetched or dropped by the other"""
    usb, register = wireless.device, "0001000040" + os.urandom(32).hex() + APPLICATION.hex() + "00"
    assert wireless.exchange(register).hex() == "6985" and usb.touch()
    first = wireless.exchange(register)
    assert len(first) == 258 and first[256] == 0x61
    assert usb.answer(bytes.fromhex("00c00000"), USB).hex() == "6985"
    assert Ctap1(usb).get_version() == "U2F_V2" and usb.answer(bytes.fromhex("0003000002"), USB)[2:].hex() == "6104"
    rest = wireless.exchange("00c00000" + f"{first[257]:02x}")
    assert len(rest) == first[257] + 2 and rest[-2:].hex() == "9000"
    assert usb.answer(bytes.fromhex("00c00000"), USB) == b"F_V2" + bytes.fromhex("9000")
    say("by the reader an enrolment's first part; on USB nothing to fetch, and a version of its own: each side gets its rest")


def narrow_reader(wireless):
    """by a reader that carries 256 bytes and a status word: no touch is spent on a reply that it cannot carry"""
    challenge = os.urandom(32)
    extended = "00010000000040" + challenge.hex() + APPLICATION.hex() + "0000"
    wireless.panel.call("outroom", 258)
    assert status(lambda: Ctap1(wireless).register(challenge, APPLICATION)) == 0x6985 and wireless.touch()
    held = wireless.record()
    assert wireless.exchange(extended).hex() == "6f00" and wireless.card.refusals == ["R2"]
    assert wireless.record() == held and held[2] != "-" and wireless.keys.made == 0
    say("an extended enrolment: R2, so the host is told 6f00; no key is made, and the touch is still there")
    assert_enrolment(wireless, Ctap1(wireless).register(challenge, APPLICATION), challenge)
    say("in a short frame on the same touch: 9000")


CASES = [
    (version, 300),
    (enrolment_and_logins, 300),
    (enrolment_and_logins, 600),
    (login_without_touch, 300),
    (changed_replies, 300),
    (carried_over, 300),
    (handles, 300),
    (wrong_lengths, 300),
    (lapsed_touch, 300),
    (too_long, 300),
    (room_to_the_byte, 300),
    (room_to_the_byte, 600),
    (server_accepts, 300),
    (server_accepts, 600),
    (server_rejects, 300),
]

# by the virtual reader; with a certificate of 600 bytes the enrolment takes four parts
BY_READER = [
    (wireless_version, 300),
    (wireless_enrolment_and_logins, 300),
    (wireless_enrolment_and_logins, 600),
    (wireless_changed_replies, 600),
    (wireless_fetching, 300),
    (two_sides, 300),
    (two_bodies, 300),
    (narrow_reader, 600),
]


def itself(device):
    """The device as the client's, with nothing between."""
    return nullcontext(device)


def passes(case, length, reached=itself):
    tell(f"{case.__doc__} (certificate of {length} bytes)")
    try:
        with Device(Attestation(length)) as device, reached(device) as by_client:
            case(by_client)
    except Trouble as trouble:
        say(f"FAILED: {trouble}")
        return False
    except Exception:
        tell(traceback.format_exc().rstrip())
        say("FAILED")
        return False
    return True


def main():
    Panel().close()  # where there is none, that is said once
    passed = sum(passes(case, length) for case, length in CASES)
    try:
        with Daemon():
            passed += sum(passes(case, length, laid_on) for case, length in BY_READER)
    except Unavailable as why:
        tell(f"no wireless reader, so none of {len(BY_READER)} cases: {why}")
        say("FAILED")
    total = len(CASES) + len(BY_READER)
    tell(f"peers: {passed} of {total} passed")
    return passed != total


if __name__ == "__main__":
    quietly("peers/run", main)
