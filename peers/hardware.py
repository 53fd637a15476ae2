"""The hardware beside the panel, played with real keys: clock, finger, key store, attestation, counter, signer. On USB the host has
it as fido2's `CtapDevice`: a frame goes in, a response comes out. `answer` is for every transport, and each names its side there."""

import os
from datetime import datetime

from cryptography import x509
from cryptography.exceptions import InvalidTag
from cryptography.hazmat.primitives.asymmetric import ec
from cryptography.hazmat.primitives.ciphers.aead import AESGCM
from cryptography.hazmat.primitives.hashes import SHA256
from cryptography.hazmat.primitives.serialization import Encoding
from fido2.ctap import CtapDevice
from fido2.hid import CTAPHID

from panel import USB, Panel, given

TOUCH_WINDOW = 5000
STEP = 100  # milliseconds between one call and the next
NONCE = 16
HANDLE = 64  # nonce, sealed key and its tag


def ecdsa(key, message):
    return key.sign(message, ec.ECDSA(SHA256()))


def coordinates(key):
    """x and y of the public key; zeros where there is no key."""
    if key is None:
        return bytes(32), bytes(32)
    public = key.public_key().public_numbers()
    return public.x.to_bytes(32, "big"), public.y.to_bytes(32, "big")


def utf8_string(text):
    """In DER, for under 65,536 bytes."""
    n = len(text)
    length = bytes([n]) if n < 0x80 else b"\x81" + bytes([n]) if n < 0x100 else b"\x82" + n.to_bytes(2, "big")
    return b"\x0c" + length + text


class Attestation:
    """A P-256 key and its X.509 certificate of exactly `length` bytes."""

    def __init__(self, length):
        self.key = ec.generate_private_key(ec.SECP256R1())
        comment = 0
        # an ECDSA signature is not always as long as the one before, so the length is met by trying
        while len(certificate := self.certified(comment)) != length:
            comment = max(0, comment + length - len(certificate))
        self.certificate = certificate

    def certified(self, comment):
        name = x509.Name([x509.NameAttribute(x509.NameOID.COMMON_NAME, "Panel")])
        filler = x509.UnrecognizedExtension(x509.ObjectIdentifier("2.999.1"), utf8_string(b"." * comment))
        builder = x509.CertificateBuilder(name, name, self.key.public_key(), 1)
        builder = builder.not_valid_before(datetime(2020, 1, 1)).not_valid_after(datetime(2049, 1, 1))
        return builder.add_extension(filler, False).sign(self.key, SHA256()).public_bytes(Encoding.DER)


class KeyStore:
    """A handle is the private key itself, sealed for its application, and nothing is kept."""

    def __init__(self):
        self.seal = AESGCM(AESGCM.generate_key(256))
        self.made = 0  # keys

    def new(self, application):
        self.made += 1
        key = ec.generate_private_key(ec.SECP256R1())
        nonce = os.urandom(NONCE)
        secret = key.private_numbers().private_value.to_bytes(32, "big")
        return key, nonce + self.seal.encrypt(nonce, secret, application)

    def open(self, handle, application):
        """The handle's key, or None where the handle is not one of ours for this application."""
        try:
            secret = self.seal.decrypt(handle[:NONCE], handle[NONCE:], application)
        except (InvalidTag, ValueError):
            return None
        return ec.derive_private_key(int.from_bytes(secret, "big"), ec.SECP256R1())


class Device(CtapDevice):
    def __init__(self, attestation):
        self.attestation = attestation
        self.keys = KeyStore()
        self.counter = 1
        self.now = 0
        self.side = USB  # the panel's own at first
        self.panel = Panel()
        self.panel.as_firmware(TOUCH_WINDOW)

    def close(self):
        self.panel.close()

    @classmethod
    def list_devices(cls):
        return []

    def clock(self):
        self.now += STEP
        return self.now

    def touch(self):
        """A finger on the panel: was it accepted?"""
        return self.panel.call("touch", self.clock()) == ["yes"]

    def asks(self):
        """Does the panel's light ask for a finger?"""
        return self.panel.call("ask", self.clock()) == ["yes"]

    def record(self):
        return self.panel.call("record")

    def call(self, cmd, data=b"", event=None, on_keepalive=None):
        if cmd != CTAPHID.MSG:
            raise ValueError("a panel takes CTAP1 messages only")
        return self.answer(data, USB)

    def comes_from(self, side):
        """The next frame does."""
        if side != self.side:
            self.side = side
            self.panel.call("side", side)

    def answer(self, frame, side):
        self.comes_from(side)
        now = self.clock()
        key, handle = self.key_for(frame, now)
        decided = self.panel.call("decide", *self.lent(frame, now, key, handle))
        if decided[0] == "order":
            decided = self.carry_out(key, *decided[1:])
        # the host gets a response; what a 6700 goes on with is for the panel's own log
        word, *more = decided
        if word == "part":
            return given(more[0])
        if word == "9000":
            return given(self.panel.call("cut", len(given(more[0])))[1])
        return given(self.panel.call("respond", int(word, 16), b"")[1])

    def lent(self, frame, now, key, handle):
        """What a decision is lent, and a dry run too."""
        return (now, 1, frame, handle, True, self.attestation.certificate, 1, *coordinates(key), key is not None, self.counter, True)

    def key_for(self, frame, now):
        """The key that a command is about, and the handle of a new one."""
        command, *places = self.panel.call("command", frame)
        places = map(int, places)
        if command == "register":
            _challenge, application = places
            # a key is made only where the decision will come to an order; no more than the handle's length decides that
            unmade = None, bytes(HANDLE)
            will_be = self.panel.call("try", *self.lent(frame, now, *unmade))
            return self.keys.new(frame[application:application + 32]) if will_be[0] == "order" else unmade
        if command == "authenticate":
            _p1, _challenge, application, handle, end = places
            return self.keys.open(frame[handle:end], frame[application:application + 32]), b""
        return None, b""

    def carry_out(self, key, kind, taken, to_sign, _certificate_length):
        if taken == "1":
            self.counter += 1
        if kind == "1":
            return self.panel.call("finish", self.attestation.certificate, True, ecdsa(self.attestation.key, given(to_sign)))
        return self.panel.call("finish", b"", True, ecdsa(key, given(to_sign)))
