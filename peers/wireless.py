"""A wireless reader that others wrote, between fido2's `CtapPcscDevice` and the panel: Debian's pcscd with vsmartcard's virtual reader,
vpcd. The panel is the card that lies on it, and the glue that a reader's firmware has is played here: applet selection."""

import os
import socket
import subprocess
import tempfile
import threading
import time
from contextlib import contextmanager

from fido2.ctap import CtapDevice
from fido2.pcsc import AID_FIDO, CtapPcscDevice

from panel import WIRELESS, Refusal, given

DAEMON = "/usr/sbin/pcscd"
CONFIG = "/etc/reader.conf.d/vpcd"  # Debian's own: it names reader, driver and port
READER = "Virtual PCD"
PORT = 35963
COMM = "/run/pcscd/pcscd.comm"  # where pcscd's clients find it
PATIENCE = 20  # seconds for daemon and reader to be there
ATR = bytes.fromhex("3b800181")
WANTS_ATR = 4  # a control byte; those for power and reset, 0, 1 and 2, ask for no answer


class Unavailable(Exception):
    """There is no reader, and why."""


class Daemon:
    """pcscd in the foreground, with the virtual reader alone."""

    def __enter__(self):
        for needed in DAEMON, CONFIG:
            if not os.path.exists(needed):
                raise Unavailable(f"no {needed}: the packages pcscd and vsmartcard-vpcd have it")
        self.log = tempfile.TemporaryFile("w+")
        try:
            self.process = subprocess.Popen([DAEMON, "-f", "-c", CONFIG], stdin=subprocess.DEVNULL, stdout=self.log, stderr=self.log)
        except OSError as error:
            raise Unavailable(f"pcscd could not be started: {error}") from None
        try:
            self.wait()
        except BaseException:
            self.__exit__()
            raise
        return self

    def wait(self):
        until = time.monotonic() + PATIENCE
        while time.monotonic() < until:
            ended = self.process.poll() is not None
            if os.path.exists(COMM):  # a pcscd with this reader that runs already will do
                try:
                    socket.create_connection(("127.0.0.1", PORT), 1).close()
                    return
                except OSError:
                    pass
            if ended:
                raise Unavailable(f"pcscd ended with {self.process.returncode}: {self.said()}")
            time.sleep(0.1)
        raise Unavailable(f"pcscd opened no reader on port {PORT}: {self.said()}")

    def said(self):
        self.log.seek(0)
        return " / ".join(self.log.read().split("\n")[-6:]).strip() or "it said nothing"

    def __exit__(self, *_):
        if self.process.poll() is None:
            self.process.terminate()
            try:
                self.process.wait(10)
            except subprocess.TimeoutExpired:
                self.process.kill()
                self.process.wait()
        self.log.close()


class Card(threading.Thread):
    """The panel on the reader: it gets frames and gives responses. What passed is in `frames`, a pair each."""

    def __init__(self, device):
        super().__init__(daemon=True)
        self.device = device
        self.frames = []
        self.refusals = []
        self.trouble = None  # what went wrong on this side
        self.line = socket.create_connection(("127.0.0.1", PORT), 5)
        self.line.settimeout(None)

    def run(self):
        try:
            while message := self.received():
                if len(message) > 1:
                    response = self.response(message)
                    self.frames.append((message, response))
                    self.send(response)
                elif message[0] == WANTS_ATR:
                    self.send(ATR)
        except OSError:
            pass  # taken off the reader
        except Exception as trouble:
            self.trouble = trouble
        self.line.close()

    def exactly(self, n):
        got = b""
        while len(got) < n and (more := self.line.recv(n - len(got))):
            got += more
        return got if len(got) == n else b""

    def received(self):
        return self.exactly(int.from_bytes(self.exactly(2), "big"))

    def send(self, message):
        self.line.sendall(len(message).to_bytes(2, "big") + message)

    def response(self, frame):
        selected = self.selected(frame)
        if selected is not None:
            return selected
        try:
            return self.device.answer(frame, WIRELESS)
        except Refusal as refusal:  # that is for the firmware: its host is told of a failure inside
            self.refusals.append(str(refusal))
            return bytes.fromhex("6f00")

    def selected(self, frame):
        """What firmware/reader.h does: applet selection is not the core's. After it nothing is left to fetch."""
        shape, *numbers = self.device.panel.call("read", frame)
        if len(shape) > 1 or frame[:2] != b"\x00\xa4":  # a status word, or not a SELECT
            return None
        _lc, _le, start, end = map(int, numbers)
        self.device.comes_from(WIRELESS)
        self.device.panel.call("remain", 0, 0)
        status, body = (0x9000, b"U2F_V2") if frame[start:end] == AID_FIDO else (0x6A82, b"")
        return given(self.device.panel.call("respond", status, body)[1])

    def take_off(self):
        try:
            self.line.shutdown(socket.SHUT_RDWR)
        except OSError:
            pass
        self.join()
        if self.trouble is not None:
            raise self.trouble


class Wireless(CtapDevice):
    """What a case is given: the client's device, which reaches the panel through the reader, and the finger and clock beside it."""

    def __init__(self, device, card, client):
        self.device, self.card, self.client = device, card, client

    def __getattr__(self, name):
        return getattr(self.device, name)

    def call(self, cmd, data=b"", event=None, on_keepalive=None):
        return self.client.call(cmd, data, event, on_keepalive)

    def exchange(self, frame):
        """One frame as it is, with no fetching: body and status."""
        body, *status = self.client.apdu_exchange(bytes.fromhex(frame))
        return body + bytes(status)

    def close(self):
        self.client.close()

    @classmethod
    def list_devices(cls):
        return []


def found(card):
    """The client's device, once pcscd has seen the card."""
    until = time.monotonic() + PATIENCE
    while time.monotonic() < until and card.trouble is None:
        for client in CtapPcscDevice.list_devices(READER):
            return client
        time.sleep(0.1)
    raise card.trouble or Unavailable("fido2 found no card on the reader")


@contextmanager
def laid_on(device):
    """The device on the reader, and off again."""
    card = Card(device)
    card.start()
    try:
        client = found(card)
        yield Wireless(device, card, client)
        client.close()
    finally:
        card.take_off()
