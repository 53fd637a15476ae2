"""The server that others wrote, libu2f-server's own tool `u2f-server`, and fido2's `U2fClient` between it and the panel."""

import json
import subprocess
from pathlib import Path
from threading import Event

from fido2.client import ClientError, U2fClient
from fido2.ctap1 import RegistrationData, SignatureData

ORIGIN = "https://example.com"


class Server:
    """`u2f-server`: it says a challenge, takes the client's response and judges it. What it learns of an enrolment is in its
    folder afterwards."""

    def __init__(self, folder):
        self.folder = Path(folder)

    def key(self):
        return {"version": "U2F_V2", "keyHandle": (self.folder / "handle").read_text()}

    def judge(self, action, respond):
        """Accepted? And what it says."""
        words = ["-a", action, "-o", ORIGIN, "-i", ORIGIN, "-k", self.folder / "handle", "-p", self.folder / "key"]
        with subprocess.Popen(["stdbuf", "-oL", "u2f-server", *words], stdin=subprocess.PIPE, stdout=subprocess.PIPE,
                              stderr=subprocess.STDOUT, text=True) as server:
            response = respond(json.loads(server.stdout.readline()))
            said = server.communicate(json.dumps(response))[0].strip()
        return server.returncode == 0, said


def finger(device, event):
    """A client that waits for a touch gets it; if the panel does not accept it, the client stops waiting."""
    return lambda _: None if device.touch() else event.set()


def server_enrolment(device, server, change=lambda reply: reply):
    def respond(asked):
        event = Event()
        response = U2fClient(device, ORIGIN).register(ORIGIN, [asked], [], event, finger(device, event))
        return response | {"registrationData": change(RegistrationData.from_b64(response["registrationData"])).b64}

    return server.judge("register", respond)


def server_login(device, server, change=lambda reply: reply):
    def respond(asked):
        event = Event()
        response = U2fClient(device, ORIGIN).sign(ORIGIN, asked["challenge"], [server.key()], event, finger(device, event))
        return response | {"signatureData": change(SignatureData.from_b64(response["signatureData"])).b64}

    return server.judge("authenticate", respond)


def is_known(device, server):
    """Does fido2 see, before it enrols, that the server has a key of this panel?"""
    event, asked = Event(), {"version": "U2F_V2", "challenge": "AAAA"}
    try:
        U2fClient(device, ORIGIN).register(ORIGIN, [asked], [server.key()], event, lambda _: event.set())
    except ClientError as error:
        return error.code == ClientError.ERR.DEVICE_INELIGIBLE
    return False
