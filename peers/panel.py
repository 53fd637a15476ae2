"""The panel on its pipe; firmware/panel.c says what is spoken there. Python's standard library alone."""

import os
import subprocess
from pathlib import Path

ROOT = Path(__file__).resolve().parent.parent
PANEL = os.environ.get("PANEL") or str(ROOT / "firmware" / "run")

# the two sides that share the panel's pad: a transport names its own at every frame
USB = 0
WIRELESS = 1

ROOM = 1024  # of the panel's reply buffers at first


class Refusal(Exception):
    """R1 to R8: the core decided nothing and changed nothing. It is for the firmware; a host never sees it."""


class Trouble(Exception):
    """There is no panel, or none that does what a panel does: a sentence for the person who started this."""


class Panel:
    def __init__(self):
        try:
            self.process = subprocess.Popen([PANEL], stdin=subprocess.PIPE, stdout=subprocess.PIPE, encoding="ascii", errors="replace")
        except OSError as error:
            raise Trouble(f"the panel {PANEL} cannot be started: {error.strerror}") from None

    def as_firmware(self, window):
        """With a fresh record, and by the wrapper that a firmware uses: each side has a body of its own, and room for a whole one."""
        self.call("wrapper", 1)
        self.call("outroom", ROOM + 2)
        self.call("new", window)

    def __enter__(self):
        return self

    def __exit__(self, kind, *_):
        if kind is None:
            self.close()
        else:  # that is to be told, and not how the panel ends
            self.process.kill()
            self.process.wait()

    def close(self):
        try:
            self.process.stdin.close()
        except BrokenPipeError:
            pass  # it has ended, and how is what counts
        if self.process.wait() != 0:
            raise Trouble("the panel ended in a failure")

    def call(self, *words):
        """One call, as words; its answer, as words."""
        try:
            self.process.stdin.write(" ".join(map(written, words)) + "\n")
            self.process.stdin.flush()
        except BrokenPipeError:
            raise Trouble(f"the panel ended before this {words[0]}") from None
        answer = self.process.stdout.readline().split()
        if not answer:
            raise Trouble(f"the panel ended with no answer to this {words[0]}")
        if answer[0] == "?":
            raise Trouble(f"the panel does not take this {words[0]}: {' '.join(answer)}")
        if answer[0].startswith("R"):
            raise Refusal(answer[0])
        return answer


def written(word):
    if isinstance(word, bytes):
        return word.hex() or "-"
    return str(int(word)) if isinstance(word, (bool, int)) else word


def given(word):
    """The bytes of a word in an answer."""
    return b"" if word == "-" else bytes.fromhex(word)
