"""Builds the panel, and says how far its core is proved meanwhile. Python's standard library alone."""

import os
import re
import signal
import subprocess
import sys
import time

from panel import ROOT, Trouble

LOG = ROOT / "target" / "firmware" / "panel.log"  # where firmware/build keeps what the prover says
# which crate is being proved, and that it is. What an earlier run built is not named
PROVED = re.compile(r"^rt: chose --jobs \d+ for (\w+)$|^logic=proved functions=(\d+) ", re.MULTILINE)
QUIET = 20  # seconds after which it says that it is still there


class Unwritten(BaseException):
    """Standard output takes no more: nothing that is told has a reader, so no `except Exception` is to stop this."""


def tell(text):
    try:
        print(text, flush=True)
    except OSError as error:
        raise Unwritten(error) from None


def to_prove(crate):
    """The crate and all that it leans on, as crates.txt has them."""
    leans = {}
    for line in (ROOT / "crates.txt").read_text().splitlines():
        name, colon, others = line.split("#")[0].partition(":")
        if colon:
            leans[name.split()[0]] = others.split()
    found, waiting = set(), [crate]
    while waiting:
        name = waiting.pop()
        if name not in found and name in leans:
            found.add(name)
            waiting += leans[name]
    return found


class Progress:
    """What the prover has done, told crate by crate. There is no log where nothing is to be proved."""

    def __init__(self):
        LOG.unlink(missing_ok=True)
        self.crates, self.told = to_prove("panel"), set()
        self.begun = self.last = time.monotonic()

    def look(self):
        if not LOG.exists():
            return
        crate = None
        for begun, functions in PROVED.findall(LOG.read_text(errors="replace")):
            crate = begun or crate
            if functions and crate and crate not in self.told:
                self.told.add(crate)
                self.last = time.monotonic()
                tell(f"  {len(self.told):>2} of {len(self.crates | self.told)}  {crate} proved ({functions} functions)")
        if time.monotonic() - self.last > QUIET:
            self.last = time.monotonic()
            tell(f"  {self.last - self.begun:.0f} s, still at it")


def build():
    """Runs firmware/build, which says that it proves, and why it fails. Ends the program where it does."""
    progress = Progress()
    # a group of its own, so that all of it can be ended when this program is
    builder = subprocess.Popen([ROOT / "firmware" / "build"], start_new_session=True)
    try:
        while builder.poll() is None:
            time.sleep(0.2)
            progress.look()
        progress.look()
    finally:
        if builder.poll() is None:
            os.killpg(builder.pid, signal.SIGTERM)
            builder.wait()
    if builder.returncode != 0:
        sys.exit(1)


def quietly(name, work):
    """Does the work and ends with its exit status. Ctrl-C and a closed pipe end it too, and nothing more is said; of trouble, and of an
    output that cannot be written, one sentence."""

    def end(number, _):
        sys.exit(128 + number)

    signal.signal(signal.SIGTERM, end)
    signal.signal(signal.SIGHUP, end)
    try:
        if sys.stdout is None:
            raise Trouble("standard output is closed")
        status = work()
    except KeyboardInterrupt:
        status = 128 + signal.SIGINT
    except Trouble as trouble:
        status = f"{name}: {trouble}"
    except Unwritten as unwritten:
        # what is left to be written has nowhere to go
        os.dup2(os.open(os.devnull, os.O_WRONLY), sys.stdout.fileno())
        why = unwritten.args[0]
        closed = isinstance(why, BrokenPipeError)
        status = 128 + signal.SIGPIPE if closed else f"{name}: standard output cannot be written: {why.strerror}"
    sys.exit(status)


if __name__ == "__main__":
    quietly("peers/run", build)
