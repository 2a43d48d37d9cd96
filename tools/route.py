#!/usr/bin/env python3
"""Routes a channel: ./route 'TOP ROW' 'BOTTOM ROW' writes its drawing as text, column by column.

A row is a number for each column, 0 (or `.`) for no pin. The program `knee` draws; where it is not proved and built, that
comes first. Calls at the same time wait for each other, so that one alone builds.

Status: 0 drawn; 1 refused, with the line that says so (as `refused 7`) on standard output; 2 not two rows, or no channel;
3 the output could not be written; 4 the program was not proved, or failed.
"""

import fcntl
import os
import pathlib
import signal
import subprocess
import sys
import threading

import channel

ROOT = pathlib.Path(__file__).resolve().parent.parent
CRATE = ROOT / "crates" / "knee"
PROGRAM = CRATE / "out" / "knee"
TARGET = ROOT / "target"
LOG = TARGET / "route.log"
USAGE = "usage: ./route 'TOP ROW' 'BOTTOM ROW', as ./route '1 2' '2 1'"
PROVES = f"route: the program is proved and built first, some minutes; the log is {LOG}"
PATIENCE = 3  # seconds after which a call on a program that stands says so too

REFUSED, NO_CHANNEL, LOST, FAILED = 1, 2, 3, 4


class Stop(Exception):
    """Ends the call with a status and a message."""

    def __init__(self, status, message):
        super().__init__(message)
        self.status = status


def say(message):
    if sys.stderr is not None:
        print(message, file=sys.stderr, flush=True)


def record_of(words):
    """The record of the two rows that the arguments are."""
    if len(words) != 2:
        raise Stop(NO_CHANNEL, USAGE)
    try:
        rows = (channel.row_of_words(name, text.split()) for name, text in zip(("top", "bottom"), words))
        return channel.record_of_rows(*rows)
    except ValueError as error:
        raise Stop(NO_CHANNEL, f"route: {error}")


def prove(lock):
    """Has the program proved and built; `rt` skips what is, and runs the program, here on no input."""
    with open(LOG, "wb") as log:
        # `rt` keeps the lock too, so that it lasts while anything builds, also where this call is ended before.
        given = {"cwd": CRATE, "stdin": subprocess.DEVNULL, "stdout": log, "stderr": log, "pass_fds": [lock.fileno()]}
        try:
            status = subprocess.run(["rt", "run"], **given).returncode
        except OSError as error:
            raise Stop(FAILED, f"route: rt, the command of the Rattle toolchain: {error.strerror}")
    if status:
        last = LOG.read_text(errors="replace").splitlines()[-20:]
        raise Stop(FAILED, "\n".join([*last, f"route: the program is not proved, or fails; the log is {LOG}"]))


def listing_of(record):
    """What the program writes for a record."""
    TARGET.mkdir(exist_ok=True)
    late = threading.Timer(PATIENCE, say, [PROVES])
    if PROGRAM.exists():
        late.start()
    else:
        say(PROVES)
    try:
        with open(TARGET / "route.lock", "w") as lock:
            fcntl.flock(lock, fcntl.LOCK_EX)
            prove(lock)
            run = subprocess.run([PROGRAM], cwd=ROOT, input=record, stdout=subprocess.PIPE)
    finally:
        late.cancel()
    if run.returncode or not run.stdout.endswith(b"\n"):
        raise Stop(FAILED, f"route: the program failed with status {run.returncode}")
    return run.stdout


def write_out(text):
    try:
        while text:
            text = text[os.write(1, text) :]
        os.close(1)
    except OSError as error:
        raise Stop(LOST, f"route: the output is lost: {error.strerror}")


def route(words):
    """The status of a call with these arguments."""
    record = record_of(words)
    if sys.stdout is None:
        raise Stop(LOST, "route: the output is lost: standard output is closed")
    text = listing_of(record)
    write_out(text)
    return REFUSED if text.startswith(b"refused ") else 0


def main():
    signal.signal(signal.SIGINT, signal.SIG_DFL)
    # A standard stream that is closed leaves its number to the next file that is opened: fill these first.
    while (spare := os.open(os.devnull, os.O_RDWR)) < 3:
        pass
    os.close(spare)
    try:
        return route(sys.argv[1:])
    except Stop as stop:
        say(stop)
        return stop.status
    except OSError as error:
        say(f"route: {error}")
        return FAILED


if __name__ == "__main__":
    sys.exit(main())
