#!/usr/bin/env python3
"""Runs a command, and ends with it all that it has begun, also what has gone into a session of its own.

    keeper.py SECONDS stay|end null|open COMMAND..

SECONDS are those that it may take, 0 any number. It is ended by SIGTERM and SIGINT, when they are over, and, with `end`, once the
standard input is closed: who has begun it is lost. To end is SIGTERM, and half a minute later SIGKILL: sbuild takes its chroot
away meanwhile. What the command leaves behind is ended likewise.

The command's own standard input is empty, or with `open` one that has nothing and ends with it, by which ssh shows to a keeper on
another machine that this one is there. The status is that of the command; 128 + N where signal N has ended it, 124 where it was
ended here, 127 where it could not begin.
"""

import ctypes
import os
import select
import signal
import subprocess
import sys
import time

PR_SET_CHILD_SUBREAPER = 36
GRACE = 30.0  # seconds from SIGTERM to SIGKILL


def below():
    """The processes that this one has begun, those that they have, and so on: orphans come to it."""
    children, found, more = {}, set(), [os.getpid()]
    for name in filter(str.isdigit, os.listdir("/proc")):
        try:
            with open(f"/proc/{name}/stat", "rb") as file:
                state, parent = file.read().rsplit(b")", 1)[1].split()[:2]
        except OSError:
            continue
        if state not in (b"Z", b"X"):
            children.setdefault(int(parent), []).append(int(name))
    while more:
        new = children.get(more.pop(), [])
        found.update(new)
        more += new
    return found


def reap(pid):
    """The status of `pid`, if it is among those that have ended."""
    found = None
    while True:
        try:
            one, status = os.waitpid(-1, os.WNOHANG)
        except ChildProcessError:
            return found
        if one == 0:
            return found
        if one == pid:
            found = os.waitstatus_to_exitcode(status)


def send(pids, number):
    for pid in pids:
        try:
            os.kill(pid, number)
        except OSError:
            pass  # it is gone, or another user's: then it is waited for


def end_all():
    """Ends what is below, and comes back once nothing is."""
    left = below()
    send(left, signal.SIGTERM)  # once: what cleans up behind it may begin more
    until, pause = time.monotonic() + GRACE, 0.01
    while left:
        time.sleep(pause)
        pause = min(2 * pause, 0.2)
        reap(0)
        left = below()
        if time.monotonic() > until:
            send(left, signal.SIGKILL)


def wait(pid, seconds, watched, asked):
    """The status of `pid`, or why it has to be ended."""
    until = time.monotonic() + seconds if seconds else None
    while True:
        status = reap(pid)
        if status is not None:
            return status, ""
        if asked:
            return 124, "ended by a signal"
        left = None if until is None else until - time.monotonic()
        if left is not None and left <= 0:
            return 124, f"over {seconds:g} seconds: ended, with all that it has begun"
        ready, _, _ = select.select(watched, [], [], left)
        if watched[0] in ready:
            os.read(watched[0], 4096)
        if 0 in ready and os.read(0, 4096) == b"":
            return 124, "who has begun it is lost: ended, with all that it has begun"


def main(seconds, lost, given, *command):
    ctypes.CDLL(None).prctl(PR_SET_CHILD_SUBREAPER, 1, 0, 0, 0)
    woken, wake = os.pipe()
    os.set_blocking(wake, False)
    signal.set_wakeup_fd(wake, warn_on_full_buffer=False)
    asked = []
    signal.signal(signal.SIGCHLD, lambda *_: None)
    for number in (signal.SIGTERM, signal.SIGINT):
        signal.signal(number, lambda *_: asked.append(True))
    try:  # a lock that was handed down is handed further; all else that is open here is not inherited
        child = subprocess.Popen(
            command, stdin=subprocess.PIPE if given == "open" else subprocess.DEVNULL, close_fds=False)
    except (OSError, ValueError) as why:
        print(f"{command[0]}: {why}", file=sys.stderr)
        return 127
    status, why = wait(child.pid, float(seconds), [woken, 0] if lost == "end" else [woken], asked)
    end_all()
    child.returncode = 0  # it was waited for above
    if why:
        print(f"{command[0]}: {why}", file=sys.stderr)
    return 128 - status if status < 0 else status


if __name__ == "__main__":
    if len(sys.argv) < 5 or sys.argv[2] not in ("stay", "end") or sys.argv[3] not in ("null", "open"):
        sys.exit(__doc__)
    sys.exit(main(*sys.argv[1:]))
