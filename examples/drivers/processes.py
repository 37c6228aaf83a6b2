"""The commands of a driver, each below a keeper, and what such a command runs in its turn."""

import os
import signal
import subprocess
import sys
import threading

from system import Failed, ending

KEEPER = os.path.join(os.path.dirname(os.path.abspath(__file__)), "keeper.py")
keepers, keepers_lock = set(), threading.Lock()


def kept(words, timeout=None, lost="stay", given="null"):
    """The words of a command below a keeper."""
    return [KEEPER, f"{timeout or 0:g}", lost, given, *words]


def run_command(words, log=None, lock=None, **more):
    """Runs a command to its end, its output at the end of the file `log` or on standard error, and raises Failed unless
    its status is 0. Its keeper has a session of its own, so that a ^C ends no dpkg in the middle of its work, and ends all
    that the command has begun: `more` is for `kept`. The lock is free once nothing of that is left."""
    with open(log, "ab") if log else os.fdopen(os.dup(2), "wb") as out:
        begin = out.tell() if log else 0
        keeper = subprocess.Popen(
            [sys.executable, "-I", "-S", *kept(words, **more)], stdin=subprocess.PIPE, stdout=out, stderr=out,
            start_new_session=True, pass_fds=[] if lock is None else [lock])
        with keepers_lock:
            keepers.add(keeper)
        if ending.is_set():  # it has begun beside the signal
            keeper.send_signal(signal.SIGTERM)
        try:
            status = keeper.wait()
        finally:
            keeper.stdin.close()
            with keepers_lock:
                keepers.discard(keeper)
    if status != 0:
        how = f"status {status}" if status > 0 else f"its keeper was ended by signal {-status}"
        raise Failed(f"{words[0]}: {how}{last_words(log, begin)}")


def last_words(log, begin):
    """What a command wrote last, for a message."""
    if log is None:
        return ""
    with open(log, "rb") as file:
        file.seek(0, os.SEEK_END)
        file.seek(max(begin, file.tell() - 400))
        text = " ".join(file.read().decode("utf-8", "replace").split())
    return f", see {log}: {text}" if text else f", see {log}"


def end_commands():
    """Tells each keeper to end what it keeps; their commands are waited for as ever."""
    ending.set()
    with keepers_lock:
        running = list(keepers)
    for keeper in running:
        keeper.send_signal(signal.SIGTERM)


def run_inner(words, **more):
    """What a command runs: in its session and with its lock, so that whoever ends the one ends the other."""
    try:
        status = subprocess.run(words, stdin=subprocess.DEVNULL, close_fds=False, **more).returncode
    except (OSError, ValueError) as why:
        raise Failed(f"{words[0]}: {why}") from None
    if status != 0:
        raise Failed(f"{words[0]}: " + (f"status {status}" if status > 0 else f"ended by signal {-status}"))


def output_of(words, **more):
    """What a command writes on standard output, as text."""
    done = subprocess.run(
        words, stdin=subprocess.DEVNULL, capture_output=True, encoding="utf-8", errors="surrogateescape", **more)
    if done.returncode != 0:
        raise Failed(f"{words[0]}: status {done.returncode}: {done.stderr.strip()[-400:]}")
    return done.stdout
