"""What the trials share: the program that is tried, a driver with no system behind it, journals, and what roots hold."""

import os
import shlex
import signal
import subprocess
import sys
import tempfile
import threading
import time
from pathlib import Path

sys.dont_write_bytecode = True
os.environ["PYTHONDONTWRITEBYTECODE"] = "1"
HERE = Path(__file__).resolve().parent
ROOT = HERE.parent.parent
DRIVERS = ROOT / "examples/drivers"
TOOLCHAIN = ROOT / "examples/toolchain"
TEXTS = ("packages", "sources", "farm", "plan")
sys.path.insert(0, str(DRIVERS))


def begin(about, most=0):
    """The program that is tried, as words, and up to `most` further words of the command line."""
    words = sys.argv[1:]
    if not words or words[0].startswith("-") or len(words) > 1 + most:
        sys.exit(about)
    program = [os.path.abspath(word) if os.path.exists(word) else word for word in shlex.split(words[0])]
    return program, words[1:]


def folder():
    return tempfile.TemporaryDirectory(prefix="portfarm-trial.", dir=os.path.realpath(tempfile.gettempdir()))


def texts(plan):
    return [os.path.join(plan, name) for name in TEXTS]


def need(holds, what):
    """The trial ends here unless this holds."""
    if not holds:
        sys.exit(f"FAILED: {what}")


def journal_lines(path):
    """The whole lines behind the journal's head, as words."""
    if not os.path.exists(path):
        return []
    text = Path(path).read_bytes()
    return [line.split(b" ") for line in text[: text.rfind(b"\n") + 1].split(b"\n")[6:-1]]


def journal_done(path):
    return {(words[1], int(words[2])) for words in journal_lines(path) if words[0] == b"done"}


class World:
    """A driver that has no system: what it was asked over all lives, and whether it was asked rightly."""

    def __init__(self):
        self.asked = {}  # what was asked of each thing
        self.again = 0
        self.wrong = []
        self.lock = threading.Lock()

    def ask(self, words, journalled):
        thing, rest = (words[1], int(words[2])), words[3:]
        self.again += words[0] == b"again"
        if thing in journalled:
            self.wrong.append(f"asked when it was done: {words}")
        if words[0] == b"start" and thing in self.asked:
            self.wrong.append(f"asked before, and not told as again: {words}")
        if self.asked.setdefault(thing, rest) != rest:
            self.wrong.append(f"asked otherwise: {words}, before {self.asked[thing]}")
        return thing

    def live(self, program, plan, journal, pause=None, kill_after=None):
        """One life of the program: its status, its answer, its standard error. `pause()` is how long a thing takes."""
        child = subprocess.Popen(
            [*program, "drive", "--journal", journal, *texts(plan)], stdin=subprocess.PIPE, stdout=subprocess.PIPE,
            stderr=subprocess.PIPE)
        journalled = journal_done(journal)
        timer = threading.Timer(kill_after or 0, child.kill)
        if kill_after is not None:
            timer.start()
        answer = []
        for line in child.stdout:
            words = line.rstrip(b"\n").split(b" ")
            if words[0] in (b"start", b"again") and line.endswith(b"\n"):
                with self.lock:
                    thing = self.ask(words, journalled)
                if pause:
                    threading.Thread(target=self.answer, args=(child, thing, pause())).start()
                else:
                    self.answer(child, thing)
            elif words[0] != b"drive":
                answer.append(line)
        errors = child.stderr.read()
        status = child.wait()
        timer.cancel()
        return status, b"".join(answer), errors

    def answer(self, child, thing, pause=0.0):
        time.sleep(pause)
        with self.lock:
            try:
                child.stdin.write(b"done %s %d\n" % thing)
                child.stdin.flush()
            except (OSError, ValueError):
                pass  # it was killed


# ---- processes that are to be killed ----

def parents():
    """The parent of each process."""
    found = {}
    for name in os.listdir("/proc"):
        try:
            with open(f"/proc/{int(name)}/stat") as file:
                found[int(name)] = int(file.read().rsplit(")", 1)[1].split()[1])
        except (ValueError, OSError):
            pass
    return found


def below(pid):
    """All processes that `pid` has begun, and those that they have."""
    found, more, known = [], [pid], parents()
    while more:
        one = more.pop()
        children = [child for child, parent in known.items() if parent == one]
        found += children
        more += children
    return found


def is_portfarm(pid):
    try:
        with open(f"/proc/{pid}/cmdline", "rb") as file:
            words = file.read().split(b"\0")
    except OSError:
        return False
    return b"drive" in words and b"--journal" in words


def kill(pids):
    for pid in pids:
        try:
            os.kill(pid, signal.SIGKILL)
        except ProcessLookupError:
            pass


# ---- the rehearsal by the real dpkg ----

def rehearsal(program, plan, state, journal, *more):
    """The command of a rehearsal that keeps in STATE/carried-out what it has carried out."""
    return [
        sys.executable, str(HERE / "logged_driver.py"), "--portfarm", shlex.join(program), "--state", state, "--journal",
        journal, *more, str(plan)]


def carried_out(state):
    """Lane, number, kind and `again` of all that was carried out, in order."""
    path = Path(state) / "carried-out"
    return [line.split() for line in path.read_text().splitlines()] if path.exists() else []


def held_by_answer(answer):
    """What each lane's chroot holds at the end, by portfarm's answer."""
    held = {}
    for line in answer.splitlines():
        words = line.split()
        if words[0] == "lane":
            lane = held.setdefault(words[1], set())
        elif line.startswith("  "):
            lane.add(tuple(words))
    return held


def run_folder(state):
    """The folder of the last run of a state."""
    from state import State

    state = State(str(state))
    return Path(state.path(state.runs()[-1]))


def held_by_root(state, lane, architectures):
    from control import Sides
    from dpkg_root import Root
    from system import file_name

    states = Root(str(run_folder(state) / "lanes" / file_name(lane) / "whole"), None, sides=Sides(architectures)).states()
    words = {"installed": "configured"}
    return {(name, version, words.get(word, word)) for name, (version, word) in states.items()}


def is_idle(state, lane, answer):
    """Whether a lane has no instruction, and was not asked for a chroot either: the program asks for one, the model does not."""
    return f"\nlane {lane} at 0 " in answer and not (run_folder(state) / "lanes" / lane).exists()


def need_roots_as_told(state, answer, architectures=""):
    """Every root holds what portfarm says that the lane's chroot holds."""
    held = {lane: held for lane, held in held_by_answer(answer).items() if not is_idle(state, lane, answer)}
    for lane, wanted in held.items():
        difference = held_by_root(state, lane, architectures) ^ wanted
        need(not difference, f"the root of lane {lane} differs: {sorted(difference)[:5]}")
    return len(held)
