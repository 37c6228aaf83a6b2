"""What the drivers share: portfarm as a child process, its lines as requests, a worker for each lane, the answers.

A driver hands to `drive` a `Worker`. Its `work(request)` returns once the thing is done for good, on the disk and not only in
memory; it raises `Failed` where it cannot be done. What is asked `again` was asked before a crash: it may be begun, half done
or done, and `work` finds out which.
"""

import argparse
import os
import queue
import shlex
import signal
import subprocess
import sys
import threading
import time

from control import Farm
from processes import end_commands
from system import Failed, file_name, tell

TEXTS = ("packages", "sources", "farm", "plan")
QUIET = 5.0  # seconds with nothing in progress, after which --keep-going answers its failures
MESSAGE = 60.0  # seconds that the command of --notify may take


class Request:
    """`start LANE NUMBER CHROOT KIND WORD..`, or `again ..`: the same, of what was asked before this run was resumed."""

    def __init__(self, line, run):
        first, self.lane, number, self.chroot, self.kind, *self.words = line.split(" ")
        self.again = first == "again"
        self.number = int(number)
        self.run = run
        self.job = f"{run}:{file_name(self.lane)}:{number}"  # one name for one thing, over all resumes
        words, variants = self.words, self.words
        if self.kind == "build":
            # a word `,` divides profiles from outputs, and no word of a text is one; older programs end with the profiles
            words, variants = divide(words)
            self.names_outputs = "," in self.words
            self.recipe, self.source, self.version, self.mode, self.steps, self.scratch, *self.profiles = words
        elif self.kind == "publish":
            self.recipe, *variants = words
        self.variants = list(zip(variants[0::2], variants[1::2]))

    def __str__(self):
        more = " .." if len(self.words) > 4 else ""
        return " ".join([self.lane, str(self.number), self.kind, *self.words[:4]]) + more


def runs_of(line):
    """The run of `drive 1 RUN` or `drive 1 RUN after RUN0`, and RUN0 or None."""
    _, _, run, *behind = line.split(" ")
    return run, behind[1] if behind[:1] == ["after"] else None


def divide(words):
    """The words before the first `,`, and those behind it."""
    at = words.index(",") if "," in words else len(words)
    return words[:at], words[at + 1:]


class Worker:
    """What carries requests out."""

    def begin(self, run, after=None):
        """Called once, before the first request, with the names of the run and of the one behind which it goes on, if it
        does. `Failed` ends the run."""

    def work(self, request):
        """Does it."""

    def forget(self, recipe):
        """Puts away what a build of the recipe gave, so that `work` builds it once more: where it is then, or None."""

    def end(self, status):
        """Called once portfarm has ended, with its status."""


class Driver:
    """One life of portfarm. `options` are those of `parser`."""

    def __init__(self, options, worker):
        self.options, self.worker = options, worker
        self.lock = threading.RLock()  # of the numbers below; nothing that may block is done under it
        self.stopping = threading.Event()
        self.lanes = {}  # lane -> the queue of its requests, its worker
        self.answers = queue.SimpleQueue()
        self.busy = self.changes = 0  # things in progress; how often that has changed
        self.held = []  # failures that are not answered yet
        self.once_more = set(options.again)
        self.counts = {"asked": 0, "again": 0, "done": 0, "failed": 0, "tried again": 0, "most at once": 0}

    def run(self):
        """Drives portfarm to its end: its status, and the lines of its answer."""
        # in a session of its own, so that ^C reaches the driver alone
        try:
            self.child = subprocess.Popen(
                command_of(self.options), stdin=subprocess.PIPE, stdout=subprocess.PIPE, start_new_session=True)
        except OSError as why:
            sys.exit(f"cannot start {self.options.portfarm}: {why}")
        threading.Thread(target=self.write_in_turn, daemon=True).start()
        for number in (signal.SIGINT, signal.SIGTERM):
            signal.signal(number, self.stop)
        answer = self.read()
        status = self.child.wait()
        self.stopping.set()  # nobody waits for another try
        # what is begun ends before the driver does, and is not at work when it is asked again
        for requests, worker in self.lanes.values():
            requests.put(None)
        for requests, worker in self.lanes.values():
            worker.join()
        return status, answer

    def read(self):
        """Hands out requests until portfarm has no more: the lines of its answer."""
        run, answer, refused = None, [], False
        for line in self.child.stdout:
            if not line.endswith(b"\n"):
                break  # portfarm died within a line
            text = line[:-1].decode("utf-8", "surrogateescape")
            first = text.split(" ", 1)[0]
            if answer or first not in ("drive", "start", "again"):
                answer.append(line)
            elif first == "drive":
                run, after = runs_of(text)
                try:
                    self.worker.begin(run, after)
                except Failed as why:
                    tell(f"refused: {why}")
                    refused = True
                    self.answers.put(None)
            elif not refused:
                self.hand_out(Request(text, run))
        return answer

    def hand_out(self, request):
        """Gives a request to its lane's worker."""
        with self.lock:
            self.busy += 1
            self.changes += 1
            self.counts["asked"] += 1
            self.counts["again"] += request.again
            self.counts["most at once"] = max(self.busy, self.counts["most at once"])
        if request.lane not in self.lanes:
            requests = queue.SimpleQueue()
            worker = threading.Thread(target=self.work_in_turn, args=(requests,))
            self.lanes[request.lane] = requests, worker
            worker.start()
        self.lanes[request.lane][0].put(request)

    def work_in_turn(self, requests):
        """A lane's worker: one request after the other."""
        while (request := requests.get()) is not None:
            self.end(request, self.is_done(request))

    def is_done(self, request):
        """Does it, trying as often as the options say, with pauses that double."""
        pause = self.options.pause
        for attempt in range(1, self.options.tries + 1):
            began = time.monotonic()
            self.tell_unless_quiet(f"begun: {request}" + " (again)" * request.again)
            try:
                self.do(request)
                self.tell_unless_quiet(f"done: {request}: {time.monotonic() - began:.0f} s")
                return True
            except Failed as why:
                last = f"failed ({attempt} of {self.options.tries}): {request}: {why}"
                tell(last)
            except Exception as why:  # a fault of the driver's own: nobody knows what was done
                last = f"failed: {request}: {type(why).__name__}: {why}"
                tell(last)
                break
            if attempt == self.options.tries or self.stopping.wait(pause):
                break
            pause *= 2
            request.again = True
            with self.lock:
                self.counts["tried again"] += 1
        self.notify(last)
        return False

    def do(self, request):
        """Does it; where --again names its recipe the build is made once more, by its own request or ahead of the publish."""
        recipe = request.recipe if request.kind in ("build", "publish") else None
        if recipe not in self.once_more:
            self.worker.work(request)
            return
        if old := self.worker.forget(recipe):
            tell(f"--again {recipe}: what was built before is now {old}")
        if request.kind == "publish":
            words = Farm(self.options.dir).build_words(recipe)
            build = Request(" ".join(["start", request.lane, str(request.number), request.chroot, *words]), request.run)
            build.job += ":build"
            self.tell_unless_quiet(f"begun: {build} (--again)")
            self.worker.work(build)
            self.once_more.discard(recipe)
        self.worker.work(request)
        self.once_more.discard(recipe)

    def end(self, request, done):
        """Answers. With --keep-going a failure waits until the other lanes have got as far as they can."""
        with self.lock:
            self.busy -= 1
            self.changes += 1
            self.counts["done" if done else "failed"] += 1
            if done or not self.options.keep_going:
                self.answers.put(f"{'done' if done else 'failed'} {request.lane} {request.number}")
            else:
                self.held.append(request)
            if self.held and self.busy == 0:
                timer = threading.Timer(QUIET, self.answer_held, [self.changes])
                timer.daemon = True
                timer.start()

    def answer_held(self, changes):
        """Nothing has begun or ended since: portfarm has nothing more to ask."""
        with self.lock:
            if self.changes == changes:
                for request in self.held:
                    self.answers.put(f"failed {request.lane} {request.number}")
                self.held = []

    def write_in_turn(self):
        """Writes the answers. It blocks where portfarm does not read, and nobody waits for it."""
        try:
            while (line := self.answers.get()) is not None:
                self.child.stdin.write(line.encode("utf-8", "surrogateescape") + b"\n")
                self.child.stdin.flush()
            self.child.stdin.close()
        except (OSError, ValueError):
            pass  # portfarm is gone: it will ask again

    def tell_unless_quiet(self, line):
        if not self.options.quiet:
            tell(line)

    def notify(self, line):
        """Runs the command of --notify, with the line as its last word and on its standard input."""
        if not self.options.notify:
            return
        try:
            subprocess.run(
                [*shlex.split(self.options.notify), line], input=line.encode("utf-8", "surrogateescape") + b"\n",
                stdout=subprocess.DEVNULL, timeout=MESSAGE, start_new_session=True)
        except (OSError, ValueError, subprocess.TimeoutExpired) as why:
            tell(f"--notify: {why}")

    def stop(self, *_):
        """The first signal lets what is begun come to its end; the second ends it."""
        if not self.stopping.is_set():
            self.stopping.set()
            tell("nothing more is begun; once more ends what is")
            self.answers.put("stop")
            return
        tell("what is begun is ended")
        self.answers.put(None)
        end_commands()


def parser(about, *words):
    """The options that every driver takes, and the words `words` ahead of the folder; a driver adds options of its own."""
    found = argparse.ArgumentParser(description=about, formatter_class=argparse.RawDescriptionHelpFormatter)
    found.add_argument("--portfarm", default=os.environ.get("PORTFARM", "portfarm"), help="the program, with its words")
    found.add_argument("--journal", help="what is done is kept here; the same words again go on after a crash")
    found.add_argument("--after", metavar="FOLDER",
                       help="is handed to `portfarm drive`: this run goes on behind the one of that folder")
    found.add_argument("--tries", type=int, default=1, help="how often a failing thing is tried in all")
    found.add_argument("--pause", type=float, default=10.0, help="seconds before the next try, doubled each time")
    found.add_argument("--keep-going", action="store_true", help="a failure is told once the other lanes can do no more")
    found.add_argument("--again", metavar="RECIPE", action="append", default=[],
                       help="build it once more ahead of its publish, though its build is done")
    found.add_argument("--quiet", action="store_true", help="what begins and is done is not told; what fails is")
    found.add_argument("--notify", metavar="COMMAND", help="is run at each failure and at the end, with a line as its last word")
    for word in words:
        found.add_argument(word)
    found.add_argument("dir", help="the folder of packages, sources, farm and plan")
    return found


def command_of(options):
    given = [(name, value) for name, value in (("--after", options.after), ("--journal", options.journal)) if value]
    texts = [os.path.join(options.dir, name) for name in TEXTS]
    return [*shlex.split(options.portfarm), "drive", *(word for pair in given for word in pair), *texts]


def drive(options, worker):
    """Drives to the end, prints portfarm's answer, and returns its status."""
    strange = [name for name in options.again if name not in Farm(options.dir).recipes]
    if strange:
        sys.exit(f"--again: no recipe {', '.join(strange)}")
    driver = Driver(options, worker)
    status, answer = driver.run()
    sys.stdout.buffer.write(b"".join(answer))
    sys.stdout.flush()
    try:
        worker.end(status)
    except Failed as why:
        tell(f"at the end: {why}")
    for recipe in sorted(driver.once_more):
        tell(f"--again {recipe}: nothing was built: its build and its publish were not asked for in this life")
    last = ", ".join(f"{name} {number}" for name, number in driver.counts.items()) + f", status {status}"
    tell(last)
    driver.notify(last)
    return status
