"""Chains of drives, played in memory: a drive by its answers, with its journal, and drives that go on from other runs.

A lane goes on until it has asked the driver, waits, or has ended; when none can go on, the next answer is read (FORMATS,
section 21). `drive --after FOLDER` holds its farm against the leg in that folder first, and its plan has to be accepted. Then
it begins its own journal, and the other one gets its last line, `end RUN`: before that line only the old run can ask for
anything, after it only the new one. A build may be answered by `gave LANE NUMBER NAME VERSION ..`: if these are the variants
that are declared, it is done, else the run stops (504).
"""

from core import pick, state_lines
from drives import request, variant_words
from journals import Journal, Life, Misfit, head_lines, is_fresh
from leg_words import Outside
from legs import Leg, misfit
from plans import read_plan
from rest_items import Items, Refused, Text, names_in
from texts import FILES
from universe import read_universe
from verdict import judge
from versions import Version


def head_of(texts, stamp):
    return "".join(f"{line}\n" for line in (*head_lines(texts), f"run {stamp:016x}"))


def is_begun(texts, files, path):
    return path in files and not is_fresh(texts, files[path])


def followed(texts, text):
    """The life that a journal stands for."""
    universe = read_universe(texts)
    try:
        return Life(universe, read_plan(universe, texts["plan"])).follow(Journal(texts, text))
    except Misfit as fault:
        raise Outside(f"journal does not fit: {fault}") from None


def judge_plan(texts):
    """Ends where the plan is refused."""
    universe = read_universe(texts)
    written, accepts, _, _ = judge(universe, read_plan(universe, texts["plan"]))
    if not accepts:
        raise Refused(*written)


class Drive:
    """A drive of four texts by the file of its journal; `written` are the lines that no step has taken away, `status` its
    end, if it has come to it."""

    def __init__(self, texts, files, path, stamp, first):
        self.files, self.path, self.told, self.status, self.errors = files, path, {}, None, []
        if not is_begun(texts, files, path):
            files[path] = head_of(texts, stamp)
        self.life = followed(texts, files[path])
        if Journal(texts, files[path]).next_run is not None:
            raise Outside(f"journal does not fit: line {files[path].count(chr(10))}")
        self.written, self.cause = [first(Journal(texts, files[path]).run)], None
        for lane, number in list(self.life.asked.items()):
            if (lane, number) in self.life.failed or (lane, number) in self.life.gave:
                self.note(f"again {lane} {number}")
            self.ask("again", lane, number)
        self.go_on()

    def note(self, line):
        assert self.life.entry(line.split(" ")), line
        self.files[self.path] += f"{line}\n"

    def words(self, lane, number):
        """What is asked for: an open chroot, or an instruction."""
        standing = self.life.lanes[lane]
        if number == 0:
            return ["open", *variant_words(standing.lane.chroot.packages)]
        if lane in self.life.picked:
            return ["unpack", *variant_words([self.life.picked[lane][0]])]
        return request(self.life.farm, standing)

    def ask(self, verb, lane, number):
        chroot = self.life.lanes[lane].lane.chroot.name
        self.written.append(" ".join([verb, lane, str(number), chroot, *self.words(lane, number)]))

    def go_on(self):
        """Each lane goes on as far as it can."""
        for name in self.life.lanes:
            while self.cause is None and name not in self.life.asked and self.step(name, self.life.lanes[name]):
                pass
        is_at_end = all(it.next() is None for it in self.life.farm.lanes)
        open_ones = [it for it in self.life.asked.items() if it not in self.life.failed and it not in self.life.gave]
        if is_at_end and self.status is None:
            self.written += ["finished", *state_lines(self.life.universe, self.life.farm)]
            self.status = 0
        elif self.cause is not None and not open_ones:
            self.errors, self.status = [f"portfarm: {self.cause}"], 3

    def step(self, name, standing):
        """A lane's next step, where it has one that it takes now."""
        it, number = standing.next(), standing.done + 1
        if it is None or name not in self.life.opened:
            is_new = it is not None and name not in self.life.begun
            if is_new:
                self.note(f"ask {name} 0")
                self.ask("start", name, 0)
            return is_new
        if self.life.farm.is_blocked(standing):
            return False
        if it.verb == "wait":
            self.life.farm.turn(standing)
        elif it.verb == "when":
            self.note(f"branch {name} {number} {'first' if pick(self.life.farm.archive, it.wanted) else 'second'}")
        else:
            asked = request(self.life.farm, standing)
            self.note(f"pick {name} {number} {' '.join(asked[1:])}" if it.verb == "unpack" else f"ask {name} {number}")
            self.ask("start", name, number)
        return True

    def answer(self, line):
        """Takes an answer of the driver."""
        verb, lane, number, *more = line.split(" ")
        if verb == "gave":
            declared = Items((it.name, it.version) for it in self.life.instruction(lane, int(number)).recipe.outputs)
            given = Items((name, Version(text)) for name, text in zip(more[::2], more[1::2]))
            verb = "done" if len(given) == len(declared) and all(it in declared for it in given) else "gave"
        self.note(" ".join([verb, lane, number, *(more if verb == "gave" else [])]))
        if verb != "done":
            self.cause = self.cause or f"stopped {504 if verb == 'gave' else 501} lane {lane}"
        self.go_on()


def joined(files, folder, texts, path, stamp):
    """Lets a run of these texts go on from the leg in a folder; gives the name of that run."""
    at = "" if folder == "." else f"{folder}/"
    try:
        before = Leg({name: files[f"{at}{name}"] for name in FILES}, files[f"{at}journal"])
    except Misfit as fault:
        raise Outside(f"journal does not fit: {fault}") from None
    is_new = not is_begun(texts, files, path)
    leg = Leg(texts, head_of(texts, stamp) if is_new else files[path])
    why = misfit(before, leg)
    if why:
        raise Outside(f"farm does not go on from the journal: {why}")
    judge_plan(texts)
    if before.journal.next_run is None and leg.journal.entries:
        raise Outside("journal is of another chain")
    if before.journal.next_run not in (None, leg.journal.run):
        raise Outside(f"journal is ended: {before.journal.next_run} goes on from it")
    if before.journal.next_run is None:
        files[path] = head_of(texts, stamp) if is_new else files[path]
        whole = files[f"{at}journal"].rpartition("\n")[0]
        files[f"{at}journal"] = f"{whole}\nend {leg.journal.run}\n"
    return before.journal.run


def begun(files, words, stamp):
    """The drive that these words begin, or the fault that keeps it from that."""
    options = {}
    while words[0] in ("--after", "--journal"):
        options[words[0]], words = words[1], words[2:]
    texts, path = {name: files[it] for name, it in zip(FILES, words)}, options["--journal"]
    after = names_in(Text(texts["farm"], "farm").head, "After")
    if "--after" not in options:
        judge_plan(texts)
        if after:
            raise Outside(f"this farm goes on from {after[0]}: --after")
        return Drive(texts, files, path, stamp, lambda run: f"drive 1 {run}")
    before = joined(files, options["--after"], texts, path, stamp)
    return Drive(texts, files, path, stamp, lambda run: f"drive 1 {run} after {before}")


def is_like(line, wanted):
    """Whether a line is the wanted one, in which `*` stands for any word."""
    found, words = line.split(" "), wanted.split(" ")
    return len(found) == len(words) and all(word in ("*", it) for it, word in zip(found, words))


class Chain:
    """Lives over one set of files, each of words of its own, and what they come to."""

    def __init__(self, files, others):
        self.files, self.others, self.drive, self.lines, self.lives = files, others, None, [], 0

    def act(self, heading, body):
        """Takes a heading of a case, with the lines below it."""
        verb, *words = heading.split(" ")
        if verb != "beside":
            self.end()
        if verb == "life" and words[0] == "drive":
            self.begin(words[1:])
        elif verb in ("life", "beside"):
            self.command(verb, words)
        elif verb == "copy":
            self.files[words[1]] = self.files[words[0]]
        elif verb == "cut":
            self.change(words[0], body[0] + "\n", "")
        elif verb == "change":
            self.change(words[0], *body)
        for step in body if verb in ("life", "beside") else ():
            self.take(*step.partition(" ")[::2])

    def change(self, name, old, new):
        assert old in self.files[name], (name, old)
        self.files[name] = self.files[name].replace(old, new, 1)

    def begin(self, words):
        self.lives += 1
        try:
            self.drive = begun(self.files, words, self.lives)
        except Outside as fault:
            self.lines += ["status 3", f"! portfarm: {fault}"]
        except Refused as refusal:
            self.lines += ["status 1", *(f"| {line}" for line in refusal.lines)]

    def command(self, verb, words):
        """A command that runs to its end; the journal of a drive that goes on is locked, so no other drive begins by it."""
        if words[0] == "drive":
            told, errors, status = [], ["portfarm: journal is in use"], 3
        else:
            told, errors, status = self.others(words)
        head = "beside" if verb == "beside" else f"status {status}"
        self.lines += [head, *(f"| {line}" for line in told), *(f"! {line}" for line in errors)]

    def take(self, step, rest):
        if step == "send":
            self.drive.answer(rest)
        elif step == "expect":
            found = next((line for line in self.drive.written if is_like(line, rest)), None)
            self.lines += [] if found is not None else [f"not written: {rest}"]
            self.drive.written = [line for line in self.drive.written if line is not found]
        elif step == "quiet":
            self.lines += [f"not expected: {line}" for line in self.drive.written]
        elif step == "kill":
            self.lines.append("killed")
            self.drive = None

    def end(self):
        """What the life that goes on comes to."""
        if self.drive is not None:
            told = (f"| {line}" for line in self.drive.written)
            self.lines += [f"status {self.drive.status}", *told, *(f"! {line}" for line in self.drive.errors)]
        self.drive = None
