"""The words `status`, `after` and `history`: where a run stands, the texts of what is left of it, and the story of a chain.

  status [--json|--bars] --journal FILE PACKAGES SOURCES FARM PLAN
  after [OPTION ..] --journal FILE PACKAGES SOURCES FARM PLAN DIR
  history DIR ..                           each a folder with packages, sources, farm, plan and journal

  --packages P, --sources S, --farm F, --sketch K     the texts of what is left, where they were changed
  --without R      the recipe is given up              --again R                it is built anew
  --built R        it is built, and not published      --withdraw NAME=VERSION  it is no longer in the archive
  --came NAME=VERSION   it came into the archive by hand
  --force          files in DIR that `after` has not made are replaced
"""

import sys
from pathlib import Path

from files import text_of
from journals import Journal, Life, Misfit, is_fresh
from json_answers import json_line, verdict_members
from legs import Leg, history
from plans import read_plan
from rest_farm import HEAD, RestFarm
from rest_items import Refused
from rest_recipes import Wishes
from statuses import Status
from texts import FILES, Fault
from universe import read_universe

CHANGED = ("packages", "sources", "farm", "sketch")
ONE = ("--journal", "--packages", "--sources", "--farm", "--sketch")
MANY = ("--without", "--again", "--built", "--withdraw", "--came")
OPTIONS = {"status": ("--journal", "--json", "--bars"), "after": (*ONE, *MANY, "--force"), "history": ()}


class Outside(Exception):
    """A fault outside of the texts: its line, after `portfarm: `."""


def read_words(command, words):
    """The options in their order, with what they say, and the other words; None where they are wrong."""
    given, rest, words = [], [], list(words)
    while words:
        word = words.pop(0)
        if not word.startswith("--"):
            rest.append(word)
        elif word not in OPTIONS[command] or word not in MANY and word in dict(given) or word in ONE + MANY and not words:
            return None
        else:
            given.append((word, words.pop(0) if word in ONE + MANY else True))
    count = {"status": 4, "after": 5}.get(command)
    is_well = count is None and rest or count == len(rest) and "--journal" in dict(given)
    return (given, rest) if is_well and not {"--json", "--bars"} <= set(dict(given)) else None


def followed(texts, text, may_be_fresh=False):
    """The journal and the life that it stands for; no journal where nothing was asked by then."""
    universe = read_universe(texts)
    plan = read_plan(universe, texts["plan"])
    if may_be_fresh and is_fresh(texts, text):
        return None, Life(universe, plan)
    try:
        journal = Journal(texts, text)
        return journal, Life(universe, plan).follow(journal)
    except Misfit as fault:
        raise Outside(f"journal does not fit: {fault}") from None


def on_status(texts, text, flags):
    """Where a run stands, and the status; the first fault of its texts is told as by `check`."""
    try:
        status = Status(*followed(texts, text, may_be_fresh=True))
    except Fault as fault:
        line = refusal_line(fault)
        return [json_line(verdict_members([line])) if "--json" in flags else line], 1
    if "--json" in flags:
        return [json_line(status.members)], 0
    return list(status.bars() if "--bars" in flags else status.lines()), 0


def wishes_of(given):
    found = {option: [value for word, value in given if word == option] for option in MANY}
    of_recipes = [it for it in given if it[0] in ("--without", "--again", "--built")]
    return Wishes(of_recipes, found["--withdraw"], found["--came"])


def on_after(texts, text, more, given):
    """The farm that goes on; `more` has the changed texts."""
    journal, life = followed(texts, text)
    if journal.next_run is not None:
        raise Outside(f"journal is ended: {journal.next_run} goes on from it")
    return RestFarm(texts, life, journal, more, wishes_of(given))


def on_history(found):
    """The story of legs, each its texts and its journal."""
    try:
        return history([Leg(*it) for it in found])
    except Misfit as fault:
        raise Outside(f"journal does not fit: {fault}") from None


def refusal_line(fault):
    return f"refused {fault.code} {fault.file} line {fault.line}"


def guarded(answer):
    """What a call answers: the lines of both outputs, and the status."""
    try:
        told, status = answer()
        return told, [], status
    except Fault as fault:
        return [refusal_line(fault)], [], 1
    except Refused as refusal:
        return refusal.lines, [], 1
    except Outside as fault:
        return [], [f"portfarm: {fault}"], 3


def answer(command, words, read, write):
    """What the words come to. `read` gives the text of a file; `write` takes a folder and its texts, and gives what is told
    of a file that is not replaced, or None."""
    found = read_words(command, words)
    if found is None:
        return None
    given, rest = found
    options = dict(given)

    def of_run():
        return dict(zip(FILES, map(read, rest))), read(options["--journal"])

    def after():
        more = {name: read(options[f"--{name}"]) for name in CHANGED if f"--{name}" in options}
        farm = on_after(*of_run(), more, given)
        why = write(rest[4], farm.made, "--force" in options)
        if why:
            raise Outside(why)
        return list(farm.summary()), 0

    def story():
        return on_history([({name: read(f"{it}/{name}") for name in FILES}, read(f"{it}/journal")) for it in rest])

    calls = {"status": lambda: on_status(*of_run(), set(options)), "after": after, "history": story}
    return guarded(calls[command])


def write_texts(folder, texts, is_forced):
    """Writes each text to a file beside its own, and gives it its name then."""
    for name in texts:
        path = Path(folder) / name
        if path.exists() and not is_forced and not path.read_bytes().startswith(HEAD.encode()):
            return f"{path}: not made by portfarm after; --force replaces it"
    Path(folder).mkdir(parents=True, exist_ok=True)
    for name, text in texts.items():
        (Path(folder) / f"{name}.new").write_bytes(text.encode("latin-1"))
    for name in texts:
        (Path(folder) / f"{name}.new").replace(Path(folder) / name)
    return None


def leg_words(words):
    """Answers the words, and gives the status."""
    found = answer(words[0], words[1:], text_of, write_texts)
    if found is None:
        print(__doc__, file=sys.stderr)
        return 2
    told, errors, status = found
    sys.stdout.buffer.write("".join(f"{line}\n" for line in told).encode("latin-1"))
    sys.stderr.write("".join(f"{line}\n" for line in errors))
    return status
