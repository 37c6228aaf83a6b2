#!/usr/bin/env python3
"""A plain model of portfarm, written from docs/RULES.md and docs/FORMATS.md: the same words, answers and statuses.

  model/portfarm.py check|explain|list|cert PACKAGES SOURCES FARM PLAN
  model/portfarm.py check|explain --json PACKAGES SOURCES FARM PLAN
  model/portfarm.py list --number PACKAGES SOURCES FARM PLAN
  model/portfarm.py verify-cert PACKAGES SOURCES FARM PLAN CERT
  model/portfarm.py explain --cert CERT PACKAGES SOURCES FARM PLAN
  model/portfarm.py step --schedule LIST|@FILE PACKAGES SOURCES FARM PLAN
  model/portfarm.py timeline [--json|--bars] [--full] PACKAGES SOURCES FARM PLAN
  model/portfarm.py graph [--json] [--needs] [--of RECIPE].. PACKAGES SOURCES FARM PLAN
  model/portfarm.py draft [--partial] --lanes N PACKAGES SOURCES FARM
  model/portfarm.py draft [--partial] [--rest] PACKAGES SOURCES FARM SKETCH
  model/portfarm.py drive PACKAGES SOURCES FARM PLAN
  model/portfarm.py import [--force] [--forbid RECIPE].. [--archive INDEX].. --packages INDEX.. --sources INDEX.. WISH DIR
  model/portfarm.py status|after|history ..                  model/leg_words.py has their words
  model/portfarm.py                   the verdict on the four texts of standard input, divided by lines `%%`

It is slow, it shares no code with the crates, and the texts of wrong words are its own. `timeline --svg` is a command of the
program alone; `status`, `after` and `history` are commands of the model alone, and so is an import for two architectures, of a
wish with `Build-Architecture`. `drive` tells what is asked for where each thing is answered at once, a lane as far as it goes.
"""

import sys
import time
from pathlib import Path

import certificates
from core import step
from cross_imports import cross_texts, is_cross
from draft_order import Refused
from drafts import draft
from drives import drive, first, run_name
from explain import Note, left_lines, stuck_notes, unsafe_notes, waits_notes
from farm_warnings import warnings
from fault_notes import fault_lines, shown
from files import Unread, all_input, none_line, text_of
from import_faults import lines_below
from imports import HEAD
from imports import Refused as NotMade
from json_answers import json_line, lines_of, reasons_of, verdict_members
from leg_words import leg_words
from plan_graph import graph_lines, graph_members
from plan_needs import needs_answer
from plans import listing, numbered, read_plan
from targets import make_texts
from texts import DIGITS, FILES, Fault, pieces
from timeline import TimedRun, json_members, text_lines
from universe import read_universe
from verdict import judge

MOST_LANES = 8
COMMANDS = ("check", "explain", "explain --cert", "list", "cert", "verify-cert", "step", "timeline", "graph", "drive")
OPTIONS = {
    "list": ["--number"], "check": ["--json"], "explain": ["--json"], "timeline": ["--json", "--bars", "--full"],
    "graph": ["--json", "--needs"],
}


def cut_input(text):
    """The four texts of standard input: cut at the first three lines that are exactly `%%`."""
    found, rest = [], text
    while len(found) < 3:
        if rest == "%%" or rest.startswith("%%\n"):
            found.append("")
            rest = rest[3:]
            continue
        before, cut, behind = rest.partition("\n%%\n")
        if not cut and rest.endswith("\n%%"):
            before, cut, behind = rest[:-3], True, ""
        if not cut:
            break
        found.append(before + "\n")
        rest = behind
    found.append(rest)
    return dict(zip(FILES, found + [""] * (4 - len(found))))


def read_schedule(text):
    """The lanes of a schedule, or None where the text is none."""
    found = text.split(",") if text else []
    if not all(piece and set(piece) <= DIGITS and int(piece) <= 4_294_967_295 for piece in found):
        return None
    return [int(piece) for piece in found]


class BadSchedule(Exception):
    """A file of lanes has a word that is none; what is said of the first one."""


def named_turns(plan, text):
    """The lanes of a schedule that stands in a file, by number or name."""
    numbers = {lane.name: number for number, lane in reversed(list(enumerate(plan)))}
    found = []
    for line, content in enumerate(text.split("\n"), 1):
        for place, word in enumerate(pieces(content.replace(",", " ")), 1):
            lane = int(word) if set(word) <= DIGITS else numbers.get(word)
            if lane is None or lane >= len(plan):
                raise BadSchedule(f"  line {line}, word {place}: {shown(word)} is no lane ({few_lanes(plan)})")
            found.append(lane)
    return found


def few_lanes(plan):
    """The first lanes of a plan, and how many others it has."""
    told = ", ".join(f"{number} {shown(lane.name)}" for number, lane in enumerate(plan[:MOST_LANES]))
    return f"{told}, and {len(plan) - MOST_LANES} more" if len(plan) > MOST_LANES else told or "the plan has none"


def numbered_line(number, line, content):
    return f"{number or '-'} {line or '-'} {content}"


def why(universe, plan, rows, written, accepts):
    """The notes that explain the verdict on a plan."""
    if accepts:
        return list(waits_notes(universe, plan))
    return list(stuck_notes(universe, plan)) if written[0].startswith("refused 402") else unsafe_notes(universe, rows)


def refused(command, texts, more, fault):
    """What a command writes of a fault of a text."""
    written = [f"refused {fault.code} {fault.file} line {fault.line}"]
    notes, facts = fault_lines(texts, fault) if command == "explain" else ([], {})
    if "--json" not in (more or ""):
        return [*written, *notes]
    told = {"reasons": reasons_of([Note("text", notes, facts)]), "warnings": []} if command == "explain" else {}
    return [json_line(verdict_members(written) | told)]


def asked_needs(more):
    """The recipes behind `--of`; None if no needs are asked for."""
    flags = (more or "").split(" ")
    marked = [it.removeprefix("--of=") for it in flags if it.startswith("--of=")]
    return marked if marked or "--needs" in flags else None


def timed(command, universe, plan, more):
    """The lines of the timed run of an accepted plan, or of its graph."""
    run, flags = TimedRun(universe, plan), (more or "").split()
    if command == "graph":
        return [json_line(graph_members(plan, run))] if flags else list(graph_lines(plan, run))
    if "--json" in flags:
        return [json_line(json_members(run))]
    return list(text_lines(run, "--bars" in flags, "--full" in flags))


def stuck_graph(plan, written, more):
    """The graph of a plan whose lanes would wait for ever, their circle in bold."""
    stuck = written[0].split(" ")[3:]
    return [json_line(graph_members(plan, None, stuck))] if more == "--json" else list(graph_lines(plan, None, stuck))


def answer(command, texts, more=None):
    """The lines that a command writes, and its status."""
    try:
        universe = read_universe(texts)
        plan = read_plan(universe, texts["plan"])
    except Fault as fault:
        return refused(command, texts, more, fault), 1
    if command == "list" and more == "--number":
        return [numbered_line(*found) for found in numbered(plan)], 0
    if command == "list":
        return listing(plan), 0
    if command == "step" and isinstance(more, str):
        more = named_turns(plan, more)
    if command == "step":
        written, is_well = step(universe, plan, more)
        return written, 0 if is_well else 1
    if command in ("verify-cert", "explain --cert"):
        line, is_one = certificates.check(universe, plan, more)
        notes = certificates.notes(universe, plan, more, line) if command != "verify-cert" and not is_one else []
        return [line, *notes], 0 if is_one else 1
    written, accepts, rows, order = judge(universe, plan)
    status = 0 if accepts else 1
    marked = asked_needs(more) if command == "graph" else None
    if marked is not None and accepts:
        return needs_answer(universe, plan, marked, "--json" in more.split(" "))
    if command in ("timeline", "graph") and accepts:
        return timed(command, universe, plan, more), status
    if command == "graph" and marked is None and written[0].startswith("refused 402"):
        return stuck_graph(plan, written, more), status
    if command == "drive" and accepts:
        asked, end = drive(universe, plan, first)
        return [f"drive 1 {run_name(texts, time.time_ns())}", *(f"start {it}" for it in asked), *end], 0
    if command == "cert" and accepts:
        written = certificates.certificate(universe, plan, rows, order)
    if command in ("check", "timeline", "graph") and "--json" in (more or ""):
        written = [json_line(verdict_members(written))]
    if command != "explain":
        return written, status
    notes = why(universe, plan, rows, written, accepts)
    odd = [*warnings(universe, plan, texts), *left_lines(universe, rows)]
    if more == "--json":
        members = verdict_members(written) | {"reasons": reasons_of(notes), "warnings": lines_of(odd)}
        return [json_line(members)], status
    # the lines of hazards begin with that of the verdict
    head = [] if written[0].startswith(("refused 401", "refused 403")) else written
    return [*head, *(line for note in notes for line in note.lines), *odd], status


def drafted(texts, lanes, flags):
    """The lines of a plan that is drafted, or of a refusal; its status; and the lines on what was left out."""
    try:
        universe = read_universe(texts)
        given = {"takes_rest": "--rest" in flags, "is_partial": "--partial" in flags}
        plan, told = draft(universe, texts["plan"] if lanes is None else None, lanes or 0, **given)
    except Fault as fault:
        return refused("draft", texts, None, fault), 1, []
    except Refused as refusal:
        return refusal.lines, 1, []
    return plan, 0, told


def with_recipes(words):
    """Words with each `--of` and the recipe behind it as one, in bytes as texts have them."""
    found = []
    for word in words:
        if found[-1:] == ["--of"]:
            found[-1] = f"--of={word}"
        else:
            found.append(word)
    return [it.encode().decode("latin-1") if it.startswith("--of=") else it for it in found]


def read_draft_words(words):
    """The flags, the number of lanes or None, and the paths of the words behind `draft`; None where they are wrong."""
    flags, lanes, words = set(), None, list(words)
    while words[:1] and words[0].startswith("--"):
        flags.add(words.pop(0))
        if "--lanes" in flags and lanes is None:
            lanes = words.pop(0) if words else ""
    is_number = lanes is None or lanes.isdigit() and 1 <= int(lanes) <= 64
    is_known = flags <= {"--partial", "--rest" if lanes is None else "--lanes"}
    if not is_number or not is_known or len(words) != (4 if lanes is None else 3):
        return None
    return flags, None if lanes is None else int(lanes), words


def draft_words(words):
    """Answers the words behind `draft`, and gives the status."""
    read = read_draft_words(words)
    if read is None:
        print(__doc__, file=sys.stderr)
        return 2
    flags, lanes, paths = read
    texts = dict(zip(FILES, map(text_of, paths)))
    lines_, status, told = drafted(texts, lanes, flags)
    sys.stderr.write("".join(f"{line}\n" for line in told))
    sys.stdout.buffer.write("".join(f"{line}\n" for line in lines_).encode("latin-1"))
    return status


def told_import(wish, given, forbidden=()):
    """The texts that are made, or None; the lines that tell of them or of a refusal; the status."""
    make = cross_texts if is_cross(wish) else make_texts
    try:
        more = () if make is cross_texts else (forbidden,)
        texts, told = make(wish, given["--archive"], given["--packages"], given["--sources"], *more)
    except Fault as fault:
        return None, [f"refused {fault.code} {fault.file} line {fault.line}", *lines_below(fault, wish, given)], 1
    except NotMade as refusal:
        return None, refusal.lines, 1
    return texts, told, 0


def kept_file(folder, name):
    """Whether a file stands there that import has not made."""
    path = folder / name
    return path.exists() and not path.read_bytes().startswith(HEAD.encode())


def write_texts(folder, texts):
    """Writes each text to a new file beside its own, and gives them their names once all are written."""
    folder.mkdir(parents=True, exist_ok=True)
    for name, text in texts.items():
        with open(folder / f"{name}.new", "xb") as beside:
            beside.write(text.encode("latin-1"))
    for name in texts:
        (folder / f"{name}.new").replace(folder / name)


def import_words(words):
    """Answers the words behind `import`, and gives the status."""
    given, rest, forbidden, force = {"--archive": [], "--packages": [], "--sources": []}, [], [], False
    while words:
        word = words.pop(0)
        if word in given and words:
            given[word].append((words[0], text_of(words.pop(0))))
        elif word == "--forbid" and words:
            forbidden.append(words.pop(0))
        elif word == "--force":
            force = True
        else:
            rest.append(word)
    if len(rest) != 2 or not given["--packages"] or not given["--sources"]:
        print(__doc__, file=sys.stderr)
        return 2
    texts, told, status = told_import(text_of(rest[0]), given, forbidden)
    folder = Path(rest[1])
    kept = [name for name in texts or () if not force and kept_file(folder, name)]
    if kept:
        print(f"portfarm: {folder / kept[0]}: not made by portfarm import; --force replaces it", file=sys.stderr)
        return 3
    if texts is not None:
        write_texts(folder, texts)
    sys.stdout.buffer.write("".join(f"{line}\n" for line in told).encode("latin-1"))
    return status


def main(words):
    """Answers the words of a command line, and gives the status."""
    more = None
    if words[:1] == ["draft"]:
        return draft_words(words[1:])
    if words[:1] == ["import"]:
        return import_words(words[1:])
    if words[:1] and words[0] in ("status", "after", "history"):
        return leg_words(words)
    if not words:
        command, texts = "check", cut_input(all_input())
    else:
        command, *rest = words
        by_file = command == "step" and rest[:1] == ["--schedule"] and rest[1:2] and rest[1].startswith("@")
        if by_file:
            rest = [*rest[2:], rest[1][1:]]
        elif command == "step" and rest[:1] == ["--schedule"] and len(rest) > 1:
            more, rest = read_schedule(rest[1]), rest[2:]
            if more is None:
                print("portfarm: bad schedule", file=sys.stderr)
                return 2
        by_cert = command == "explain" and rest[:1] == ["--cert"] and len(rest) > 1
        if by_cert:
            command, rest = "explain --cert", [*rest[2:], rest[1]]
        if command == "graph":
            rest = with_recipes(rest)
        while rest and (rest[0] in OPTIONS.get(command, ()) or rest[0].startswith("--of=")):
            more, rest = f"{more} {rest[0]}" if more else rest[0], rest[1:]
        paths = 5 if command == "verify-cert" or by_cert or by_file else 4
        if command not in COMMANDS or len(rest) != paths:
            print(__doc__, file=sys.stderr)
            return 2
        found = [text_of(path) for path in rest]
        texts = dict(zip(FILES, found))
        more = found[4] if paths == 5 else more
    try:
        written, status = answer(command, texts, more)
    except BadSchedule as fault:
        print("portfarm: bad schedule", fault, sep="\n", file=sys.stderr)
        return 2
    sys.stdout.buffer.write("".join(f"{line}\n" for line in written).encode("latin-1"))
    return status


def run(words):
    """The same, also where a file cannot be read."""
    try:
        return main(words)
    except Unread as fault:
        told = none_line(fault, words)
        sys.stdout.write(f"{told}\n" if told else "")
        print(f"portfarm: {fault}", file=sys.stderr)
        return 3


if __name__ == "__main__":
    sys.exit(run(sys.argv[1:]))
