#!/usr/bin/env python3
"""Answers the case files of crates/*_cases/data and of leg_cases by the model, and tells where an answer is not the wanted
one.

  model/cases.py [FILE..]     all files of command_cases, run_cases and leg_cases where none is named; others have to be

The form of a case file is said in crates/command_cases/data/README, and the questions about runs in the README beside
those. leg_cases/README and stage_cases/README say what is more in those files, which ask what the model alone can do.
"""

import json
import re
import sys
from pathlib import Path

import certificates
import stage_questions
from core import CONFIGURED, Farm
from drives import some_requests
from files import REASONS, Unread, none_line
from json_answers import json_line, member_line
from leg_drives import Chain, is_like
from leg_words import OPTIONS as LEG_WORDS
from leg_words import answer as leg_answer
from rest_farm import HEAD as AFTER_HEAD
from plans import read_plan
from imports import HEAD
from portfarm import BadSchedule, FILES, answer, cut_input, drafted, read_draft_words, read_schedule, told_import
from texts import Fault
from universe import read_universe
from verdict import Rows, count

CRATES = Path(__file__).resolve().parent.parent / "crates"
# What these ask for is the parser's own text, or how an output fails: no rule of a farm.
NOT_OF_FARMS = ("failing", "heads", "mute", "narrow", "stuck")
# Why a file cannot be read, by the first word of its heading.
STOPS = {"broken": None, "closed": REASONS[PermissionError], "folder": REASONS[IsADirectoryError], "pipe": None}


class Case:
    def __init__(self, name):
        self.name, self.input, self.question, self.wanted = name, "", "", ""


def unescaped(line, number=0):
    """What a line of a case file stands for."""
    found, rest = "", line
    while rest:
        if rest == "\\":
            return found
        if rest.startswith("\\x"):
            found, rest = found + chr(int(rest[2:4], 16)), rest[4:]
        elif rest[0] == "\\":
            found += {"n": "\n", "t": "\t", "r": "\r", "#": str(number)}.get(rest[1], rest[1])
            rest = rest[2:]
        else:
            found, rest = found + rest[0], rest[1:]
    return found + "\n"


def text_of_line(line, givens):
    if line.startswith("\\^"):
        return givens[line[2:]]
    if line.startswith("\\*"):
        count, _, repeated = line[2:].partition(" ")
        return "".join(unescaped(repeated, number) for number in range(1, int(count) + 1))
    return unescaped(line)


def read_cases(text):
    """The cases of a file."""
    found, givens, part, case = [], {}, None, None
    for line in text.split("\n")[:-1]:
        if line.startswith("=== ") or line.startswith("+++ "):
            part, case = line[:3], Case(line[4:])
            if part == "===":
                found.append(case)
        elif part in ("===", "+++") and (line == "---" or line.startswith("--- ")):
            if part == "+++":
                givens[case.name], part = case.input, None
            else:
                case.question, part = line[4:], "answer"
        elif part in ("===", "+++"):
            case.input += text_of_line(line, givens)
        elif part == "answer" and line and not line.startswith("#"):
            case.wanted += text_of_line(line, givens)
    return found


def printable(text):
    """A text as Rust's `escape_ascii` has it."""
    special = {"\t": "\\t", "\n": "\\n", "\r": "\\r", "'": "\\'", '"': '\\"', "\\": "\\\\"}
    return "".join(special.get(it) or (it if " " <= it <= "~" else f"\\x{ord(it):02x}") for it in text)


def held_lines(universe, standing):
    """What a lane holds."""
    held = ((name, standing.slots[name]) for name in universe.variants if name in standing.slots)
    return [f"  {name} {slot.variant.version.text} {'configured' if slot.phase == CONFIGURED else 'unpacked'}" for name, slot in held]


def on_lane(texts, question):
    """What a lane that runs alone comes to, at its end or where the question stops it; None for other questions."""
    if not question.startswith("run "):
        return None
    universe = read_universe(texts)
    plan = read_plan(universe, texts["plan"])
    gate = question.removeprefix("run ")
    if len(plan) != 1 or gate.split(" ")[0] not in ("bell", "patient", "before", "unpacked"):
        return None
    farm, is_stopped = Farm(universe, plan), False
    standing = farm.lanes[0]
    while standing.next() and not is_stopped:
        place, verb = standing.done + 1, standing.next().verb
        is_stopped = gate == f"before 0 {place}"
        if not is_stopped:
            farm.turn(standing)
            is_stopped = verb == "unpack" and gate == f"unpacked 0 {place}"
    written = ["stopped 501 by lane 0", f"lane 0 stopped 501 at {standing.done + 1}"]
    if not is_stopped:
        written = [f"ended {standing.spent}:{len(farm.published)}"]
    for serial, (_, variant) in enumerate(farm.published):
        written.append(f"published {serial} 0 {variant.name} {variant.version.text}")
    return [*written, *([] if is_stopped else ["lane 0"]), *held_lines(universe, standing)]


def on_known(texts):
    """The words of what each lane of an accepted plan knows at each place."""
    universe = read_universe(texts)
    plan = read_plan(universe, texts["plan"])
    rows, written = Rows(universe, plan), []
    rows.make_greatest()
    for lane, known in zip(plan, rows.known):
        written.append(f"lane {printable(lane.name)}")
        for place, row in enumerate(known):
            words = [sum(2**bit for bit, it in enumerate(of) if it in row) for of in universe.variants.values()]
            written.append(f"  {place}: " + " ".join(map(str, words)))
    return written


def on_library(texts):
    """What the library says of an accepted plan."""
    universe = read_universe(texts)
    plan = read_plan(universe, texts["plan"])
    costs = [f"lane {number} cost {line.split(' ')[-3]}" for number, line in enumerate(answer("check", texts)[0][3:])]
    return [*answer("list", texts)[0], f"count {count(plan)}", *costs, *answer("cert", texts)[0], "certified"]


def on_run(texts, question):
    """Answers a question of run_cases, or None where the model has no answer to its kind."""
    if answer("check", texts)[1]:
        return None
    of_plan = {"library": on_library, "known": on_known}.get(question)
    return of_plan(texts) if of_plan else on_lane(texts, question)


def replaced(machine, question):
    """What the words come to with each byte of a file in turn replaced: their first line."""
    _, byte, name, *words = question.split(" ")
    files = files_of(machine)[0]
    texts, text, found = {file: files[file] for file in FILES}, files[name], []
    universe = read_universe(texts)
    plan = read_plan(universe, texts["plan"])
    for place in range(len(text)):
        line = certificates.check(universe, plan, text[:place] + chr(int(byte)) + text[place + 1 :])[0]
        if found and found[-1][2] == line:
            found[-1][1] = place + 1
        else:
            found.append([place + 1, place + 1, line])
    return [f"{first} to {last}: {line}" for first, last, line in found] if words[0] == "verify-cert" else None


def printed(texts, text):
    """A certificate as it is printed, or the message of its fault."""
    universe = read_universe(texts)
    plan = read_plan(universe, texts["plan"])
    try:
        listed, order = certificates.read(universe, plan, text)
    except Fault as fault:
        return [f"line {fault.line} is not the certificate's"]
    return certificates.certificate(universe, plan, certificates.rows_of(universe, plan, listed), order)


def on_library_words(machine, question):
    """Answers what command_cases asks the library."""
    if question == "texts":
        return [f'{file} "{printable(text)}"' for file, text in cut_input(machine).items()]
    if question.startswith("replaced "):
        return replaced(machine, question)
    files, _ = files_of(machine)
    return printed({file: files[file] for file in FILES}, files["cert"])


def heading_of(heading):
    """The name of a file that a heading tells, empty for standard input, and in one word why it cannot be read."""
    word, _, rest = heading.partition(" ")
    name = rest if word in STOPS else heading
    return name.removeprefix("file ").removeprefix("input"), word if word in STOPS else None


def files_of(machine):
    """The files of a machine, standard input as `-`, and of those that cannot be read why, where that has a name."""
    files, stops, current = {"": ""}, {}, ""
    for line in re.findall("[^\n]*\n|[^\n]+", machine):
        if line.startswith("%% "):
            current, stop = heading_of(line[3:].removesuffix("\n"))
            # of two files of a name the first counts
            current = current if current not in files or current == "" else None
            if stop and current is not None:
                stops[current or "-"] = STOPS[stop]
            files[current] = ""
        else:
            files[current] += line
    files["-"] = files[""]
    return files, stops


def judge_files(files, stops, paths):
    """Ends where one of these files cannot be read: the first."""
    for path in paths:
        if path not in files or path in stops:
            raise Unread(path, stops.get(path, REASONS[FileNotFoundError]))


def on_drive(case):
    """What is wanted of a drive, where each line that it is asked by is one that the model asks by in some run."""
    files, _ = files_of(case.input)
    texts = dict(zip(FILES, (files[name] for name in case.question.split(" ")[-4:])))
    universe = read_universe(texts)
    plan = read_plan(universe, texts["plan"])
    written, status = answer("check", texts)
    known = some_requests(universe, plan) if status == 0 else {f"status 1\n| {written[0]}"}
    told = re.findall("^(?:expect |[|] )?(?:start|again) (.*)$", case.input + case.wanted, re.M)
    others = [it for it in told or ([case.wanted.strip()] if status else []) if it not in known]
    return [f"not asked: {it}" for it in others] or case.wanted.split("\n")[:-1]


def schedule_of(word):
    """The turns of a schedule, or the word that names its file; None where it is none."""
    if word.startswith("@"):
        return word
    return read_schedule("" if word == '""' else word)


def unread_lines(fault, words, path):
    """What is answered where a file cannot be read; with what stands at a path of the answer, where one is given."""
    told = none_line(fault, words)
    if told and path is not None:
        told = member_line([told], path)
    return ["status 3", *([f"| {told}"] if told else []), f"! portfarm: {fault}"]


def on_words(machine, question, of_program):
    """Answers `run WORDS` and `member PATH WORDS`; None for words that the model does not judge."""
    word, *words = question.split(" ")
    path = words.pop(0).replace('""', "") if word == "member" else None
    files, stops = files_of(machine)
    if word not in ("run", "member"):
        return None
    try:
        if words[:1] == ["draft"]:
            return on_draft(files, stops, words[1:])
        if words[:1] == ["import"]:
            return on_import(files, stops, words[1:])
        if words[:1] and words[0] in LEG_WORDS:
            return on_leg_words(files, stops, words, path, of_program)
        return on_farm_words(files, stops, words, path)
    except Unread as fault:
        return unread_lines(fault, words, path)


def without_chroots(lines):
    """The answer of `status` as the program has it: its JSON does not tell yet what a chroot is like."""
    if not lines[:1] or not lines[0].startswith('{"done"'):
        return lines
    told = json.loads(lines[0].encode("latin-1"))
    for members in told["lanes"]:
        members.pop("chroot")
    return [json_line(told)]


def on_leg_words(files, stops, words, path, of_program):
    """What `status`, `after` or `history` answers to files, and what it does with them."""
    done = []

    def read(name):
        judge_files(files, stops, [name])
        return files[name]

    def write(folder, texts, is_forced):
        for name in texts:
            at = f"{folder}/{name}"
            if at in files and not files[at].startswith(AFTER_HEAD) and not is_forced:
                return f"{at}: not made by portfarm after; --force replaces it"
        done.append(f"made {folder}")
        for name, text in texts.items():
            done.extend([f"written {folder}/{name}.new", *(f"> {line}" for line in text.split("\n")[:-1])])
        done.extend(f"renamed {folder}/{name}.new to {folder}/{name}" for name in texts)
        return None

    found = leg_answer(words[0], words[1:], read, write)
    if found is None:
        return None
    told, errors, status = found
    told = without_chroots(told) if of_program else told
    told = told if path is None else [member_line(told, path)]
    return [f"status {status}", *(f"| {line}" for line in told), *(f"! {line}" for line in errors), *done]


def chain_of(machine):
    """A chain behind its lives."""
    files, acts = {}, []
    for part in re.split("^%% ", machine, flags=re.M)[1:]:
        heading, _, body = part.partition("\n")
        if heading.startswith("file "):
            files.setdefault(heading[5:], body)
        else:
            acts.append((heading, body.split("\n")[:-1]))

    def read(name):
        return files[name.removeprefix("./")]

    def write(folder, texts, _is_forced):
        files.update({f"{folder}/{name}": text for name, text in texts.items()})

    def others(words):
        if words[0] in LEG_WORDS:
            return leg_answer(words[0], words[1:], read, write)
        written, status = answer(words[0], dict(zip(FILES, map(read, words[1:]))))
        return written, [], status

    chain = Chain(files, others)
    for heading, body in acts:
        chain.act(heading, body)
    chain.end()
    return chain


def with_any(found, wanted):
    """The lines, each as it is wanted where that is with `*` for any word."""
    lines = wanted.split("\n")[:-1]
    likes = [want if is_like(line, want) else line for line, want in zip(found, lines)]
    return likes + found[len(lines):]


def without_unasked(found, wanted):
    """The lines of an answer, with `> ..` in place of a text of which the wanted answer has no more."""
    kept, is_unasked = [], False
    for line in found:
        if not line.startswith("> "):
            is_unasked = line.startswith("written ") and f"{line}\n> ..\n" in wanted
            kept += [line, "> .."] if is_unasked else [line]
        elif not is_unasked:
            kept.append(line)
    return kept


def on_farm_words(files, stops, words, path):
    """Answers other words; with what stands at a path of the answer, where one is given."""
    if words[:2] == ["explain", "--cert"] and len(words) > 2:
        words = ["explain --cert", *words[3:], words[2]]
    flags = ("--json", "--bars", "--full", "--number", "--needs")
    options = [it for it in words[1:] if it in flags or it.startswith("--of=")]
    while "--of" in words:
        at = words.index("--of")
        options.append(f"--of={words[at + 1]}")
        words = words[:at] + words[at + 2:]
    words = [it for it in words if it and it not in options]
    schedule = words.pop(2) if words[:2] == ["step", "--schedule"] and len(words) > 2 else None
    paths = [it for it in words[1:] if it != "--schedule"]
    by_file = [schedule[1:]] if schedule and schedule.startswith("@") else []
    four = ("check", "explain", "list", "cert", "step", "timeline", "graph")
    wanted = (dict.fromkeys(four, 4) | {"verify-cert": 5, "explain --cert": 5}).get(words[0] if words else "")
    if words and len(paths) != wanted or [*paths, *by_file].count("-") > 1 or by_file == ["-"]:
        return None
    if schedule and schedule_of(schedule) is None:
        return ["status 2", "! portfarm: bad schedule"]
    judge_files(files, stops, [*paths, *by_file] if words else ["-"])
    if not words:
        written, status = answer("check", cut_input(files[""]))
    else:
        more = files[paths[4]] if len(paths) == 5 else " ".join(options) or None
        if words[0] == "step":
            more = files[by_file[0]] if by_file else schedule_of(schedule)
        try:
            written, status = answer(words[0], dict(zip(FILES, (files[name] for name in paths))), more)
        except BadSchedule as fault:
            return ["status 2", "! portfarm: bad schedule", f"! {fault}"]
    if path is not None:
        written = [member_line(written, path)]
    return [f"status {status}", *(f"| {line}" for line in written)]


def on_draft(files, stops, words):
    """What `draft` answers to files, on both outputs; None for words that the model does not judge."""
    read = read_draft_words(words)
    if read is None or read[2].count("-") > 1:
        return None
    flags, lanes, paths = read
    judge_files(files, stops, paths)
    texts = dict(zip(FILES, (files[name] for name in paths)))
    written, status, told = drafted(texts, lanes, flags)
    return [f"status {status}", *(f"| {line}" for line in written), *(f"! {line}" for line in told)]


def done_with(files, stops, folder, texts):
    """What cannot be written of the texts of an import, or nothing, and what is done with files."""
    done, beside = ([f"made {folder}"] if texts else []), []
    for name, text in texts.items():
        path = f"{folder}/{name}.new"
        if path in files or path in stops:
            why = "" if path in stops and stops[path] is None else ": File exists"
            return f"{path}{why}", [*done, *(f"removed {it}" for it in reversed(beside))]
        beside.append(path)
        done += [f"written {path}", *(f"> {line}" for line in text.split("\n")[:-1])]
    for name in texts:
        path = f"{folder}/{name}"
        if stops.get(path) == REASONS[IsADirectoryError]:
            return path, [*done, *(f"removed {it}" for it in beside)]
        done.append(f"renamed {beside.pop(0)} to {path}")
    return None, done


def on_import(files, stops, words):
    """What `import` answers to files, and what it does with them; None for words or files that the model does not judge."""
    given, rest, words = {"--archive": [], "--packages": [], "--sources": [], "--forbid": []}, [], list(words)
    while words:
        word = words.pop(0)
        (given[word].append(words.pop(0)) if word in given else rest.append(word))
    forbidden = given.pop("--forbid")
    paths = [*(path for found in given.values() for path in found), rest[-2]]
    if paths.count("-") > 1:
        return None
    judge_files(files, stops, paths)
    archive, packages, sources = ([(path, files[path]) for path in found] for found in given.values())
    texts, told, status = told_import(files[rest[-2]], {"--archive": archive, "--packages": packages, "--sources": sources}, forbidden)
    for name in texts or ():
        path = f"{rest[-1]}/{name}"
        if path in stops and "--force" not in rest:
            raise Unread(path, stops[path])
        if path in files and not files[path].startswith(HEAD) and "--force" not in rest:
            return ["status 3", f"! portfarm: {path}: not made by portfarm import; --force replaces it"]
    failed, done = done_with(files, stops, rest[-1], texts or {})
    if failed:
        return ["status 3", f"! portfarm: cannot write {failed}", *done]
    return [f"status {status}", *(f"| {line}" for line in told), *done]


def answer_case(crate, case):
    word = case.question.split(" ")[0]
    if word in NOT_OF_FARMS:
        return None
    if word == "chain":
        return with_any(chain_of(case.input).lines, case.wanted)
    if word in ("cuts", "drive"):
        return on_drive(case)
    if word in stage_questions.WORDS:
        return stage_questions.answer(files_of(case.input)[0], case.question)
    if word in ("texts", "printed", "replaced"):
        return on_library_words(case.input, case.question)
    if crate == "run_cases":
        return on_run(cut_input(case.input), case.question)
    return on_words(case.input, case.question, crate == "command_cases")


def main(names):
    crates = ("command_cases", "run_cases")
    files = [Path(name) for name in names]
    if not files:
        folders = [*(CRATES / crate / "data" for crate in crates), Path(__file__).resolve().parent / "leg_cases"]
        files = [it for folder in folders for it in sorted(folder.glob("*.cases"))]
    same = passed_over = other = 0
    for file in files:
        for case in read_cases(file.read_bytes().decode("latin-1")):
            found = answer_case(file.resolve().parent.parent.name, case)
            if found is None:
                passed_over += 1
                continue
            text = "".join(f"{line}\n" for line in without_unasked(found, case.wanted))
            same, other = same + (text == case.wanted), other + (text != case.wanted)
            if text != case.wanted:
                print(f"{file.name} {case.name}: wanted\n{case.wanted}the model says\n{text}")
    print(f"{same} as the model says, {other} not, {passed_over} not asked of the model")
    return 1 if other else 0


if __name__ == "__main__":
    sys.exit(main(sys.argv[1:]))
