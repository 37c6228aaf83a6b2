"""Answers what model/stage_cases asks of an import with targets: README there says the form."""

import re

from draft_order import Refused
from drafts import draft
from plans import read_plan
from portfarm import told_import
from universe import read_universe
from verdict import judge

WORDS = ("chosen", "hints")
COUNT = re.compile(r"(names|variants|sources|recipes|base chroots|bytes of a text|relation entries) \d+( of \d+)?$")


class Asked:
    """The words of an import over files in memory."""

    def __init__(self, files, words):
        self.files, self.given, self.forbidden, self.rest = files, {"--archive": [], "--packages": [], "--sources": []}, [], []
        words = list(words)
        while words:
            word = words.pop(0)
            if word in self.given:
                self.given[word].append(words.pop(0))
            elif word == "--forbid":
                self.forbidden.append(words.pop(0))
            elif word != "import":
                self.rest.append(word)

    def answer(self, changed=None):
        """The texts or None, the lines and the status, where some files are changed."""
        files = self.files | (changed or {})
        given = {option: [(name, files[name]) for name in names] for option, names in self.given.items()}
        return told_import(files[self.rest[0]], given, self.forbidden)


def answer(files, question):
    word, *words = question.split(" ")
    asked = Asked(files, words)
    texts, told, status = asked.answer()
    if word == "hints":
        return [f"status {status}", *(f"| {line}" for line in told if not is_hint(line)), *tried_hints(asked, told)]
    written = [f"status {status}", *(f"| {line}" for line in told if not COUNT.match(line))]
    if "wish" not in (texts or {}):
        return written
    return [*written, *(f"> {line}" for line in texts["wish"].split("\n")[:-1]), drafted(texts)]


def drafted(texts):
    """The builds of a drafted plan with one lane, by name, and whether it is accepted; or the first line of a refusal."""
    universe = read_universe(texts)
    try:
        plan, _ = draft(universe, None, 1)
    except Refused as refusal:
        return refusal.lines[0]
    text = "".join(f"{line}\n" for line in plan)
    accepts = judge(universe, read_plan(universe, text))[1]
    return f"{'accepted' if accepts else 'not accepted'} {' '.join(sorted(re.findall('^  build (.*)$', text, re.M)))}"


def is_hint(line):
    return line.startswith(("  droppable by a profile", "    source ", "    and ", "  or with "))


def tried_hints(asked, told):
    """Whether what is told would suffice: each hint is tried, as an import of changed files."""
    drops = [re.match("    source ([^ ]*) ([^ ]*): (.*)$", line) for line in told]
    drops = [found.groups() for found in drops if found]
    names = next((line.partition(": ")[2].split(" ") for line in told if line.startswith("  or with ")), [])
    for what, count, changed in (
        ("droppable", len(drops), with_droppable(asked, drops)), ("built before", len(names), with_packages(asked, names)),
    ):
        status = asked.answer(changed)[2]
        yield f"{what} {count}: {'would suffice' if count and status == 0 else 'would not suffice'}"


def with_droppable(asked, drops):
    """The files with a further profile that drops some needs, each a source, a field and an entry of it."""
    [name], wish = asked.given["--sources"], asked.rest[0]
    paragraphs = asked.files[name].split("\n\n")
    for source, field, entry in drops:
        at = next(place for place, it in enumerate(paragraphs) if it.startswith(f"Package: {source}\n"))
        rows = paragraphs[at].split("\n")
        row = next(place for place, it in enumerate(rows) if it.startswith(field + ": "))
        items = [with_profile(it) if it == entry else it for it in rows[row].removeprefix(field + ": ").split(", ")]
        rows[row] = f"{field}: {', '.join(items)}"
        paragraphs[at] = "\n".join(rows)
    head, *rest = asked.files[wish].split("\n\n")
    head = head.replace("Stages: ", "Stages: hint ") if "Stages: " in head else head + "\nStages: hint"
    return {name: "\n\n".join(paragraphs), wish: "\n\n".join([head, *rest])}


def with_profile(entry):
    """An entry that is dropped under the profile `hint` too."""
    return " | ".join(it.replace(">", " !hint>") if "<" in it else f"{it} <!hint>" for it in entry.split(" | "))


def with_packages(asked, names):
    """The wish with the packages of some sources in its Archive."""
    [name], wish = asked.given["--packages"], asked.rest[0]
    given = []
    for paragraph in asked.files[name].split("\n\n"):
        fields = dict(re.findall("^([^ :]*): (.*)$", paragraph, re.M))
        given += [fields["Package"]] if fields.get("Source", fields["Package"]) in names else []
    return {wish: re.sub("^Archive: (.*)$", lambda found: f"Archive: {', '.join([found[1], *given])}", asked.files[wish], flags=re.M)}
