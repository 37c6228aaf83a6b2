"""The texts of what is left of a run: a farm as it is now, and a sketch of the lanes with what they have to build yet.

Taken are the state that the journal leads to, the texts of the run, those that the operator has changed, and words. The
archive is the run's initial one, what it has published, and what the given farm has more; each of these has to be named by
`--came`, and what is withdrawn is left out. What is open counts for nothing, but for a publish, which is made again
(`Pending` has what it may have put into the archive), and a build that gave other outputs. The first paragraph of the farm
text says where it comes from: `After` (the run, and the digest of its journal), `Done`, `Pending`, `Withdrawn`.
"""

from drafts import sketch
from rest_items import Items, Refused, Text, item_text, items_of, list_lines, listed
from rest_recipes import Left, texts_of
from texts import Fault, lines
from universe import read_universe
from versions import Version

HEAD = "# made by portfarm after\n"
OWN = ("archive", "after", "done", "pending", "withdrawn")


class RestFarm:
    """`made` has the four texts. `texts` are those of the run, `given` those that were changed."""

    def __init__(self, texts, life, journal, given, wishes):
        self.life, self.journal, self.wishes = life, journal, wishes
        self.given = {name: given.get(name, texts[name]) for name in ("packages", "sources", "farm")}
        self.old_farm, self.farm = Text(texts["farm"], "farm"), Text(self.given["farm"], "farm")
        self.old_packages, self.packages = Text(texts["packages"], "packages"), Text(self.given["packages"], "packages")
        if self.farm.head is None:
            raise Fault(201, 0, "farm")
        self.there = items_of(life.farm.archive)
        self.find_archive()
        self.recipes = Left(life, self.old_farm, self.farm, wishes, self.there, self.archive, self.withdrawn)
        self.carried, self.changed, self.unplaced, self.lanes_gone = [], [], [], []
        self.made = {"packages": self.packages_text(), "sources": headed(self.given["sources"]), "farm": self.farm_text()}
        self.universe = self.read_made()
        self.made["sketch"] = self.sketch_text(given.get("sketch"))

    def read_made(self):
        """The universe of the texts that were made, as every command reads them."""
        try:
            return read_universe(self.made)
        except Fault as fault:
            told = (f"  {it}" for it in lines(self.made[fault.file])[fault.line - 1:fault.line])
            raise Refused(f"refused {fault.code} {fault.file} line {fault.line}", *told) from None

    # ---- the archive

    def find_archive(self):
        given = Items(listed(self.farm.head, "Archive"))
        self.withdrawn = Items([*listed(self.old_farm.head, "Withdrawn"), *listed(self.farm.head, "Withdrawn")])
        for word in self.wishes.withdraw:
            item = read_item(word)
            if item not in self.there and item not in given:
                raise Refused(f"refused 724 {item_text(item)}", "  it is not in the archive")
            self.withdrawn.add(item)
        came = Items(map(read_item, self.wishes.came))
        for item in came:
            if item not in given or item in self.there:
                is_there = item in self.there
                why = "the run has it in its archive" if is_there else "the farm does not have it in its Archive"
                raise Refused(f"refused 724 {item_text(item)}", f"  {why}")
        self.brought = [it for it in given if it not in self.there and it not in self.withdrawn]
        for item in self.brought:
            if item not in came:
                word = f"--came {item[0]}={item[1].text}"
                why = f"no run has published it: if it came by hand, {word} says so"
                raise Refused(f"refused 724 {item_text(item)}", f"  {why}")
        self.archive = Items(it for it in [*self.there, *self.brought] if it not in self.withdrawn)

    def pending(self):
        """What an open publish may have put into the archive, of this run or an earlier one."""
        return Items(item for item, _ in [*self.recipes.pending()][::-1] if item not in self.archive)

    # ---- the texts

    def asked_packages(self):
        """What the packages text has to have: what is there, what base chroots hold, what recipes give that are left."""
        asked = Items(self.archive)
        for paragraph in self.farm.paragraphs[1:]:
            name = paragraph.get("Recipe")
            for item in listed(paragraph, "Packages") if name is None else self.recipes.outputs[name]:
                if name is None or name in self.recipes.left:
                    asked.add(item)
        return asked

    def packages_text(self):
        """The given text, and below it the old paragraphs of what it lacks."""
        blocks = []
        for item in self.asked_packages():
            now, before = self.packages.variant(item), self.old_packages.variant(item)
            if now is None and before is not None:
                self.carried.append(item)
                blocks.append("".join(f"{line}\n" for line in self.old_packages.of(before)))
            elif now is not None and before is not None and item in self.archive:
                self.changed += [item] if self.packages.of(now) != self.old_packages.of(before) else []
        for name in self.recipes.left:
            for item in self.recipes.outputs[name] if name in self.recipes.gave else ():
                if self.packages.variant(item) is None and self.old_packages.variant(item) is None:
                    why = f"it gave {item_text(item)}, of which the packages text has no paragraph"
                    raise Refused(f"refused 723 recipe {name}", f"  {why}")
        text = headed(self.given["packages"])
        return text.rstrip("\n") + "\n\n" + "\n".join(blocks) if blocks else text

    def farm_text(self):
        blocks = [self.head_lines()]
        for paragraph in self.farm.paragraphs[1:]:
            name = paragraph.get("Recipe")
            if name is None or name in self.recipes.left:
                blocks.append(self.farm.of(paragraph) if name is None else self.recipe_lines(name, paragraph))
        return HEAD + "\n".join("".join(f"{line}\n" for line in block) for block in blocks)

    def head_lines(self):
        done = [name for name in self.recipes.published if not self.recipes.asks_again(name)]
        return [
            *self.farm.of(self.farm.head, OWN),
            f"After: {self.journal.run} {self.journal.sum()}",
            *([f"Done: {' '.join(done)}"] if done else []),
            *(list_lines("Pending", list(self.pending())) if self.pending() else []),
            *(list_lines("Withdrawn", list(self.withdrawn)) if self.withdrawn else []),
            *list_lines("Archive", list(self.archive)),
        ]

    def recipe_lines(self, name, paragraph):
        if name not in self.recipes.built:
            return self.farm.of(paragraph)
        outputs = self.recipes.outputs[name]
        is_changed = texts_of(outputs) != texts_of(listed(paragraph, "Outputs"))
        kept = self.farm.of(paragraph, ("mode", "steps", "scratch", *(["outputs"] if is_changed else [])))
        return [*kept, "Mode: built", "Steps: 0", *(list_lines("Outputs", outputs) if is_changed else [])]

    def sketch_text(self, given):
        """The lanes, each with what is left for it to build: what is built first, since that waits for its publish alone. A
        given sketch is read, and stays as it is."""
        placed, written = [], ["plan 1"]
        for lane in self.life.plan if given is None else ():
            if lane.chroot.name not in self.universe.chroots:
                self.lanes_gone.append(lane.name)
                continue
            builds = dict.fromkeys(it.recipe.name for it in lane.instructions if it.verb == "build")
            mine = [name for name in builds if name in self.recipes.left and name not in placed]
            mine.sort(key=lambda name: name not in self.recipes.built)
            placed += mine
            written += [f"lane {lane.name} chroot {lane.chroot.name}", *(f"  build {name}" for name in mine), "end"]
        if given is not None:
            placed = [recipe.name for wish in sketch(self.universe, given) for recipe in wish.builds]
        self.unplaced = [name for name in self.recipes.left if name not in placed]
        text = "".join(f"{line}\n" for line in written) if given is None else given
        return headed(text)

    # ---- what is told

    def summary(self):
        recipes = self.recipes
        yield f"published {len(self.life.published)} now, {len(recipes.published)} in all"
        yield f"archive {len(self.archive)}"
        yield f"left {len(recipes.left)}"
        for name in recipes.built:
            verb, lane = recipes.open.get(name, ("", None))
            yield f"built {name}" + (f", and its publish is open in lane {lane}" if verb == "publish" else "")
        yield from (f"left out {name}" for name in recipes.given_up)
        yield from (open_line(self.life, lane) for lane in self.life.lanes if lane in self.life.asked)
        yield from (f"note: {note}" for note in self.notes())

    def notes(self):
        recipes = self.recipes
        for name, item in recipes.newer:
            yield f"{name} is published, and the farm wants {item_text(item)} of it; --again {name} builds it"
        for name, item in recipes.lost:
            yield f"{name} is published, and {item_text(item)} of it is withdrawn"
        for name in recipes.old:
            if name not in recipes.new and name not in recipes.published:
                yield f"the farm has no recipe {name} more"
        for item in self.brought:
            yield f"{item_text(item)} was not published by the run"
        if self.carried:
            first = item_text(self.carried[0])
            yield f"{len(self.carried)} paragraphs come from the old packages text, the first of {first}"
        if self.changed:
            first = item_text(self.changed[0])
            yield f"{len(self.changed)} packages that are there have other fields now, the first is {first}"
        yield from (f"no lane builds {name}" for name in self.unplaced)
        yield from (f"lane {name} has no chroot more, and is left out" for name in self.lanes_gone)


def headed(text):
    return text if text.startswith(HEAD) else HEAD + text


def read_item(word):
    """A variant as the words write it, `NAME=VERSION`."""
    name, _, text = word.partition("=")
    try:
        return name, Version(text)
    except Fault:
        raise Refused(f"refused 724 {name} (= {text})", "  this is no version") from None


def open_line(life, lane):
    """What a lane has asked for and not got."""
    number = life.asked[lane]
    text = str(life.instruction(lane, number)) if number else "open"
    more = ", failed" if (lane, number) in life.failed else ""
    if (lane, number) in life.gave:
        more = ", gave " + ", ".join(map(item_text, life.gave[lane, number]))
    return f"open lane {lane} instruction {number}: {text}{more}"
