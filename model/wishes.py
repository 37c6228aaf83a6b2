"""The wish of an import: a farm text that leaves out what the indexes say."""

from architectures import architecture_names
from relations import NEED, PROVIDE, read_field
from texts import Fault, number, paragraphs, words
from universe import LARGEST, MODES, read_name, required

NO_LIMIT = 999_999_999_999_999
HEAD = {"architecture-names", "archive", "profiles", "mode", "targets", "stages", "finish"}
RECIPE = {"recipe", "source", "profiles", "mode", "steps", "scratch", "outputs", "drops"}
EVERY = {"recipe", "profiles", "mode"}
OF_ONE_BUILD = ("Source", "Steps", "Scratch", "Outputs", "Drops")
CHROOT = {"chroot", "capacity", "packages"}


class WishedRecipe:
    """A build that is wanted. Of steps, scratch and outputs, and of the source's version, those that are not said are None.
    What it gives does not depend on the names of `drops`."""

    def __init__(self, line, name):
        self.line, self.name = line, name


class WishedChroot:
    """A base chroot that is wanted: entries for its packages."""

    def __init__(self, name, capacity, packages):
        self.name, self.capacity, self.packages = name, capacity, packages


def read_optional(paragraph, field, most):
    text = paragraph.get(field)
    value = None if text is None else number(text, most)
    if text is not None and value is None:
        raise Fault(202)
    return value


def read_mode(text):
    if text not in MODES or text == "built":
        raise Fault(202)
    return text


class Wish:
    """The wish of a text; the first fault. `every_build` has the mode and the profiles of each build that is chosen, where the
    wish asks for a choice by targets or a recipe `*`; else it is None."""

    head_fields, recipe_fields, chroot_fields = HEAD, RECIPE, CHROOT
    choice_fields = ("stages", "finish")

    def __init__(self, text):
        self.recipes, self.chroots, self.notes, self.every_build, self.star_line = [], [], [], None, None
        found = paragraphs(text, "wish")
        if not found:
            raise Fault(201, 0, "wish")
        for place, paragraph in enumerate(found):
            try:
                self.read(paragraph, place)
            except Fault as fault:
                raise Fault(fault.code, paragraph.line, "wish", fault.about) from None
        if self.star_line is not None and self.targets is None and not self.recipes:
            raise Fault(201, self.star_line, "wish")
        if self.every_build is None:
            self.notes += [f"wish line {found[0].line}: the field {field} is for targets or a recipe *, and is passed over"
                           for field in self.choice_fields if field in found[0].fields]
        if not self.chroots:
            self.chroots.append(WishedChroot("buildd", NO_LIMIT, self.read_entries(None)))

    def read_entries(self, packages):
        """The entries for the packages of a base chroot."""
        return read_field("build-essential" if packages is None else packages, NEED)

    def read(self, paragraph, place):
        recipe = paragraph.get("Recipe")
        chosen = EVERY if recipe == "*" else self.recipe_fields
        known = self.head_fields if place == 0 else self.chroot_fields if recipe is None else chosen
        for field in paragraph.fields:
            if field not in known:
                self.notes.append(f"wish line {paragraph.line}: the field {field} is not known, and is passed over")
        if place == 0:
            self.read_head(paragraph)
            self.read_targets(paragraph)
        elif recipe == "*":
            self.read_every_build(paragraph)
        elif recipe is not None:
            self.recipes.append(self.read_recipe(paragraph))
        else:
            self.chroots.append(self.read_chroot(paragraph))

    def read_head(self, paragraph):
        self.architectures = words(required(paragraph, "Architecture-Names"), 131)
        if not self.architectures:
            raise Fault(201)
        self.own_names = list(self.architectures)
        names = architecture_names(self.architectures[0])
        self.architectures += [name for name in names if name not in self.architectures]
        archive = paragraph.get("Archive")
        self.archive = None if archive is None else read_field(archive, NEED)
        self.profiles = words(paragraph.get("Profiles") or "", 131)
        mode = paragraph.get("Mode")
        self.mode = "full" if mode is None else read_mode(mode)

    def read_targets(self, paragraph):
        targets = paragraph.get("Targets")
        self.targets = None if targets is None else read_field(targets, NEED)
        if self.targets == []:
            raise Fault(208)
        self.stages = list(dict.fromkeys(words(paragraph.get("Stages") or "", 131)))
        if set(self.stages) & set(self.profiles):
            raise Fault(203)
        self.finish = paragraph.get("Finish")
        if self.finish not in (None, "targets", "all"):
            raise Fault(202)
        self.head_line = paragraph.line
        if self.targets is not None:
            self.every_build = self.mode, self.profiles

    def read_every_build(self, paragraph):
        if self.star_line is not None:
            raise Fault(203)
        if any(paragraph.get(field) is not None for field in OF_ONE_BUILD):
            raise Fault(202)
        self.star_line = paragraph.line
        mode, profiles = paragraph.get("Mode"), paragraph.get("Profiles")
        mode = self.mode if mode is None else read_mode(mode)
        self.every_build = mode, self.profiles if profiles is None else words(profiles, 131)
        if set(self.stages) & set(self.every_build[1]):
            raise Fault(203)

    def read_recipe(self, paragraph):
        recipe = WishedRecipe(paragraph.line, read_name(required(paragraph, "Recipe")))
        if any(recipe.name == other.name for other in self.recipes):
            raise Fault(203)
        source = paragraph.get("Source")
        items = read_field(recipe.name if source is None else source, PROVIDE)
        if len(items) != 1 or items[0][0].qualifier is not None:
            raise Fault(206)
        recipe.source, recipe.version = items[0][0].name, items[0][0].version
        recipe.source_text = str(items[0][0])
        mode, profiles = paragraph.get("Mode"), paragraph.get("Profiles")
        recipe.mode = self.mode if mode is None else read_mode(mode)
        recipe.profiles = self.profiles if profiles is None else words(profiles, 131)
        recipe.steps = read_optional(paragraph, "Steps", LARGEST)
        recipe.scratch = read_optional(paragraph, "Scratch", LARGEST)
        recipe.outputs = self.read_outputs(paragraph)
        recipe.drops = [read_name(word) for word in words(paragraph.get("Drops") or "", 131)]
        if len(set(recipe.drops)) < len(recipe.drops):
            raise Fault(203)
        return recipe

    def read_outputs(self, paragraph):
        text = paragraph.get("Outputs")
        if text is None:
            return None
        items = [item for [item] in read_field(text, PROVIDE)]
        if not items:
            raise Fault(208)
        if any(item.version is not None or item.qualifier is not None for item in items):
            raise Fault(205)
        names = [item.name for item in items]
        if len(set(names)) < len(names):
            raise Fault(203)
        return names

    def read_chroot(self, paragraph):
        name = read_name(required(paragraph, "Chroot"))
        if any(name == other.name for other in self.chroots):
            raise Fault(203)
        capacity = read_optional(paragraph, "Capacity", NO_LIMIT)
        entries = self.read_entries(paragraph.get("Packages"))
        return WishedChroot(name, NO_LIMIT if capacity is None else capacity, entries)
