"""The packages, sources and farm texts: FORMATS, sections 6 to 10. What satisfies what: RULES, section 1."""

from functools import cmp_to_key

from relations import BUILD_CLASH, BUILD_NEED, CLASH, NEED, PROVIDE, read_field, reduce_field
from texts import Fault, is_name, number, paragraphs, words
from versions import Version

NAMES, ENTRIES, VARIANTS, SOURCES, RECIPES, CHROOTS = 4_096, 65_536, 64, 4_096, 1_024, 64
LARGEST = 4_294_967_295
RELATIONS = [("Pre-Depends", NEED), ("Depends", NEED), ("Conflicts", CLASH), ("Breaks", CLASH), ("Provides", PROVIDE)]
BUILD_RELATIONS = [
    (field + mode, kind)
    for field, kind in (("Build-Depends", BUILD_NEED), ("Build-Conflicts", BUILD_CLASH))
    for mode in ("", "-Arch", "-Indep")
]
MODES = {"full": ("", "-Arch", "-Indep"), "arch": ("", "-Arch"), "indep": ("", "-Indep"), "built": ()}


class Variant:
    """A package name with a version. `relations` maps each of the five fields to its entries."""

    def __init__(self, name, version, size, is_essential, relations):
        self.name, self.version, self.size = name, version, size
        self.is_essential, self.relations = is_essential, relations

    def provides(self, alternative):
        items = (item for [item] in self.relations["Provides"] if item.name == alternative.name)
        items = [item for item in items if item.qualifier is None]
        if alternative.operator is None:
            return bool(items)
        return any(item.operator is not None and alternative.in_relation(item.version) for item in items)

    def satisfies(self, entry):
        """Whether the variant satisfies one of the entry's alternatives."""
        return any(self.is_one(alternative) for alternative in entry)

    def is_one(self, alternative):
        if alternative.qualifier is not None:
            return False
        return self.name == alternative.name and alternative.in_relation(self.version) or self.provides(alternative)

    def is_like(self, alternative):
        """Whether it is or provides what the alternative names, in any version."""
        items = (item for [item] in self.relations["Provides"])
        return self.name == alternative.name or any(item.name == alternative.name for item in items)

    def needs(self):
        return self.relations["Pre-Depends"] + self.relations["Depends"]

    def breaks(self, other):
        return self.name != other.name and any(other.satisfies(entry) for entry in self.relations["Breaks"])

    def conflicts(self, other):
        pairs = ((self, other), (other, self))
        if self.name == other.name:
            return False
        return any(that.satisfies(entry) for this, that in pairs for entry in this.relations["Conflicts"])


class Recipe:
    """A build. `written` has the needs as the source has them, each with its field and its restrictions; `words` are
    those that a driver is told beside the name."""

    def __init__(self, name, steps, scratch, needs, clashes, outputs, written, told):
        self.name, self.steps, self.scratch = name, steps, scratch
        self.needs, self.clashes, self.outputs = needs, clashes, outputs
        self.written, self.words = written, told


class Chroot:
    def __init__(self, name, capacity, packages):
        self.name, self.capacity, self.packages = name, capacity, packages


class Universe:
    """What the packages, sources and farm texts stand for. `variants` maps a name to its variants, lowest first."""

    def __init__(self):
        self.variants, self.sources, self.recipes, self.chroots = {}, {}, {}, {}
        self.architectures, self.archive, self.entries = [], [], 0
        self.build_entries, self.published, self.lines = 0, set(), {}

    def all_variants(self):
        return [variant for name in self.variants for variant in self.variants[name]]

    def find(self, name, version):
        return next((it for it in self.variants.get(name, []) if it.version.compare(version) == 0), None)


def read_universe(texts):
    """The universe of three texts, or the first fault."""
    universe = Universe()
    for read, file in ((read_package, "packages"), (read_source, "sources"), (read_farm, "farm")):
        found = paragraphs(texts[file], file)
        if file == "farm" and not found:
            raise Fault(201, 0, file)
        for place, paragraph in enumerate(found):
            try:
                read(universe, paragraph, place)
            except Fault as fault:
                raise Fault(fault.code, paragraph.line, file, fault.about, fault.facts) from None
    return universe


def required(paragraph, field):
    value = paragraph.get(field)
    if value is None:
        raise Fault(201)
    return value


def read_name(text):
    if not is_name(text):
        raise Fault(121)
    return text


def read_number(text, most):
    value = number(text, most)
    if value is None:
        raise Fault(202)
    return value


def read_flag(text):
    """`yes` or `no`; absent, `no`."""
    if text not in (None, "yes", "no"):
        raise Fault(202)
    return text == "yes"


def read_relations(paragraph, fields):
    return {field: read_field(paragraph.get(field) or "", kind) for field, kind in fields}


def read_variant(paragraph):
    """The variant of a paragraph."""
    name = read_name(required(paragraph, "Package"))
    version = Version(required(paragraph, "Version"))
    size = paragraph.get("Installed-Size")
    size = read_number("0" if size is None else size, LARGEST)
    is_essential = read_flag(paragraph.get("Essential"))
    return Variant(name, version, size, is_essential, read_relations(paragraph, RELATIONS))


def read_package(universe, paragraph, _place):
    variant = read_variant(paragraph)
    if universe.find(variant.name, variant.version):
        raise Fault(203)
    same = universe.variants.setdefault(variant.name, [])
    same.append(variant)
    same.sort(key=cmp_to_key(lambda one, other: one.version.compare(other.version)))
    if len(same) > VARIANTS:
        raise Fault(204)
    universe.entries += sum(map(len, variant.relations.values()))
    if len(universe.variants) > NAMES:
        raise Fault(210, about="over the limit of 4,096 names")
    if universe.entries > ENTRIES:
        raise Fault(210, about="over the limit of 65,536 relation entries of all packages")


def read_source_head(paragraph):
    """The name and the version of a source."""
    name = paragraph.get("Package")
    return read_name(required(paragraph, "Source") if name is None else name), Version(required(paragraph, "Version"))


def read_source(universe, paragraph, _place):
    name, version = read_source_head(paragraph)
    relations = read_relations(paragraph, BUILD_RELATIONS)
    same = universe.sources.setdefault(name, [])
    if any(version.compare(other) == 0 for other, _, _ in same):
        raise Fault(203)
    same.append((version, relations, {field: paragraph.get(field) or "" for field, _ in BUILD_RELATIONS}))
    if sum(map(len, universe.sources.values())) > SOURCES:
        raise Fault(210, about="over the limit of 4,096 sources")


def item_text(paragraph, field, number, item):
    """An item of a list, at its own line."""
    return f"farm line {paragraph.item_line(field, number)}: {item}"


def item_facts(paragraph, field, number):
    """The same as data: its number in the list, from 1, and its own line."""
    return {"item": number + 1, "item_line": paragraph.item_line(field, number)}


def standing(line, what, above):
    """What is said of something that stands above already."""
    return f"farm line {line}: {what} stands at line {above} already"


def read_new_name(universe, paragraph, field):
    """The name of a recipe or a base chroot, which no earlier one has."""
    name, line = read_name(required(paragraph, field)), paragraph.item_line(field, 0)
    if (field, name) in universe.lines:
        raise Fault(203, about=standing(line, name, universe.lines[field, name]))
    universe.lines[field, name] = line
    return name


def read_variants(universe, paragraph, field):
    """A list of variants: the relation faults of the whole, then 205 and 203 item by item."""
    found = []
    for number, [item] in enumerate(read_field(paragraph.get(field) or "", PROVIDE)):
        variant = item.version and universe.find(item.name, item.version)
        if variant is None or item.qualifier is not None:
            raise Fault(205, about=item_text(paragraph, field, number, item), facts=item_facts(paragraph, field, number))
        if variant in found:
            line, above = (paragraph.item_line(field, place) for place in (number, found.index(variant)))
            raise Fault(203, about=standing(line, item, above), facts=item_facts(paragraph, field, number))
        found.append(variant)
    return found


def read_farm(universe, paragraph, place):
    if place == 0:
        read_head(universe, paragraph)
    elif paragraph.get("Recipe") is not None:
        read_recipe(universe, paragraph)
    else:
        read_chroot(universe, paragraph)


def read_head(universe, paragraph):
    universe.architectures = words(required(paragraph, "Architecture-Names"), 131)
    for variant in universe.all_variants():
        for field, entries in variant.relations.items():
            variant.relations[field] = reduce_field(entries, universe.architectures)
    universe.archive = read_variants(universe, paragraph, "Archive")


def read_source_item(universe, paragraph):
    """The build relations of a recipe's source, and the texts of their fields."""
    items = read_field(required(paragraph, "Source"), PROVIDE)
    about = item_text(paragraph, "Source", 0, items[0][0]) if items else None
    facts = item_facts(paragraph, "Source", 0) if items else {}
    if len(items) != 1 or items[0][0].version is None or items[0][0].qualifier is not None:
        raise Fault(206, about=about, facts=facts)
    [[item]] = items
    for version, relations, fields in universe.sources.get(item.name, []):
        if version.compare(item.version) == 0:
            return relations, fields
    raise Fault(206, about=about, facts=facts)


def read_outputs(universe, paragraph):
    value = paragraph.get("Outputs")
    if value is None or not read_field(value, PROVIDE):
        raise Fault(208)
    outputs = read_variants(universe, paragraph, "Outputs")
    for number, variant in enumerate(outputs):
        if variant in universe.published or variant in universe.archive:
            [item] = read_field(value, PROVIDE)[number]
            about, facts = item_text(paragraph, "Outputs", number, item), item_facts(paragraph, "Outputs", number)
            raise Fault(207, about=about, facts=facts)
    universe.published |= set(outputs)
    return outputs


def read_recipe(universe, paragraph):
    name = read_new_name(universe, paragraph, "Recipe")
    relations, fields = read_source_item(universe, paragraph)
    mode = paragraph.get("Mode")
    mode = "full" if mode is None else mode
    if mode not in MODES:
        raise Fault(202)
    profiles = words(paragraph.get("Profiles") or "", 131)
    steps = read_number(required(paragraph, "Steps"), LARGEST)
    scratch = paragraph.get("Scratch")
    scratch = read_number("0" if scratch is None else scratch, LARGEST)
    outputs = read_outputs(universe, paragraph)
    needs, clashes = (
        [
            entry
            for part in MODES[mode]
            for entry in reduce_field(relations[field + part], universe.architectures, profiles)
        ]
        for field in ("Build-Depends", "Build-Conflicts")
    )
    written = [
        f"{field}: {' '.join(text.split())}"
        for field in ("Build-Depends" + part for part in MODES[mode])
        for text, entry in zip(filter(str.strip, fields[field].split(",")), relations[field])
        if reduce_field([entry], universe.architectures, profiles)
    ]
    [[source]] = read_field(required(paragraph, "Source"), PROVIDE)
    told = [source.name, source.version.text, mode, str(steps), str(scratch), *profiles]
    universe.recipes[name] = Recipe(name, steps, scratch, needs, clashes, outputs, written, told)
    universe.build_entries += len(needs) + len(clashes)
    if len(universe.recipes) > RECIPES:
        raise Fault(210, about="over the limit of 1,024 recipes")
    if universe.build_entries > ENTRIES:
        raise Fault(210, about="over the limit of 65,536 needs and clashes of all recipes")


def read_chroot(universe, paragraph):
    name = read_new_name(universe, paragraph, "Chroot")
    capacity = read_number(required(paragraph, "Capacity"), 999_999_999_999_999)
    packages = read_variants(universe, paragraph, "Packages")
    if not is_settled(packages):
        about, facts = unsettled(paragraph, packages)
        raise Fault(209, about=about, facts=facts)
    if sum(variant.size for variant in packages) > capacity:
        line = paragraph.item_line("Capacity", 0)
        raise Fault(209, about=f"farm line {line}: the packages take more disk space than this")
    universe.chroots[name] = Chroot(name, capacity, packages)
    if len(universe.chroots) > CHROOTS:
        raise Fault(210, about="over the limit of 64 base chroots")


def is_settled(packages):
    """One variant of each name, every dependency met, no conflict, no break."""
    if len({variant.name for variant in packages}) < len(packages):
        return False
    needs = [entry for variant in packages for entry in variant.needs()]
    if not all(any(variant.satisfies(entry) for variant in packages) for entry in needs):
        return False
    return not any(one.conflicts(other) or one.breaks(other) for one in packages for other in packages)


def unsettled(paragraph, packages):
    """The first member of a base chroot that keeps it from being settled, and why: as words and as data; None of one that
    is settled."""
    items = [item for [item] in read_field(paragraph.get("Packages"), PROVIDE)]

    def at(number, text):
        return f"{item_text(paragraph, 'Packages', number, items[number])} {text}", item_facts(paragraph, "Packages", number)

    for number, variant in enumerate(packages):
        if any(variant.name == other.name for other in packages[number + 1:]):
            return at(number, "has another version behind it")
    for number, variant in enumerate(packages):
        for field in ("Depends", "Pre-Depends"):
            for entry in variant.relations[field]:
                if not any(other.satisfies(entry) for other in packages):
                    return at(number, f"{field}: {' | '.join(map(str, entry))}")
    for number, variant in enumerate(packages):
        for place, other in enumerate(packages):
            entries = variant.relations["Conflicts"] + variant.relations["Breaks"]
            if variant.name != other.name and any(other.satisfies(entry) for entry in entries):
                return at(number, f"excludes {items[place]}")
    return None
