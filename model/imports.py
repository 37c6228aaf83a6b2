"""The texts of a farm, made of a wish without targets and of whole indexes."""

from import_faults import made_lines
from indexes import Pool
from near_names import near_text
from relations import NEED, Alternative, read_field, reduce_field
from texts import BLANKS, TEXT_LIMIT, Fault
from universe import CHROOTS, ENTRIES, LARGEST, MODES, NAMES, RECIPES, SOURCES, read_universe
from versions import Version, by_order

HEAD = "# made by portfarm import\n"
LIMITS = {
    "names": NAMES, "variants": None, "sources": SOURCES, "recipes": RECIPES, "base chroots": CHROOTS,
    "bytes of a text": TEXT_LIMIT, "relation entries": ENTRIES,
}
VERSIONED = ["pre-depends", "depends", "conflicts", "breaks", "provides"]
SHOWN = 10


class Refused(Exception):
    """The lines of a refusal."""

    def __init__(self, *lines):
        super().__init__(*lines)
        self.lines = list(lines)


def shown(entry):
    return " | ".join(map(str, entry))


def formula_holds(formula, profiles):
    """Whether `a+!b,c` of a Package-List holds under profiles, as `<a !b> <c>` does."""
    for terms in formula.split(","):
        if all((term.removeprefix("!") in profiles) != term.startswith("!") for term in terms.split("+")):
            return True
    return False


def is_given(words, architectures, profiles, mode):
    """Whether a line of a Package-List names a package that a build gives: its words."""
    if len(words) < 4 or words[1] != "deb":
        return False
    marks = {}
    for mark in words[4:]:
        key, sign, value = mark.partition("=")
        if sign:
            marks.setdefault(key, value)
    places = marks.get("arch", "any").split(",")
    is_for_all = places == ["all"]
    if mode == ("arch" if is_for_all else "indep"):
        return False
    if not is_for_all and not any(place in architectures for place in places):
        return False
    return "profile" not in marks or formula_holds(marks["profile"], profiles)


def listed(source, architectures, profiles, mode):
    """The names that a source's Package-List gives; None where it has none."""
    text = source.paragraph.get("Package-List")
    if text is None:
        return None
    rows = [row.split() for row in text.split("\n")]
    return [row[0] for row in rows if is_given(row, architectures, profiles, mode)]


def chosen_source(fitting, made):
    """Of the versions of a source the highest that the index has packages of, or else the highest: it, those packages by
    name, and the version of the source whose packages stand in for its own, or None."""
    for source in fitting:
        for version, here in made:
            if version.compare(source.version) == 0:
                return source, here, None
    version, here = made[0] if made else (None, {})
    return fitting[0], here, version.text if made else None


def is_dropped(entry, drops):
    """Whether nothing but packages of these names meets an entry."""
    return all(alternative.name in drops for alternative in entry)


def without(raw, drops):
    """A paragraph whose Depends and Pre-Depends have no entry that these names alone meet."""
    rows, fields = raw.split("\n"), []
    for row in rows:
        if row[0] in " \t" and fields:
            fields[-1].append(row)
        elif row[0] == "#" and fields:
            fields[-1].append(row)
        else:
            fields.append([row])
    return "\n".join(row for field in fields for row in without_entries(field, drops))


def without_entries(field, drops):
    """The lines of a field without these entries and its comments; none where no entry is left. A field that has no such entry
    stays as it stands."""
    name, _, first = field[0].partition(":")
    if name.lower() not in ("depends", "pre-depends"):
        return field
    items = "\n".join([first, *(row for row in field[1:] if row[0] != "#")]).split(",")
    kept = [item for item in items if item.strip(BLANKS) == "" or not is_dropped(read_field(item, NEED)[0], drops)]
    if len(kept) == len(items):
        return field
    value = ",".join(kept).rstrip(BLANKS)
    return [f"{name}:{value}"] if value else []


def cut_count(text):
    """What stands before `+bN` at the end of a version, and N, which is 0 where it has none."""
    stem, plus, count = text.rpartition("+b")
    is_count = plus and count and set(count) <= set("0123456789")
    return (stem, int(count)) if is_count else (text, 0)


class Build:
    """A recipe of the wish with its source and what it gives. `stem` is the version of the source whose packages stand in for
    those of the one that is built, where the index has none of that; `again` counts the builds of this version before."""

    def __init__(self, wish, architectures, index, sources):
        self.wish, self.name, self.again, self.stem, self.notes = wish, wish.name, 0, None, []
        fitting = [it for it in sources.versions(wish.source) if wish.version is None or wish.version.compare(it.version) == 0]
        if not fitting:
            raise Refused(f"refused 702 wish line {wish.line}", f"  no source {wish.source_text} in the Sources indexes")
        self.source, here, self.stem = chosen_source(fitting, index.made(wish.source))
        if self.stem is not None:
            self.notes.append(f"recipe {self.name}: its packages are those of source {self.source.name} (= {self.stem})")
        given = listed(self.source, architectures, wish.profiles, wish.mode)
        given = sorted(here) if given is None else given
        self.outputs = [here[name] for name in dict.fromkeys(self.chosen(given, here)) if name in here]
        if not self.outputs:
            raise Refused(f"refused 704 wish line {wish.line}", f"  {self.lack(architectures)}")
        relations = (self.source.relations["Build-Depends" + part] for part in MODES[wish.mode])
        self.needs = [entry for own in relations for entry in reduce_field(own, architectures, wish.profiles)]
        self.notes += [f"recipe {self.name}: {it} depends on {shown(entry)} no more" for it, entry in self.dropped()]

    def dropped(self):
        """What the wish says that outputs do not need: pairs of an output and an entry."""
        return [(it, entry) for it in self.outputs for entry in it.needs() if is_dropped(entry, self.wish.drops)]

    def needs_of(self, it):
        """What an output needs as this build gives it."""
        return [entry for entry in it.needs() if not is_dropped(entry, self.wish.drops)]

    def lack(self, architectures):
        """Why nothing is given."""
        profiles, mode = self.wish.profiles, self.wish.mode
        if listed(self.source, architectures, profiles, mode) != []:
            return f"the Packages indexes have nothing that recipe {self.name} gives"
        if not listed(self.source, architectures, profiles, "full"):
            return f"recipe {self.name} gives nothing: its source has no package for the architecture and the profiles"
        if mode == "arch":
            return f"recipe {self.name} gives nothing in mode arch: all that its source has here is of architecture all"
        return f"recipe {self.name} gives nothing in mode indep: its source has nothing of architecture all here"

    def chosen(self, given, here):
        for name in self.wish.outputs or []:
            if name not in given or name not in here:
                raise Refused(f"refused 703 wish line {self.wish.line}", f"  recipe {self.name} does not give {name}")
        return given if self.wish.outputs is None else self.wish.outputs

    def version_of(self, it):
        """The version under which the build gives a variant: that of the source that is built, where the variant is of
        another one, and as a further build of it, where it is one."""
        stem, count = cut_count(it.version.text)
        if self.stem == stem:
            if not self.again:
                return self.source.version.text
            stem, count = cut_count(self.source.version.text)
        elif not self.again:
            return it.version.text
        return f"{stem}+b{count + self.again}"

    def is_taken(self, taken):
        return any(taken.find(it.name, Version(self.version_of(it))) for it in self.outputs)

    def written(self, it):
        """The paragraph of an output: as it stands, or with its new version, and that version where it speaks of packages of
        the same build."""
        version = self.version_of(it)
        raw = without(it.raw, self.wish.drops) if self.wish.drops else it.raw
        if version == it.version.text:
            return raw
        sisters = {other.name: (other.version.text, self.version_of(other)) for other in self.outputs}
        rows, field = [], None
        for row in raw.split("\n"):
            if row[0] not in " \t#":
                field = row.partition(":")[0].lower()
            if field == "version":
                row = row.replace(it.version.text, version, 1) if row[0] != "#" else row
            elif field in VERSIONED and row[0] != "#":
                row = renamed(row, sisters, self.stem is not None)
            rows.append(row)
        return "\n".join(rows)

    def steps(self):
        return min(100 + self.source.kib(), LARGEST) if self.wish.steps is None else self.wish.steps

    def scratch(self):
        estimate = 16 * self.source.kib() + 2 * sum(it.size for it in self.outputs)
        return min(estimate, LARGEST) if self.wish.scratch is None else self.wish.scratch


def read_builds(wish, target, sources):
    """The builds of the wish's recipes, and the lines on those that cannot be."""
    found, lines = [], []
    for recipe in wish.recipes:
        try:
            found.append(Build(recipe, wish.architectures, target, sources))
        except Refused as refusal:
            hint = source_hint(recipe, target, sources) if refusal.lines[0].startswith("refused 702") else ""
            lines += [*refusal.lines[:-1], refusal.lines[-1] + hint]
    return found, lines


def source_hint(recipe, target, sources):
    """Names near that of a source that the indexes lack, and the source that may be meant."""
    names = {*sources.unread, *(name for name, found in sources.read.items() if found)}
    if recipe.source in names:
        return ""
    near = near_text([recipe.source], sorted(names), "-")
    begun = [name for name in names if recipe.source.startswith(name + "-")]
    package = next(iter(target.versions(recipe.source)), None)
    meant = package.source if package else max(begun, key=len, default=None)
    return near if meant is None else f"{near}; perhaps Source: {meant}"


def renamed(row, sisters, is_any_operator):
    """A line of a relation field with the new versions of its sisters: behind `=` alone, or behind each operator."""
    made, at = "", 0
    while (bracket := row.find("(", at)) >= 0 and (end := row.find(")", bracket)) >= 0:
        before, inside = row[at:bracket], row[bracket + 1 : end]
        name = before.replace(",", " ").replace("|", " ").split()[-1:]
        version = inside.strip(" \t<=>")
        operator = inside.strip(" \t").removesuffix(version).strip(" \t")
        old, new = sisters.get(name[0].partition(":")[0], (None, None)) if name else (None, None)
        if version == old and (operator == "=" or is_any_operator):
            inside = inside.replace(old, new, 1)
        made += f"{before}({inside})"
        at = end + 1
    return made + row[at:]


class Import:
    """What is taken of the indexes for a wish."""

    def __init__(self, wish, archive, target, sources):
        self.wish, self.archive, self.target = wish, archive, target
        self.architectures = wish.architectures
        self.builds, refused = read_builds(wish, target, sources)
        if refused:
            raise Refused(*refused)
        self.sources = sources
        self.given = Pool(it for build in self.builds for it in build.outputs)
        self.begin, self.asked = Pool(), set()
        self.chroots = [(it, self.chroot(it)) for it in wish.chroots]
        self.archive_field = [] if wish.archive is None else reduce_field(wish.archive, self.architectures)
        self.close([*self.archive_field], True)
        self.close([entry for build in self.builds for entry in build.needs], wish.archive is None)
        self.count_builds()

    def count_builds(self):
        """Where the archive or an earlier build has a version of what a build gives, the build gives further ones."""
        taken = Pool(self.begin.members)
        for build in self.builds:
            while build.is_taken(taken):
                build.again += 1
            for it in build.outputs:
                taken.add(Renumbered(it, Version(build.version_of(it))))

    def close(self, entries, from_archive):
        """Takes the best that meets each entry, and what that needs: of the archive's index where that is allowed, and of
        what the builds give. What is taken does not depend on the order of the entries."""
        seen = set()
        for entry in entries:  # grows while it is gone through
            if shown(entry) in seen:
                continue
            seen.add(shown(entry))
            there, given = self.archive.best(entry) if from_archive else None, self.given.best(entry)
            if there is not None:
                self.begin.add(there)
                self.asked.add(id(there))
                entries.extend(there.needs())
            if given is not None:
                self.asked.add(id(given))
                entries.extend(self.needs_as_given(given))

    def needs_as_given(self, it):
        """What an output needs, of each build that gives it."""
        if not any(build.wish.drops for build in self.builds):
            return it.needs()
        return [entry for build in self.builds if it in build.outputs for entry in build.needs_of(it)]

    def chroot(self, wished):
        """The variants of a base chroot, which the archive has too."""
        members = Pool()
        essential = [[Alternative(name)] for name in sorted(self.archive.essential)]
        entries = essential + reduce_field(wished.packages, self.architectures)
        for entry in entries:  # grows while it is gone through
            it = self.archive.best(entry)
            if it is None:
                line = f"  the archive's index has nothing that meets {shown(entry)}"
                raise Refused(f"refused 705 chroot {wished.name}", line)
            if members.find(it.name, it.version) is None:
                members.add(it)
                self.begin.add(it)
                entries.extend(it.needs())
        found = members.in_order()
        for one, other in zip(found, found[1:]):
            if one.name == other.name:
                raise Refused(f"refused 705 chroot {wished.name}", f"  two versions of {one.name} are wanted")
        return found

    def packages(self):
        """Name, version and paragraph of each variant, in order."""
        found = [(it.name, it.version, it.raw) for it in self.begin.members]
        found += [(it.name, Version(build.version_of(it)), build.written(it)) for build in self.builds for it in build.outputs]
        return sorted(found, key=lambda row: (row[0], by_order(row[1])))

    def chosen_sources(self):
        found = []
        for build in self.builds:
            if build.source not in found:
                found.append(build.source)
        return sorted(found, key=lambda it: (it.name, by_order(it.version)))

    def farm(self):
        """The farm text."""
        rows = [f"Architecture-Names: {' '.join(self.architectures)}", f"Archive: {items(map(str, self.begin.in_order()))}"]
        for build in self.builds:
            rows += ["", f"Recipe: {build.name}", f"Source: {build.source.name} (= {build.source.version.text})"]
            rows += [f"Mode: {build.wish.mode}"] if build.wish.mode != "full" else []
            rows += [f"Profiles: {' '.join(build.wish.profiles)}"] if build.wish.profiles else []
            outputs = items(f"{it.name} (= {build.version_of(it)})" for it in build.outputs)
            rows += [f"Steps: {build.steps()}", f"Scratch: {build.scratch()}", f"Outputs: {outputs}"]
        for wished, members in self.chroots:
            rows += ["", f"Chroot: {wished.name}", f"Capacity: {wished.capacity}", f"Packages: {items(map(str, members))}"]
        return "".join(f"{row}\n" for row in rows)

    def entries(self):
        """How many relation entries the packages have."""
        given = [it for build in self.builds for it in build.outputs]
        return sum(it.entries for it in [*self.begin.members, *given]) - sum(len(build.dropped()) for build in self.builds)

    def counts(self, packages, sources):
        rows = self.packages()
        return {
            "names": len({name for name, _, _ in rows}), "variants": len(rows), "sources": len(self.chosen_sources()),
            "recipes": len(self.builds), "base chroots": len(self.chroots), "bytes of a text": max(len(packages), len(sources)),
            "relation entries": self.entries(),
        }

    def wanted_outputs(self, universe):
        """The variants that builds give, and whose needs are wanted."""
        return [
            universe.find(it.name, Version(build.version_of(it)))
            for build in self.builds for it in build.outputs if id(it) in self.asked
        ]

    def needs(self, universe):
        """What is asked for, and by whom: what the archive was to hold, what recipes need, what is there at the beginning and
        what outputs that are wanted need."""
        yield from (("Archive", entry) for entry in self.archive_field)
        for recipe in universe.recipes.values():
            yield from ((f"recipe {recipe.name} Build-Depends", entry) for entry in recipe.needs)
        for asking in (universe.archive, self.wanted_outputs(universe)):
            for it in universe.all_variants():
                if it in asking:
                    yield from ((f"{it.name} (= {it.version.text})", entry) for entry in it.needs())

    def unmet(self, universe):
        """What is asked for and nothing in the farm meets, by its words, with who asks for it first."""
        there, unmet = Pool(universe.all_variants()), {}
        for who, entry in self.needs(universe):
            if shown(entry) not in unmet and not there.meets(entry):
                unmet[shown(entry)] = entry, who
        return unmet.values()

    def notes(self, universe):
        """What is odd: needs that nothing meets, and which source would give what meets them."""
        yield from self.wish.notes
        for build in self.builds:
            yield from build.notes
        for entry, who in self.unmet(universe):
            it = self.target.best(entry) or self.archive.best(entry)
            giver = "" if it is None else f"; source {it.source} gives {it}"
            yield f"{who}: {shown(entry)} is met by nothing{giver}"
        found = sorted(self.target.unreadable)
        found += sorted(self.archive.unreadable) if self.target is not self.archive else []
        found += sorted(self.sources.unreadable)
        if found:
            yield f"{len(found)} paragraphs that were looked at cannot be read and are passed over, first {found[0][1]}"
        if foreign := self.foreign():
            yield f"{len(foreign)} packages have an architecture that the wish does not name, first {foreign[0]}"

    def foreign(self):
        """The packages that are taken and of an architecture that the wish does not name."""
        found = [(it.name, it.version, it.architecture) for it in self.begin.members]
        found += [(it.name, Version(build.version_of(it)), it.architecture) for build in self.builds for it in build.outputs]
        rows = sorted(((name, by_order(version), version) for name, version, architecture in found
                       if architecture not in (None, "all", *self.architectures)), key=lambda row: row[:2])
        return [f"{name} (= {version.text})" for name, _, version in rows]

    def exact_notes(self):
        """What asks for exactly the version of a package of which a build gives a further one."""
        for build in self.builds:
            again = {it.name: it for it in build.outputs if self.version_is_further(build, it)}
            others = [it for other in self.builds if other.source.name != build.source.name for it in other.outputs]
            for one in [*self.begin.in_order(), *others] if again else ():
                for entry in one.needs() if one.name not in again else ():
                    for it in (again[its.name] for its in entry if its.operator == "=" and its.name in again):
                        if it.satisfies(entry):
                            new = f"{it.name} (= {build.version_of(it)})"
                            yield f"{one}: {shown(entry)} is not met by {new} of recipe {build.name}"

    def version_is_further(self, build, it):
        return build.again > 0 and build.version_of(it) != it.version.text

    def shares(self):
        """Of each build how many names it takes that no other build and no chroot takes, how many it takes, and its name."""
        base = {it.name for _, members in self.chroots for it in members}
        taken = [self.names_taken(build) for build in self.builds]
        count = {}
        for name in (name for names in taken for name in names):
            count[name] = count.get(name, 0) + 1
        owns = (sum(count[name] == 1 and name not in base for name in names) for names in taken)
        return sorted(zip(owns, map(len, taken), (build.name for build in self.builds)), reverse=True)

    def names_taken(self, build):
        names, todo, seen = {it.name for it in build.outputs}, list(build.needs), set()
        for entry in todo:  # grows while it is gone through
            if shown(entry) in seen:
                continue
            seen.add(shown(entry))
            for it in (self.archive.best(entry), self.given.best(entry)):
                if it is not None and (self.begin.find(it.name, it.version) or it in build.outputs):
                    names.add(it.name)
                    todo += it.needs()
        return names


class Renumbered:
    """A variant under another version, for a pool."""

    def __init__(self, it, version):
        self.name, self.version, self.relations = it.name, version, it.relations


def items(rows):
    return ",\n ".join(rows)


def check_limits(made, counts):
    over = [what for what, most in LIMITS.items() if most is not None and counts[what] > most]
    if over:
        rows = [f"  {what}: {counts[what]}, at most {LIMITS[what]}" for what in over]
        for own, whole, name in made.shares()[:SHOWN]:
            rows.append(f"  recipe {name} needs {whole} names, {own} that nothing else needs")
        raise Refused("refused 710 wish line 0", *rows)


def read_made(texts):
    """The universe of the texts that were made; Refused where they would be refused."""
    try:
        return read_universe(texts)
    except Fault as fault:
        raise Refused(f"refused {fault.code} {fault.file} line {fault.line}", *made_lines(fault, texts)) from None


def texts_of(made, is_chosen=False):
    """The texts of an import, and the lines that tell of them; Refused, or Fault."""
    packages = "".join(f"{raw}\n\n" for _, _, raw in made.packages())
    sources = "".join(f"{it.raw}\n\n" for it in made.chosen_sources())
    counts = made.counts(packages, sources)
    check_limits(made, counts)
    texts = {"packages": HEAD + packages, "sources": HEAD + sources, "farm": HEAD + made.farm()}
    universe = read_made(texts)
    limits = {what: "" if most is None else f" of {most}" for what, most in LIMITS.items()}
    told = [f"{what} {count}{limits[what]}" for what, count in counts.items()]
    return texts, [*told, *(f"note: {note}" for note in [*made.notes(universe), *(made.exact_notes() if is_chosen else ())])]
