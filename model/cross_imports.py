"""The texts of a farm of two architectures: an import of a wish that has `Build-Architecture`."""

from architectures import architecture_names
from crosses import CLASHES, NEEDS, Package, Sides, is_architecture, needs, source_text
from imports import Import, Refused, texts_of
from indexes import PackagesIndex, SourceParagraph, SourcesIndex, Unread, cut_index, highest_first, leading_name, rank, told
from relations import NEED, read_field, stays
from texts import BLANKS, Fault, each_paragraph, lines, paragraphs, pieces
from universe import MODES, Variant, read_variant
from versions import Version, by_order
from wishes import HEAD, RECIPE, Wish

VALUES = ("no", "same", "foreign", "allowed")


def is_cross(text):
    """Whether a wish is for two architectures."""
    try:
        found = paragraphs(text, "wish")
    except Fault:
        return False
    return bool(found) and found[0].get("Build-Architecture") is not None


def judge_names(sides, names):
    """Refuses a name that has the form of one that is made."""
    for name in names:
        if sides.is_taken(name):
            raise Fault(707, about=f"{name} has the form of an encoded name")


def names_in(relations):
    return (it.name for entries in relations.values() for entry in entries for it in entry)


class CrossWish(Wish):
    """A wish for two architectures. What is asked of packages is asked by one of the build architecture. Nothing is chosen
    for it, and no dependency is dropped."""

    head_fields = HEAD - {"targets", "stages", "finish"} | {"build-architecture", "build-essential"}
    recipe_fields = RECIPE - {"drops"} | {"host-architecture"}
    choice_fields = ()

    def __init__(self, text):
        self.asked, self.line = [], 0
        super().__init__(text)

    def read(self, paragraph, place):
        self.line = paragraph.line
        super().read(paragraph, place)

    def read_head(self, paragraph):
        super().read_head(paragraph)
        host, build = self.architectures[0], pieces(paragraph.get("Build-Architecture"))
        if not is_architecture(host):
            raise Fault(202, about=f"{host} is no architecture")
        if build == [host] or len(build) != 1 or not is_architecture(build[0]):
            raise Fault(202, about="Build-Architecture is another one than the first of Architecture-Names")
        self.sides = Sides(build[0], host)
        if paragraph.get("Profiles") is None:
            self.profiles = ["cross", "nocheck"]
        self.archive = None if self.archive is None else self.seen(self.archive)
        essential = paragraph.get("Build-Essential")
        essential = f"build-essential, crossbuild-essential-{host}" if essential is None else essential
        self.essential = self.seen(read_field(essential, NEED))

    def read_targets(self, paragraph):
        self.targets, self.stages, self.finish, self.head_line = None, [], None, paragraph.line

    def read_every_build(self, paragraph):
        raise Fault(121)

    def seen(self, entries):
        """Entries of the wish in names of one architecture."""
        self.asked += [(self.line, it) for entry in entries for it in entry]
        judge_names(self.sides, (it.name for entry in entries for it in entry))
        return needs(self.sides, self.sides.build, entries, True)

    def read_entries(self, packages):
        return self.essential if packages is None else self.seen(read_field(packages, NEED))

    def read_recipe(self, paragraph):
        recipe, sides = super().read_recipe(paragraph), self.sides
        recipe.drops = []
        side, mode = paragraph.get("Host-Architecture"), paragraph.get("Mode")
        recipe.side = sides.host if side is None else side
        if recipe.side not in sides.both():
            raise Fault(202, about=f"no such architecture here: {recipe.side}")
        if recipe.side == sides.host and mode not in (None, "arch"):
            raise Fault(202, about="a cross build has mode arch")
        judge_names(sides, [recipe.source, *(recipe.outputs or [])])
        recipe.mode = "arch" if recipe.side == sides.host else recipe.mode
        if recipe.side == sides.build and paragraph.get("Profiles") is None:
            recipe.profiles = []
        if recipe.side == sides.host and "cross" not in recipe.profiles:
            self.notes.append(f"wish line {paragraph.line}: the profiles lack cross")
        recipe.given_source, recipe.source = recipe.source, sides.name(recipe.source, recipe.side)
        recipe.source_text = recipe.source + recipe.source_text.removeprefix(recipe.given_source)
        if recipe.outputs is not None:
            recipe.outputs = [sides.name(name, recipe.side) for name in recipe.outputs]
        return recipe


class Candidate(Variant):
    """A package that an index has, under its name among those of two architectures. Its clashes are told by the package: they
    depend on what else there is, and nothing is chosen by them."""

    def __init__(self, package):
        made = {"Conflicts": [], "Breaks": [], "Provides": package.provided()}
        made |= {field: needs(package.sides, package.side, package.relations[field]) for field in NEEDS}
        super().__init__(package.encoded_name(), package.version, package.size, package.is_essential, made)
        self.package, self.source_version, self.architecture = package, package.source_version, None
        self.source = package.sides.name(package.source, package.side)
        self.rank, self.order = rank(package.paragraph), self.name

    def __str__(self):
        return f"{self.name} (= {self.version.text})"


class CrossIndex(PackagesIndex):
    """Paragraphs of Packages indexes of two architectures, under their names among both. `passed` counts those of others."""

    def __init__(self, files, sides, is_archive):
        self.sides, self.is_archive, self.passed = sides, is_archive, 0
        super().__init__(files, None)

    def add(self, unread):
        try:
            self.judge(unread)
        except Fault as fault:
            raise Fault(told(fault.code), unread.paragraph.line, unread.file, fault.about) from None

    def judge(self, unread):
        """Adds a paragraph of either architecture; refuses one that cannot be read, or that has a name that is taken."""
        get = unread.paragraph.get
        name, architecture, value = get("Package"), get("Architecture"), get("Multi-Arch")
        if name is None:
            return
        items = [leading_name(item.lstrip(BLANKS)) for item in (get("Provides") or "").split(",")]
        judge_names(self.sides, [name, leading_name(get("Source") or ""), *items])
        if architecture is None:
            raise Fault(201, about=f"{name} has no Architecture")
        if architecture not in ("all", *self.sides.both()):
            self.passed += 1
            return
        if value not in (None, *VALUES):
            raise Fault(202, about=f"{name} has Multi-Arch: {value}")
        if value == "same" and architecture == "all":
            raise Fault(202, about=f"{name} has Multi-Arch: same and Architecture: all")
        package = Package(self.sides, unread.paragraph, self.is_archive)
        judge_names(self.sides, names_in(package.relations))
        self.enter(unread, package)

    def enter(self, unread, package):
        sides, own = self.sides, package.encoded_name()
        self.count += 1
        unread.place = self.count
        self.unread.setdefault(own, []).append(unread)
        for [item] in package.provided():
            self.provided.setdefault(item.name, {})[own] = None
        self.of_source.setdefault(sides.name(package.source, package.side), {})[own] = None
        if package.is_essential and not (self.is_archive and package.side == sides.host):
            self.essential.add(own)

    def candidate(self, unread):
        found = Candidate(Package(self.sides, unread.paragraph, self.is_archive))
        found.package.file = unread.file
        return found


class CrossSources(SourcesIndex):
    """Paragraphs of Sources indexes that a wish names, one for each side that they are built for."""

    def __init__(self, files, wish):
        self.unread, self.read, self.unreadable = {}, {}, []
        sides, self.names = wish.sides, architecture_names(wish.sides.build)
        wanted = {(it.given_source, it.side) for it in wish.recipes}
        for file, text in files:
            for unread in cut_index(text, file):
                name = unread.paragraph.get("Package")
                name = unread.paragraph.get("Source") if name is None else name
                try:
                    judge_names(sides, [] if name is None else [name])
                    for side in sides.both():
                        if (name, side) in wanted:
                            self.read.setdefault(sides.name(name, side), []).append(self.source(unread, side, wish))
                except Fault as fault:
                    raise Fault(told(fault.code), unread.paragraph.line, file, fault.about) from None
        self.read = {name: highest_first(found) for name, found in self.read.items()}

    def source(self, unread, side, wish):
        """The source for a side. `given` is it as it stands in the index."""
        given = SourceParagraph(unread)
        judge_names(wish.sides, names_in(given.relations))
        text = source_text(wish.sides, side, given, wish.essential, self.names)
        [paragraph] = each_paragraph(lines(text), unread.file)
        made = SourceParagraph(Unread(paragraph, text, unread.file))
        made.given, made.side, made.line, made.file = given, side, unread.paragraph.line, unread.file
        return made


class CrossImport(Import):
    """What is taken for a wish for two architectures."""

    def __init__(self, wish, archive, target, sources):
        super().__init__(wish, archive, target, sources)
        found = [it.package for it in self.begin.members]
        found += [it for build in self.builds for it in self.outputs_of(build)]
        self.members = sorted(found, key=lambda it: (it.encoded_name(), by_order(it.version)))
        self.judge_clear()
        self.written = [(it.encoded_name(), it.version, it.text(self.named)) for it in self.members]

    def outputs_of(self, build):
        """The packages that a build gives, in the versions that it gives."""
        sisters = {it.package.name: (it.version.text, build.version_of(it)) for it in build.outputs}
        for it in build.outputs:
            old, new = sisters[it.package.name]
            made = it.package if old == new else it.package.again(Version(new), sisters, build.stem is not None)
            made.file = it.package.file
            yield made

    def named(self, name):
        """What is taken that is or provides a name."""
        return [it for it in self.members if any(one.name == name for one in it.offers())]

    def packages(self):
        return self.written

    def entries(self):
        """How many relation entries the packages have, as they are written."""
        found = (read_variant(it) for _, _, text in self.written for it in each_paragraph(lines(text), "packages"))
        return sum(len(entries) for it in found for entries in it.relations.values())

    def qualified(self):
        """What is asked with a qualifier that names an architecture: file and line, who asks, and the alternative."""
        own = self.wish.sides.both()
        yield from (("wish", line, "wish", it) for line, it in self.wish.asked if it.qualifier in own)
        for build in self.builds:
            source = build.source
            for it in self.build_relations(build):
                if it.qualifier in ("native", *own):
                    yield source.file, source.line, f"source {source.given.name}", it
        for it, asked in self.relations_of_members((*NEEDS, *CLASHES)):
            if asked.qualifier in ("native", *own):
                yield it.file, it.paragraph.line, str(it), asked

    def relations_of_members(self, fields):
        return ((it, one) for it in self.members for field in fields for entry in it.relations[field] for one in entry)

    def build_relations(self, build):
        """The build relations of a recipe as the index has them, without those that do not hold."""
        names = self.architectures if build.wish.side == self.wish.sides.host else self.sources.names
        fields = (kind + part for kind in ("Build-Depends", "Build-Conflicts") for part in MODES[build.wish.mode])
        found = (it for field in fields for entry in build.source.given.relations[field] for it in entry)
        return [it for it in found if stays(it, names, build.wish.profiles)]

    def judge_clear(self):
        """Refuses what is asked of one architecture and would be met by what is foreign on the other one, and `:native` where
        what is foreign would meet it: dpkg takes neither. Refuses a clash with what another package would be taken for."""
        for file, line, who, asked in self.qualified():
            it = self.foreign_for(asked)
            if it is not None:
                notes = f"  {who}: {asked}, and {it} is Multi-Arch: foreign: dpkg does not take it"
                raise Refused(f"refused 707 {file} line {line}", notes)
        for it, asked in self.relations_of_members(CLASHES):
            for hit, other in self.mistaken(it, asked):
                notes = f"  {it}: {asked}, which {hit} is, and {other} provides {hit}"
                raise Refused(f"refused 707 {it.file} line {it.paragraph.line}", notes)

    def mistaken(self, package, asked):
        """What a clash hits instead of the package's own name, with what would be taken for it and is not hit."""
        hits = package.hit_instead(asked, self.named)
        for other in self.members if hits else ():
            if other.name == package.name or not other.is_hit(asked):
                yield from ((hit, other) for hit in hits if other.is_taken_for(hit))

    def foreign_for(self, asked):
        sides = self.wish.sides
        for package in self.members:
            for it in package.offers():
                is_of_other = it.side != asked.qualifier and sides.serves_both(it.side)
                counts = it.side == sides.build if asked.qualifier == "native" else is_of_other
                if it.value == "foreign" and counts and it.fits(asked):
                    return package
        return None

    def skews(self):
        """Notes on what is `same`: packages of the host that no version of the build architecture can be together with."""
        sides = self.wish.sides
        for it in sorted(self.members, key=lambda it: (it.name, by_order(it.version))):
            others = [one for one in self.members if (one.name, one.side, one.value) == (it.name, sides.build, "same")]
            if it.side == sides.host and it.value == "same" and others:
                if not any(it.version.compare(one.version) == 0 for one in others):
                    yield skew(max(others, key=lambda one: by_order(one.version)), it)

    def notes(self, universe):
        yield from super().notes(universe)
        yield from dict.fromkeys(self.skews())
        indexes = [self.archive, self.target]
        if passed := sum(it.passed for it in indexes):
            yield f"{passed} paragraphs of neither architecture are passed over"


def skew(one, other):
    """What is said of two packages that are `same`, of different versions."""
    older = one if one.version.compare(other.version) < 0 else other
    source = one.sides.name(older.source, older.side)
    excluded = "of different versions they exclude each other"
    return f"{one} and {other} are Multi-Arch: same: {excluded}; source {source} is to be brought up"


def cross_texts(wish_text, archive, packages, sources):
    """The three texts, and the lines that tell of them; Refused, or Fault. The indexes are pairs of a name and a text."""
    try:
        wish = CrossWish(wish_text)
        target = CrossIndex(packages, wish.sides, False)
        own = CrossIndex(archive or packages, wish.sides, True)
        own.passed = own.passed if archive else 0
        found = CrossSources(sources, wish)
    except Fault as fault:
        notes = [] if fault.about is None else [f"  {fault.about}"]
        raise Refused(f"refused {fault.code} {fault.file} line {fault.line}", *notes) from None
    return texts_of(CrossImport(wish, own, target, found))
