"""Two architectures in one universe of names.

A cross build is made on a build architecture B for a host architecture H, in a chroot that holds packages of both. The
Multi-Arch rules say which package meets which need. Here they become names, so that the rules of a farm say it:

    NAME            the package NAME of B, or of `all`
    NAME.H          the package NAME of H
    NAME.any        what `NAME:any` asks for: packages that are Multi-Arch: allowed provide it
    NAME.any.H      the same for packages of H alone, since programs of H do not run on B
    NAME.one        either of the two packages NAME, under its version: both provide it, and nobody else
"""

from typing import NamedTuple

from indexes import read_given_source
from relations import QUALIFIER, Alternative, stays
from universe import BUILD_RELATIONS, Variant, read_variant
from versions import Version

ANY, ONE = ".any", ".one"
NEEDS, CLASHES = ("Pre-Depends", "Depends"), ("Conflicts", "Breaks")
# what is written of a package and of a source as it stands
PACKAGE_FIELDS = {"installed-size": "Installed-Size", "priority": "Priority", "essential": "Essential"}
SOURCE_FIELDS = {"version": "Version", "files": "Files", "checksums-sha256": "Checksums-Sha256"}
BUILD_FIELDS = {field.lower(): field for field, _ in BUILD_RELATIONS}


def is_architecture(word):
    """Whether a word can be the name of an architecture, and the end of a name."""
    return set(word) <= QUALIFIER and word not in ("all", "any", "native", "one")


class Sides:
    """The two architectures, and their names. `host_runs` says whether programs of H run on B; it serves for comparing with
    tools that take it so."""

    def __init__(self, build, host, host_runs=False):
        self.build, self.host, self.host_runs = build, host, host_runs

    def both(self):
        return self.build, self.host

    def name(self, name, side):
        """The name of a package of a side."""
        return name if side == self.build else f"{name}.{self.host}"

    def other(self, side):
        return self.host if side == self.build else self.build

    def serves_both(self, side):
        """Whether what is foreign or allowed on this side is that for the other one too."""
        return side == self.build or self.host_runs

    def any_name(self, name, side):
        """What an allowed package of a side provides."""
        return name + ANY if self.serves_both(side) else self.name(name + ANY, side)

    def is_taken(self, name):
        """Whether a name has the form of one that is made here."""
        return name.endswith((ANY, ONE, f".{self.host}"))


def under(alternative, name, qualifier=None):
    """An alternative under another name."""
    copy = Alternative(name)
    copy.qualifier, copy.operator, copy.version = qualifier, alternative.operator, alternative.version
    copy.architectures, copy.profiles = alternative.architectures, alternative.profiles
    return copy


def related(name, operator, version):
    found = Alternative(name)
    found.operator, found.version = operator, version
    return found


def need(sides, side, alternative, is_build=False):
    """What meets a need of a package of a side, or of a build for a side, which knows `:native` too."""
    name, qualifier = alternative.name, alternative.qualifier
    if qualifier is None:
        return [under(alternative, sides.name(name, side))]
    if qualifier == "any":
        names = [name + ANY, sides.any_name(name, side)]
        return [under(alternative, it) for it in dict.fromkeys(names)]
    if qualifier == "native" and is_build:
        return [under(alternative, name)]
    if qualifier in sides.both():
        return [under(alternative, sides.name(name, qualifier))]
    return [under(alternative, name, f"no-{qualifier}")]  # nothing meets it


def needs(sides, side, entries, is_build=False):
    return [[one for it in entry for one in need(sides, side, it, is_build)] for entry in entries]


def places(sides, alternative):
    """The sides of which a clash speaks: both, or that of its qualifier."""
    if alternative.qualifier in (None, "any"):
        return sides.both()
    return [side for side in sides.both() if side == alternative.qualifier]


def clash(sides, alternative):
    return [[under(alternative, sides.name(alternative.name, side))] for side in places(sides, alternative)]


def build_clash(sides, alternative):
    return [[under(alternative, alternative.name)]] if alternative.qualifier == "native" else clash(sides, alternative)


class Offer(NamedTuple):
    """A name that a package has or provides, its version or None, the side that it is of, and the value by which it counts."""

    name: str
    version: Version | None
    side: str
    value: str

    def fits(self, alternative):
        """Whether it has the name that an alternative asks for, and a version in its relation."""
        is_in = alternative.operator is None or self.version is not None and alternative.in_relation(self.version)
        return self.name == alternative.name and is_in


def further(sides, offer):
    """The names by which an offer counts beside that of its side."""
    if offer.value == "foreign" and sides.serves_both(offer.side):
        return [sides.name(offer.name, sides.other(offer.side))]
    return [sides.any_name(offer.name, offer.side)] if offer.value == "allowed" else []


def field_text(name, entries):
    """The row of a relation field, or None where it has no entry. No entry stands twice."""
    written = [" | ".join(map(spelled, entry)) for entry in entries]
    return f"{name}: {', '.join(dict.fromkeys(written))}" if written else None


def spelled(alternative):
    """An alternative with its restrictions."""
    lists = [alternative.architectures] if alternative.architectures is not None else []
    restrictions = [f" [{listed(items)}]" for items in lists] + [f" <{listed(items)}>" for items in alternative.profiles]
    return str(alternative) + "".join(restrictions)


def listed(items):
    return " ".join(f"!{word}" if negated else word for word, negated in items)


class Package(Variant):
    """A package of one of the two architectures, as its paragraph says. `value` is that of Multi-Arch."""

    def __init__(self, sides, paragraph, is_archive):
        variant = read_variant(paragraph)
        super().__init__(variant.name, variant.version, variant.size, variant.is_essential, variant.relations)
        architecture, value = paragraph.get("Architecture"), paragraph.get("Multi-Arch")
        self.sides, self.paragraph, self.is_archive = sides, paragraph, is_archive
        self.side = sides.build if architecture == "all" else architecture
        self.value = "no" if value is None else value
        self.source, self.source_version = read_given_source(paragraph, variant)

    def __str__(self):
        return f"{self.encoded_name()} (= {self.version.text})"

    def encoded_name(self):
        return self.sides.name(self.name, self.side)

    def again(self, version, sisters, is_any_operator):
        """The package in another version. `sisters` maps each name of its build to the version in the index and to that which
        the build gives, which then stands in relations of `=`, or of any operator, to it."""
        copy = Package(self.sides, self.paragraph, self.is_archive)
        copy.version = version
        for it in (it for entries in copy.relations.values() for entry in entries for it in entry):
            old, new = sisters.get(it.name, (None, None))
            is_of_build = it.qualifier in (None, "any", self.side) and it.version is not None and it.version.text == old
            if is_of_build and (it.operator == "=" or is_any_operator):
                it.version = Version(new)
        return copy

    def offers(self):
        """The package itself, and what it provides: as it counts itself, or with a qualifier of that side alone."""
        yield Offer(self.name, self.version, self.side, self.value)
        for [it] in self.relations["Provides"]:
            if it.qualifier is None:
                yield Offer(it.name, it.version, self.side, self.value)
            elif it.qualifier in self.sides.both():
                yield Offer(it.name, it.version, it.qualifier, "no")

    def is_hit(self, alternative):
        """Whether a clash hits it."""
        return any(it.fits(alternative) and it.side in places(self.sides, alternative) for it in self.offers())

    def hits_own_name(self, alternative, named):
        """Whether a clash hits the package itself, or that of its name on the other side."""
        sisters = [it for it in named(self.name) if it.name == self.name and it.side != self.side]
        return any(it.is_hit(alternative) for it in [self, *sisters])

    def hit_instead(self, alternative, named):
        """What is `same` has no clash with its own name (dpkg: the same set). Where a clash hits that, it is one with each
        other package that it hits: these. `named` gives the packages of the farm that are or provide a name."""
        if self.value != "same" or not self.hits_own_name(alternative, named):
            return []
        return [it for it in named(alternative.name) if it.name != self.name and it.is_hit(alternative)]

    def clashes(self, field, named):
        """The clashes of a field."""
        found = []
        for [it] in self.relations[field]:
            if self.value == "same" and self.hits_own_name(it, named):
                hit = self.hit_instead(it, named)
                found += [[related(one.encoded_name(), "=", one.version)] for one in hit]
            else:
                found += clash(self.sides, it)
        return found

    def is_taken_for(self, other):
        """Whether it provides the name of another package in that version."""
        found = (it for [it] in self.provided() if it.name == other.encoded_name() and it.version is not None)
        return any(it.version.compare(other.version) == 0 for it in found)

    def provided(self):
        """What it provides: its items, its name where it counts by another one, and that it is one of the two."""
        sides, (own, *items) = self.sides, self.offers()
        found = [(name, it) for it in items for name in [sides.name(it.name, it.side), *further(sides, it)]]
        found += [(name, own) for name in [*further(sides, own), self.name + ONE]]
        return [[related(name, "=" if it.version else None, it.version)] for name, it in found]

    def encoded(self, named):
        """The relations by field."""
        made = {field: needs(self.sides, self.side, self.relations[field]) for field in NEEDS}
        made |= {field: self.clashes(field, named) for field in CLASHES}
        if self.value == "same":
            made["Breaks"] += [[related(self.name + ONE, operator, self.version)] for operator in ("<<", ">>")]
        else:
            made["Conflicts"].append([Alternative(self.name + ONE)])
        return made | {"Provides": self.provided()}

    def kept(self, field):
        """The row of another field, or None where it is left out."""
        is_of_host = self.side == self.sides.host
        if field == "package":
            return f"Package: {self.encoded_name()}"
        if field == "version":
            return f"Version: {self.version.text}"
        if field == "source":
            version = f" ({self.source_version.text})" if "(" in self.paragraph.get(field) else ""
            return f"Source: {self.sides.name(self.source, self.side)}{version}"
        if field == "architecture":
            return f"Architecture: {self.side}" if is_of_host else None
        if field == "essential" and is_of_host and self.is_archive:
            return None
        return as_it_stands(self.paragraph, field, PACKAGE_FIELDS)

    def text(self, named):
        """The paragraph in names of one architecture: the fields in the order of the index, then the relations."""
        rows = [self.kept(field) for field in self.paragraph.fields]
        rows += [field_text(field, entries) for field, entries in self.encoded(named).items()]
        return "\n".join(row for row in rows if row is not None)


def as_it_stands(paragraph, field, names):
    """A field under its name, where it is one of these."""
    return f"{names[field]}:" + "\n".join(paragraph.fields[field]) if field in names else None


def without_brackets(entries, names):
    """What is left of build relations on an architecture, with the marks of profiles."""
    left = []
    for entry in entries:
        kept = [under(it, it.name, it.qualifier) for it in entry if is_for(it, names)]
        for it in kept:
            it.architectures = None
        left += [kept] if kept else []
    return left


def is_for(alternative, names):
    """Whether the list in brackets holds on an architecture of these names."""
    copy = under(alternative, alternative.name)
    copy.profiles = []
    return stays(copy, names, ())


def build_relations(sides, side, field, entries):
    if field.startswith("Build-Depends"):
        return needs(sides, side, entries, True)
    return [one for [it] in entries for one in build_clash(sides, it)]


def package_list(sides, side, text, names):
    """The rows of a Package-List: of a build for H all but those of `arch=all`, of one for B those that hold there, since the
    names of a farm are those of H alone."""
    rows = []
    for words in map(str.split, text.split("\n")):
        marks = [word for word in words if word.startswith("arch=")]
        at = marks[0][5:].split(",") if marks else ["any"]
        if side == sides.host and words and at != ["all"]:
            rows.append([sides.name(words[0], side), *words[1:]])
        elif side == sides.build and (at == ["all"] or any(place in names for place in at)):
            rows.append([word if word not in marks or at == ["all"] else "arch=any" for word in words])
    return "".join(["Package-List:", *("\n " + " ".join(words) for words in rows)])


def source_text(sides, side, source, ahead, names):
    """The paragraph of a source that is built for a side. `ahead` are the needs of each build for H, `names` those of B."""
    made = {field: build_relations(sides, side, field, of if side == sides.host else without_brackets(of, names))
            for field, of in source.relations.items()}
    made["Build-Depends"][:0] = ahead if side == sides.host else []
    rows, fields = [f"Package: {sides.name(source.name, side)}"], source.paragraph.fields
    for field in [*fields, *(["build-depends"] if "build-depends" not in fields else [])]:
        if field == "package-list":
            rows.append(package_list(sides, side, source.paragraph.get(field), names))
        elif field in BUILD_FIELDS:
            rows.append(field_text(BUILD_FIELDS[field], made[BUILD_FIELDS[field]]))
        else:
            rows.append(as_it_stands(source.paragraph, field, SOURCE_FIELDS))
    return "\n".join(row for row in rows if row is not None)
