"""Control files: paragraphs, relations, what a farm declares of its recipes, and names of two architectures."""

import os
import re

from system import Failed

VARIANT = re.compile(r"([a-z0-9][a-z0-9+.-]*)\s*\(\s*=\s*([^)\s]+)\s*\)")


def paragraphs(text):
    """The paragraphs of a control file, each as its fields by lower-case name."""
    fields, name = {}, None
    for line in text.split("\n"):
        if not line.strip():
            if fields:
                yield fields
            fields, name = {}, None
        elif line[0] in " \t":
            fields[name] += "\n" + line.strip()
        elif not line.startswith("#"):
            name, value = line.split(":", 1)
            name = name.lower()
            fields[name] = value.strip()
    if fields:
        yield fields


def read_text(path):
    with open(path, encoding="utf-8", errors="surrogateescape") as file:
        return file.read()


def one_line(value):
    return re.sub(r"\s*\n\s*", " ", value).strip()


def entries(value):
    """The entries of a relation field, each with its blanks in one form."""
    words = (re.sub(r"\s+", "", entry) for entry in value.split(","))
    spaced = (re.sub(r"\(([<=>]*)", r" (\1 ", entry).replace("|", " | ") for entry in words if entry)
    return list(dict.fromkeys(spaced))


def shown(variant):
    return f"{variant[0]} (= {variant[1]})"


def declared_packages(folder):
    """The paragraphs of the packages text of a folder, by name and version."""
    found = paragraphs(read_text(os.path.join(folder, "packages")))
    return {(fields["package"], fields["version"]): fields for fields in found}


class Sides:
    """The names in a farm of two architectures, told as `BUILD,HOST`: NAME.HOST is the package or the source NAME of the host
    architecture, any other name is one of the build architecture or of `all`. Told as nothing, all names are as they stand."""

    def __init__(self, architectures=""):
        words = architectures.split(",")
        if architectures and (len(words) != 2 or "" in words):
            raise Failed(f"architectures {architectures}: expected BUILD,HOST")
        self.build, self.host = words if architectures else ("", "")

    def is_of_host(self, name):
        return self.host != "" and name.endswith("." + self.host)

    def stem(self, name):
        """The name without its architecture, as sources have it."""
        return name.removesuffix("." + self.host) if self.host else name

    def real(self, name):
        """What apt and dpkg call it: libc6.riscv64 is libc6:riscv64."""
        return f"{self.stem(name)}:{self.host}" if self.is_of_host(name) else name

    def name(self, package, architecture):
        """What the farm calls a package of an architecture."""
        return f"{package}.{self.host}" if self.host and architecture == self.host else package


class Farm:
    """What the texts of a folder declare."""

    def __init__(self, folder):
        self.folder = folder
        self.first, *rest = paragraphs(read_text(os.path.join(folder, "farm")))
        self.recipes = {fields["recipe"]: fields for fields in rest if "recipe" in fields}
        self.chroots = [fields for fields in rest if "recipe" not in fields]
        self.architecture = self.first["architecture-names"].split()[0]

    def packages(self):
        return declared_packages(self.folder)

    def beginning(self):
        """The variants that are there at the beginning: those of the archive, then those of the chroots alone."""
        fields = [self.first.get("archive", ""), *(one.get("packages", "") for one in self.chroots)]
        return list(dict.fromkeys(variant for value in fields for variant in VARIANT.findall(value)))

    def outputs(self, recipe):
        return VARIANT.findall(self.recipes[recipe]["outputs"])

    def build_words(self, recipe):
        """The words of a request to build it."""
        fields = self.recipes[recipe]
        (source, version), = VARIANT.findall(fields["source"])
        outputs = [word for variant in self.outputs(recipe) for word in variant]
        return ["build", recipe, source, version, fields.get("mode", "full"), str(int(fields["steps"])),
                str(int(fields.get("scratch", "0"))), *fields.get("profiles", "").split(), ",", *outputs]


def changelog_version(version, outputs):
    """The version that a changelog entry has to put above the source's own, so that the build gives these outputs, or None.
    Packages that have versions of their own get the same `+bN` behind them."""
    for _, given in outputs:
        if given.startswith((version + "+", version + "~")):
            return given
    marks = {re.sub(r".*?(\+b[0-9]+)?$", r"\1", given, flags=re.DOTALL) for _, given in outputs}
    mark = marks.pop() if len(marks) == 1 else ""
    return version + mark if mark and not version.endswith(mark) else None
