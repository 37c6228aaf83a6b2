"""What builds of a recipe have in common: its source with its patch, the version of its outputs, and whether what came is what
the farm declares. The words of a build, in templates {build*}, are

    RECIPE SOURCE VERSION MODE PROFILES NAME=VERSION..      PROFILES are joined by commas; then what the farm declares

STATE/RUN/built/RECIPE/whole gets the packages with .buildinfo, .changes, .dsc and the patch, once all of it is right. In the mode
`built` nothing is built: what an earlier run of the chain has left there is taken.
"""

import argparse
import glob
import os
import shutil
from email.utils import formatdate

from control import Farm, Sides, changelog_version, declared_packages, entries, one_line, shown
from processes import output_of, run_inner
from state import State
from system import Failed, file_name, sync_files
from whole import make_whole

TYPES = {"full": "binary", "arch": "any", "indep": "all"}
PAPERS = ("*.buildinfo", "*.changes")
LEFT = ("*.deb", "*.udeb", "*.ddeb", *PAPERS)
RELATIONS = "Pre-Depends Depends Conflicts Breaks Provides"


class Build:
    """A build by the words of `parser`."""

    def __init__(self, words):
        self.state, self.texts, self.log = State(words.state, words.run), os.path.abspath(words.texts), words.log
        self.recipe, self.version, self.mode = words.recipe, words.version, words.mode
        self.sides = Sides(words.architectures)
        self.source, self.host = self.sides.stem(words.source), self.sides.host * self.sides.is_of_host(words.source)
        self.profiles = [name for name in words.profiles.split(",") if name]
        # by hand, or by a program whose requests do not name them, they are those of the farm text
        self.outputs = [tuple(word.split("=", 1)) for word in words.outputs] or Farm(self.texts).outputs(self.recipe)
        # the relations of a farm of two architectures are written otherwise than packages have them
        self.relations = words.relations.split() if not self.sides.host else []
        self.patch = os.path.join(self.texts, "patches", file_name(self.recipe) + ".patch")

    def entry(self):
        """The changelog entry that gives the outputs their versions, or nothing where the source's own does."""
        version = changelog_version(self.version, self.outputs)
        if version is None:
            return ""
        return (f"{self.source} ({version}) unstable; urgency=low, binary-only=yes\n\n  * Built anew; no source changes.\n\n"
                f" -- portfarm <nobody@localhost>  {formatdate(localtime=True)}\n")

    def environment(self):
        # these two profiles want the option of the same name (BuildProfileSpec)
        options = [name for name in ("nocheck", "nodoc") if name in self.profiles]
        return {**os.environ, "DEB_BUILD_OPTIONS": " ".join(options)}

    def fetch(self, folder):
        """The source by apt-get, which has to know a `deb-src` for it, and the patch, if there is one: the name of the .dsc."""
        os.makedirs(folder)
        run_inner(["apt-get", "source", "--download-only", "--", f"{self.source}={self.version}"], cwd=folder)
        found = glob.glob(os.path.join(glob.escape(folder), "*.dsc"))
        if len(found) != 1:
            raise Failed(f"{len(found)} .dsc files of {self.source} {self.version} came")
        return os.path.basename(found[0])

    def keep(self, folder, new, dsc):
        """Moves what a build left in `folder`, and from where its source was the .dsc."""
        for path in files_of(folder, LEFT):
            if os.path.dirname(path) != new:
                shutil.move(path, new)
        shutil.move(dsc, new)
        if os.path.exists(self.patch):
            shutil.copyfile(self.patch, os.path.join(new, "applied.patch"))

    def make(self, build):
        """Calls `build(new)`, and holds what it leaves there against what the farm declares."""
        def build_rightly(new):
            try:
                build(new)
            finally:
                self.keep_papers(new)
            self.need_as_declared(new, self.relations)
            sync_files(new)

        if self.mode == "built":
            # the relations may have been foretold when it was built
            self.need_as_declared(self.state.take_built(self.recipe), [])
        else:
            make_whole(self.state.place("built", self.recipe), build_rightly)

    def keep_papers(self, new):
        """Puts copies of .buildinfo and .changes beside the log of this try: the next one empties the folder."""
        if self.log:
            for path in files_of(new, PAPERS):
                shutil.copyfile(path, f"{self.log}.{os.path.basename(path)}")

    def need_as_declared(self, folder, relations):
        differences = compared(folder, self.outputs, declared_packages(self.texts), relations, self.sides)
        if differences:
            raise Failed(f"recipe {self.recipe} gave something else: {'; '.join(differences)}")


def files_of(folder, forms):
    """The files of these forms in a folder, but for links: a build may leave one to a file of this machine's."""
    paths = [path for form in forms for path in sorted(glob.glob(os.path.join(glob.escape(folder), form)))]
    return [path for path in paths if os.path.isfile(path) and not os.path.islink(path)]


def compared(folder, declared, packages, relations, sides):
    """What differs between the packages of a folder and what the farm declares of them, each in some words."""
    came, found = {}, []
    for path in files_of(folder, ["*.deb"]):
        form = "".join(f"${{{name}}}\n\n" for name in ("Package", "Architecture", "Version", *relations))
        name, architecture, version, *values = output_of(["dpkg-deb", "--show", f"--showformat={form}", path]).split("\n\n")
        came.setdefault(sides.name(name, architecture), {})[version] = values
    for name, version in declared:
        versions = came.get(name, {})
        if version not in versions:
            other = ", ".join(shown((name, it)) for it in versions) or "nothing of that name"
            found.append(f"declared {shown((name, version))}, came {other}")
            continue
        fields = packages.get((name, version), {})
        for relation, value in zip(relations, versions[version]):
            wanted, given = entries(one_line(fields.get(relation.lower(), ""))), entries(one_line(value))
            missing, more = [it for it in wanted if it not in given], [it for it in given if it not in wanted]
            if missing or more:
                found.append(f"{shown((name, version))} {relation}: declared {', '.join(missing) or 'nothing more'},"
                             f" came {', '.join(more) or 'nothing more'}")
    return found


def parser(about, *words):
    """The words that each command of a build takes."""
    found = argparse.ArgumentParser(description=about, formatter_class=argparse.RawDescriptionHelpFormatter)
    found.add_argument("--relations", default=RELATIONS,
                       help=f"the fields that have to be as declared, beside names and versions ({RELATIONS})")
    found.add_argument("--log", help="the file of this try's output: .buildinfo and .changes are kept beside it")
    found.add_argument("--architectures", default="", metavar="BUILD,HOST",
                       help="of a farm of two architectures: names that end in .HOST are of HOST, and relations are not compared")
    for word in ("state", "run", "texts", *words, "recipe", "source", "version"):
        found.add_argument(word)
    found.add_argument("mode", choices=[*TYPES, "built"])
    found.add_argument("profiles")
    found.add_argument("outputs", nargs="*")
    return found
