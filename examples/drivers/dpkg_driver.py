#!/usr/bin/env python3
"""Rehearses a plan: the real dpkg judges each of its instructions, and nothing is built.

    dpkg_driver.py [--state DIR] [--journal FILE] .. DIR        DIR has packages, sources, farm and plan

Each lane of a run has a root of its own below the state, and all lanes share an archive there. The packages are empty, but
have the control fields of the packages text, so dpkg finds what a real one would. What is there at the beginning is made where
a lane first asks for it. Nothing outside of the state is touched; it belongs to one chain of runs (state.py).

    open                     a root whose dpkg says that the chroot's packages are installed
    unpack, configure ..     dpkg_root.py
    build                    dpkg-checkbuilddeps on the source's fields under the recipe's profiles, apt-get check; in mode
                             `built`, whose build an earlier run has made, nothing
    publish                  the recipe's packages are made, and go into the archive

A farm of two architectures is rehearsed with --architectures and the indexes that it was made of: dpkg is told the real names,
and the packages have the fields that the indexes have, so that dpkg decides by its own rules of Multi-Arch. The build
architecture has to be this machine's.
"""

import os
import shutil
import sys
import tempfile

from archive import Archive
from control import Farm, Sides, one_line, paragraphs, read_text, shown
from dpkg_root import Root
from driver import Worker, drive, parser
from processes import output_of, run_command
from state import State
from system import Failed, Lock, file_name, sync_folder, write_durably

# a root without a shell or any program, of any user
ANYWHERE = ("--force-not-root", "--force-script-chrootless", "--force-bad-path")
KEPT = ("Package", "Version", "Multi-Arch", "Essential", "Pre-Depends", "Depends", "Conflicts", "Breaks", "Provides",
        "Replaces")
KINDS_OF_MODE = {"arch": ("", "-Arch"), "indep": ("", "-Indep"), "full": ("", "-Arch", "-Indep")}
# architectures and profiles are those of the farm, and not of this machine
REDUCE = """
    my ($architecture, $profiles, @values) = @ARGV;
    for my $value (@values) {
        my $relation = deps_parse($value, build_dep => 1, build_arch => $architecture, host_arch => $architecture,
            reduce_arch => 1, reduce_profiles => 1, build_profiles => [split / /, $profiles], reduce_restrictions => 1);
        print defined $relation ? $relation->output() : die("no relation: $value"), "\\n";
    }
"""


def all_paragraphs(paths):
    return (fields for path in paths for fields in paragraphs(read_text(path)))


class Rehearsal(Worker):
    def __init__(self, folder, state, architectures="", packages=(), sources=()):
        self.state, self.sides = State(state), Sides(architectures)
        self.machine = output_of(["dpkg", "--print-architecture"]).strip()
        farm = Farm(folder)
        self.packages, self.architecture, self.beginning = farm.packages(), farm.architecture, set(farm.beginning())
        if len({bool(architectures), bool(packages), bool(sources)}) > 1:
            raise Failed("--architectures, --packages and --sources belong together")
        if architectures:
            self.take_indexes(packages)
        sources = all_paragraphs(sources or [os.path.join(folder, "sources")])
        self.sources = {(f["package"], f["version"]): f for f in sources}

    def take_indexes(self, indexes):
        """Puts the fields that the indexes have in place of those of the packages text."""
        if self.sides.build != self.machine:
            raise Failed(f"the build architecture is {self.sides.build}, and this machine's is {self.machine}")
        found = {(self.sides.name(f["package"], f.get("architecture")), f["version"]): f for f in all_paragraphs(indexes)}
        missing = [shown(variant) for variant in self.packages if variant not in found]
        if missing:
            raise Failed(f"the indexes have no {', '.join(missing)}")
        self.packages = {variant: found[variant] for variant in self.packages}

    def begin(self, run, after=None):
        self.state.claim(run, after)
        self.archive = Archive(os.path.join(self.state.folder, "archive"), self.sides)
        self.archive.begin()

    def architecture_of(self, variant):
        """The architecture of a package: this machine's, for which all are made, or one of the two."""
        architecture = self.packages[variant].get("architecture")
        return architecture if architecture == "all" or self.sides.host else self.machine

    def control(self, variant):
        """The lines of a package's control file, as far as dpkg decides by them."""
        fields = self.packages[variant]
        lines = [f"{name}: {one_line(fields[name.lower()])}" for name in KEPT if name.lower() in fields]
        lines.append(f"Architecture: {self.architecture_of(variant)}")
        return lines + ["Maintainer: nobody <nobody@localhost>", "Description: empty"]

    def work(self, request):
        place = self.state.place("lanes", request.lane)
        root = os.path.join(place, "whole")
        with Lock(place) as lock:
            def run(words):
                run_command(words, self.state.new_log(request), lock)

            if request.kind == "open":
                self.open(root, request.variants)
            elif request.kind == "build":
                if request.mode != "built":
                    self.build(root, request, run)
            elif request.kind == "publish":
                self.publish(request.recipe, request.variants)
            else:
                self.begin_with(request)
                Root(root, self.archive, run, ANYWHERE, self.sides).do(request.kind, request.variants)

    def begin_with(self, request):
        """Makes what is there at the beginning of what is to be unpacked."""
        if request.kind in ("unpack", "deconfigure"):
            paths = self.archive.paths()
            for variant in request.variants:
                if variant in self.beginning and variant not in paths:
                    self.publish("at the beginning " + "_".join(variant), [variant])

    def open(self, root, variants):
        if os.path.exists(root):
            return
        new = os.path.join(os.path.dirname(root), "new")
        shutil.rmtree(new, ignore_errors=True)
        database = os.path.join(new, "var/lib/dpkg")
        for name in ("var/lib/dpkg/info", "var/lib/dpkg/updates", "var/lib/dpkg/triggers", "var/log", "etc/dpkg/dpkg.cfg.d"):
            os.makedirs(os.path.join(new, name))
        if self.sides.host:
            with open(os.path.join(database, "arch"), "w") as file:
                file.write(f"{self.sides.build}\n{self.sides.host}\n")
        status = []
        for variant in variants:
            first, *lines = self.control(variant)
            status += [first, "Status: install ok installed", *lines, ""]
            name = self.packages[variant]["package"]
            if self.packages[variant].get("multi-arch") == "same":
                name += ":" + self.architecture_of(variant)
            with open(os.path.join(database, "info", name + ".list"), "w") as file:
                file.write("/.\n")
        open(os.path.join(database, "available"), "w").close()
        write_durably(os.path.join(database, "status"), "\n".join(status + [""]).encode("utf-8", "surrogateescape"))
        os.rename(new, root)
        sync_folder(os.path.dirname(root))

    def build(self, root, request, run):
        """dpkg and apt say whether it could be built here. Nothing is left behind, so again is as the first time."""
        control = os.path.join(os.path.dirname(root), "control")
        with open(control, "w", errors="surrogateescape") as file:
            file.write(self.build_control(request))
        whose, both = [], []
        if self.sides.host:
            whose = ["-P", ",".join(request.profiles), *["-a", self.sides.host] * self.sides.is_of_host(request.source)]
            both = ["-o", f"APT::Architectures={self.sides.build},{self.sides.host}"]
        run(["dpkg-checkbuilddeps", f"--admindir={root}/var/lib/dpkg", *whose, "-I", control])
        run(["apt-get", "-o", f"Dir::State::status={root}/var/lib/dpkg/status", "-o", f"Dir::State::lists={root}/var/log",
             "-o", f"Dir::Cache={root}/var/log", "-o", "Debug::NoLocking=1", *both, "check"])

    def build_control(self, request):
        """A debian/control with what the source's build relations are for this build; of two architectures as they stand,
        since dpkg-checkbuilddeps is told which they are."""
        fields = self.sources[self.sides.stem(request.source), request.version]
        names = [stem + kind for stem in ("Build-Depends", "Build-Conflicts") for kind in KINDS_OF_MODE[request.mode]]
        names = [name for name in names if name.lower() in fields]
        values = [one_line(fields[name.lower()]) for name in names]
        if not self.sides.host:
            values = output_of(
                ["perl", "-MDpkg::Deps", "-e", REDUCE, "--", self.architecture, " ".join(request.profiles), *values]).split("\n")
        relations = [f"{name}: {value}" for name, value in zip(names, values) if value]
        return "\n".join([f"Source: {request.source}", *relations, "", "Package: x", "Architecture: any", ""])

    def publish(self, recipe, variants):
        """Makes empty packages of these variants, and publishes them."""
        if set(variants) <= set(self.archive.paths()):
            return
        with tempfile.TemporaryDirectory(dir=self.state.folder) as folder:
            tree, made = os.path.join(folder, "tree"), os.path.join(folder, "made")
            os.makedirs(os.path.join(tree, "DEBIAN"))
            os.makedirs(made)
            for variant in variants:
                with open(os.path.join(tree, "DEBIAN/control"), "w", errors="surrogateescape") as file:
                    file.write("\n".join(self.control(variant)) + "\n")
                name = file_name("_".join(variant)) + ".deb"
                output_of(["dpkg-deb", "--root-owner-group", "-Znone", "--build", "--", tree, os.path.join(made, name)])
            self.archive.publish(made, recipe, variants)


def main():
    options = parser(__doc__)
    options.add_argument("--state", default="state", help="lanes, archive and logs are here (state)")
    options.add_argument("--architectures", default="", metavar="BUILD,HOST", help="those of a farm of two architectures")
    for name in ("packages", "sources"):
        options.add_argument(f"--{name}", metavar="INDEX", action="append", default=[], help="an index that such a farm was made of")
    options = options.parse_args()
    try:
        rehearsal = Rehearsal(options.dir, options.state, options.architectures, options.packages, options.sources)
    except Failed as why:
        sys.exit(f"dpkg_driver.py: {why}")
    return drive(options, rehearsal)


if __name__ == "__main__":
    sys.exit(main())
