#!/usr/bin/env python3
"""What a lane asks of its chroot, by the real dpkg, done only as far as it is not done yet. As a command:

    dpkg_root.py [--architectures=BUILD,HOST] ROOT ARCHIVE unpack|configure|deconfigure|remove NAME=VERSION..

The log of dpkg is ROOT/var/log/dpkg.log, and not the host's. Of a farm of two architectures NAME.HOST is the package NAME of
HOST, which the root's dpkg has to know (`dpkg --add-architecture`).
"""

import os
import subprocess
import sys

from archive import Archive
from control import Sides
from processes import run_inner
from system import Failed, Lock, take_option


class Root:
    """A folder with a system in it. `run` runs the words of a dpkg, to which the words `more` are given."""

    def __init__(self, folder, archive, run=run_inner, more=(), sides=Sides()):
        self.folder, self.archive, self.run, self.more, self.sides = folder, archive, run, list(more), sides

    def dpkg(self, *words):
        log = os.path.join(self.folder, "var/log/dpkg.log")
        self.run(["dpkg", f"--root={self.folder}", f"--log={log}", *self.more, *words])

    def dpkg_on(self, action, names):
        """Does it with these packages. Where none is left for it, what a dpkg that was killed has noted is put into the file
        `status`, as each dpkg does that writes: dpkg-checkbuilddeps and apt read nothing else."""
        if names:
            self.dpkg(action, "--", *names)
        elif os.listdir(os.path.join(self.folder, "var/lib/dpkg/updates")):
            self.dpkg("--set-selections")

    def states(self):
        """Version and state of each package that is there, by name."""
        return {name: (version, state) for name, (version, state, _) in self.known().items()}

    def known(self):
        """The same with dpkg's own name of it, which has the architecture where that is in doubt."""
        shown = subprocess.run(
            ["dpkg-query", f"--admindir={self.folder}/var/lib/dpkg", "--show",
             "--showformat=${Package} ${Architecture} ${Version} ${db:Status-Status} ${binary:Package}\n"],
            capture_output=True, text=True).stdout
        words = [line.split(" ") for line in shown.splitlines()]
        return {self.sides.name(name, architecture): tuple(rest) for name, architecture, *rest in words
                if rest[1] not in ("not-installed", "config-files")}

    def unpack(self, variants):
        # what is unpacked already is unpacked once more: harmless, and right where dpkg was killed in the middle
        self.dpkg("--unpack", "--", *self.archive.all_paths(variants))

    def configure(self, variants):
        known = self.known()
        names = [known[name][2] if name in known else self.sides.real(name) for name, version in variants
                 if known.get(name, ())[:2] != (version, "installed")]
        self.dpkg_on("--configure", names)  # dpkg refuses to configure what is configured

    def deconfigure(self, variants):
        self.unpack(variants)

    def remove(self, variants):
        known = self.known()
        self.dpkg_on("--purge", [known[name][2] for name, _ in variants if name in known])

    KINDS = {"unpack": unpack, "configure": configure, "deconfigure": deconfigure, "remove": remove}

    def do(self, kind, variants):
        self.KINDS[kind](self, variants)


def main(words):
    architectures = take_option("architectures", words)
    if len(words) < 4 or words[2] not in Root.KINDS:
        sys.exit(__doc__)
    folder, archive, kind, *packages = words
    try:
        with Lock(folder, "") as lock:
            os.set_inheritable(lock, True)
            sides = Sides(architectures)
            root = Root(os.path.abspath(folder), Archive(archive, sides), sides=sides)
            root.do(kind, [tuple(it.split("=", 1)) for it in packages])
    except (Failed, OSError) as why:
        sys.exit(f"dpkg_root.py: {why}")


if __name__ == "__main__":
    main(sys.argv[1:])
