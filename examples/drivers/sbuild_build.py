#!/usr/bin/env python3
"""One build by sbuild, as any user.

    sbuild_build.py [--relations FIELDS] [--log FILE] STATE RUN DIR RECIPE SOURCE VERSION MODE PROFILES [NAME=VERSION..]
        -- sbuild WORD..

The packages are then in STATE/RUN/built/RECIPE/whole, with what recipe_build.py says. To sbuild's words come those for the
architectures, the profiles, the version of the outputs and the source, which is fetched by apt-get: that has to know a
`deb-src` for it. Where DIR has patches/RECIPE.patch, a source package is made that has it.
"""

import os
import shutil
import sys

from processes import run_inner
from recipe_build import Build, parser
from system import Failed

ARCHITECTURES = {
    "full": ("--arch-any", "--arch-all"), "arch": ("--arch-any", "--no-arch-all"), "indep": ("--no-arch-any", "--arch-all")}


def patched(build, folder, dsc):
    """A source package of the same version with the patch, made beside the one that came."""
    run_inner(["dpkg-source", "--no-check", "--extract", "--", dsc, "tree"], cwd=folder)
    run_inner(["patch", "--strip=1", "--forward", f"--input={build.patch}"], cwd=os.path.join(folder, "tree"))
    run_inner(["dpkg-source", "--auto-commit", "--build", "tree"], cwd=folder)
    shutil.rmtree(os.path.join(folder, "tree"))


def build_by(sbuild, build, new):
    source = os.path.join(new, "source")
    dsc = build.fetch(source)
    if os.path.exists(build.patch):
        patched(build, source, dsc)
    more = [f"--profiles={','.join(build.profiles)}"] if build.profiles else []
    if build.host:
        more.append(f"--host={build.host}")
    if entry := build.entry():
        more.append(f"--binNMU-changelog={entry}")
    run_inner(
        [*sbuild, *ARCHITECTURES[build.mode], f"--build-dir={new}", *more, "--", os.path.join(source, dsc)], cwd=new,
        env=build.environment())
    build.keep(new, new, os.path.join(source, dsc))
    shutil.rmtree(source)


def main():
    words = sys.argv[1:]
    at = words.index("--") if "--" in words else len(words)
    found = parser(__doc__).parse_args(words[:at])
    if not words[at + 1:]:
        sys.exit(__doc__)
    try:
        build = Build(found)
        build.make(lambda new: build_by(words[at + 1:], build, new))
    except (Failed, OSError) as why:
        sys.exit(f"sbuild_build.py: {why}")


if __name__ == "__main__":
    main()
