#!/usr/bin/env python3
"""One build by dpkg-buildpackage in a chroot that has what it needs, as root.

    chroot_build.py [--relations FIELDS] [--log FILE] STATE RUN DIR ROOT RECIPE SOURCE VERSION MODE PROFILES [NAME=VERSION..]

The packages are then in STATE/RUN/built/RECIPE/whole, with what recipe_build.py says. DIR has the four texts, and perhaps
patches/RECIPE.patch. The source is fetched outside by apt-get, which has to know a `deb-src` for it.
"""

import os
import shutil
import sys

from processes import run_inner
from recipe_build import TYPES, Build, parser
from system import Failed

BUILD = """
    cd /build
    dpkg-source --extract -- "$1" tree
    cd tree
    if [ -f ../local.patch ]; then patch --strip=1 --forward --input=../local.patch; fi
    if [ -n "$2" ]; then
        { printf '%s\\n\\n' "$2"; cat debian/changelog; } > ../changelog
        cp ../changelog debian/changelog
    fi
    exec dpkg-buildpackage --unsigned-source --unsigned-changes --build="$3" --build-profiles="$4" ${5:+--host-arch="$5"}
"""


def build_in(root, build, new):
    room = os.path.join(root, "build")
    shutil.rmtree(room, ignore_errors=True)
    dsc = build.fetch(room)
    if os.path.exists(build.patch):
        shutil.copyfile(build.patch, os.path.join(room, "local.patch"))
    # in a process space of its own, so that no process of a build outlives it
    run_inner(
        ["unshare", "--pid", "--fork", "--kill-child", f"--mount-proc={root}/proc", "chroot", root, "sh", "-euc", BUILD, "sh",
         dsc, build.entry(), TYPES[build.mode], ",".join(build.profiles), build.host], env=build.environment())
    build.keep(room, new, os.path.join(room, dsc))
    shutil.rmtree(room)


def main():
    words = parser(__doc__, "root").parse_args()
    try:
        build = Build(words)
        build.make(lambda new: build_in(os.path.abspath(words.root), build, new))
    except (Failed, OSError) as why:
        sys.exit(f"chroot_build.py: {why}")


if __name__ == "__main__":
    main()
