#!/usr/bin/env python3
"""A folder that is seen once all of it is there, for the commands of templates:

    whole.py PLACE COMMAND..

runs COMMAND in PLACE/new, which is emptied first, and calls it PLACE/whole where its status is 0. Where PLACE/whole is there
already, nothing is done: so what was cut short is begun anew, and what had ended is not made twice. PLACE is a folder that
belongs to one thing alone, as {state}/{run}/lanes/{lane}.
"""

import os
import sys

from processes import run_inner
from state import refuse_unsafe
from system import Failed, Lock, sync_folder


def make_whole(place, make):
    """Calls `make(folder)`, which leaves it on the disk, unless what it makes is there."""
    place = os.path.abspath(place)
    refuse_unsafe(place)
    os.makedirs(place, exist_ok=True)
    new, whole = os.path.join(place, "new"), os.path.join(place, "whole")
    with Lock(place, "whole.lock") as lock:
        os.set_inheritable(lock, True)
        if os.path.lexists(whole):
            return
        if os.path.lexists(new):  # what is mounted there is left alone, and this fails
            run_inner(["rm", "--recursive", "--force", "--one-file-system", "--", new])
        os.makedirs(new)
        make(new)
        os.rename(new, whole)
        sync_folder(place)


def main(place, *command):
    def make(new):
        run_inner(list(command), cwd=new)
        run_inner(["sync", "--file-system", "--", new])

    try:
        make_whole(place, make)
    except (Failed, OSError) as why:
        sys.exit(f"whole.py: {why}")


if __name__ == "__main__":
    if len(sys.argv) < 3:
        sys.exit(__doc__)
    main(*sys.argv[1:])
