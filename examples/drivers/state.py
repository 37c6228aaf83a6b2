"""The folder of a chain of runs: a first run, and those that go on behind it. Each run has a folder of its own, so that none takes
for its own what an earlier one has left: a lane of the same name has another chroot. They share the archive.

    STATE/chain               the names of the runs, the first one first; `lock`, while it is written
    STATE/archive/            the packages (archive.py)
    STATE/RUN/lanes/LANE/     `lock`; `whole`, the lane's chroot
    STATE/RUN/built/RECIPE/   `whole.lock`; `whole`, what the build gave
    STATE/RUN/logs/LANE/      NUMBER.TRY, the output of each try of an instruction; behind that name and a dot the .buildinfo
                              and .changes of a build
    STATE/RUN/jobs/LANE/      what batch jobs leave (slurm_driver.py)

Names of a text are spelled as names of files.
"""

import glob
import os
import stat

from system import Failed, Lock, file_name, sync_folder, write_durably

KINDS = ("lanes", "built", "logs", "jobs")


def refuse_unsafe(path):
    """Each part of the path has to be a folder of this user or of root, and no link, so that nobody else can lead what is
    written there to another place."""
    parts = os.path.abspath(path).split("/")
    for end in range(1, len(parts) + 1):
        part = "/".join(parts[:end]) or "/"
        try:
            found = os.lstat(part)
        except FileNotFoundError:
            return
        if stat.S_ISLNK(found.st_mode):
            raise Failed(f"{path}: {part} is a symbolic link")
        if not stat.S_ISDIR(found.st_mode):
            raise Failed(f"{path}: {part} is no folder")
        if found.st_uid not in (0, os.geteuid()):
            raise Failed(f"{path}: {part} is of another user, {found.st_uid}")
        if found.st_mode & stat.S_IWOTH and not found.st_mode & stat.S_ISVTX:
            raise Failed(f"{path}: every user can write to {part}")


class State:
    """The folder, and the run that works in it: the one that is named here, or that claims it."""

    def __init__(self, folder, run=None):
        self.folder, self.run = os.path.abspath(folder), run
        for name in ("", "archive"):
            refuse_unsafe(os.path.join(self.folder, name))

    def runs(self):
        """The names of the chain's runs, the first one first."""
        try:
            with open(os.path.join(self.folder, "chain")) as file:
                return file.read().split()
        except FileNotFoundError:
            return []

    def earlier(self):
        """Those ahead of this one."""
        runs = self.runs()
        return runs[:runs.index(self.run)] if self.run in runs else []

    def of_nobody(self):
        """What runs have left here that are not known."""
        found = [name for name in ("run", *KINDS) if os.path.lexists(os.path.join(self.folder, name))]
        return found + sorted(path.split("/")[-2] for path in glob.glob(os.path.join(glob.escape(self.folder), "*", KINDS[0])))

    def chain_of(self, run, after):
        """The chain's runs with this one, which goes on behind the run `after` or behind none. The folder has to be empty, this
        run's already, or that run's: what any other run has left is no part of this one."""
        runs = self.runs()
        if run in runs[:-1]:
            raise Failed(f"{self.folder}: the run {run} is over, {runs[-1]} has gone on behind it")
        if runs and runs[-1] not in (run, after):
            behind = f", which goes on behind {after}" if after else ""
            raise Failed(f"{self.folder} is of the run {runs[-1]}, and this one is {run}{behind}: name an empty folder")
        if not runs and (there := self.of_nobody()):
            raise Failed(f"{self.folder} has {', '.join(there)}, of no run that is known: name an empty folder")
        for kind in KINDS:
            refuse_unsafe(self.path(run, kind))
        return runs if run in runs else [*runs, run]

    def claim(self, run, after=None):
        """Takes the folder for this run, or refuses to, and then nothing in it is touched."""
        self.chain_of(run, after)
        os.makedirs(self.folder, exist_ok=True)
        with Lock(self.folder):
            runs = self.chain_of(run, after)
            if runs != self.runs():
                write_durably(os.path.join(self.folder, "chain"), "".join(f"{name}\n" for name in runs).encode())
        self.run = run
        for kind in KINDS:
            os.makedirs(self.path(run, kind), exist_ok=True)

    def path(self, run, *names):
        return os.path.join(self.folder, file_name(run), *names)

    def place(self, kind, name):
        """The folder below `lanes`, `built`, `logs` or `jobs` that belongs to this run and this name of a text alone."""
        found = self.path(self.run, kind, file_name(name))
        os.makedirs(found, exist_ok=True)
        return found

    def new_log(self, request):
        """A log file that no earlier try has had."""
        folder, attempt = self.place("logs", request.lane), 1
        while True:
            path = os.path.join(folder, f"{request.number}.{attempt}")
            try:
                os.close(os.open(path, os.O_WRONLY | os.O_CREAT | os.O_EXCL, 0o644))
                return path
            except FileExistsError:
                attempt += 1

    def put_aside(self, recipe):
        """Takes what the build of a recipe gave out of its place: where it is then, or None."""
        place = self.place("built", recipe)
        whole, number = os.path.join(place, "whole"), 1
        if not os.path.lexists(whole):
            return None
        while os.path.lexists(old := os.path.join(place, f"before.{number}")):
            number += 1
        os.rename(whole, old)
        return old

    def take_built(self, recipe):
        """What the build of a recipe gave in the last of the earlier runs that has it becomes this run's: where it is then."""
        place = self.place("built", recipe)
        whole = os.path.join(place, "whole")
        if os.path.lexists(whole):
            return whole
        for run in reversed(self.earlier()):
            old = self.path(run, "built", file_name(recipe))
            if os.path.lexists(os.path.join(old, "whole")):
                os.rename(os.path.join(old, "whole"), whole)
                sync_folder(place)
                sync_folder(old)
                return whole
        raise Failed(f"{self.folder} has no build of recipe {recipe} in a run ahead of {self.run}")
