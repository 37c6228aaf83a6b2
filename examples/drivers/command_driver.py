#!/usr/bin/env python3
"""Drives by command lines: one for each kind of request, in a file.

    command_driver.py [--journal FILE] .. CONFIGURATION DIR     DIR has packages, sources, farm and plan

    [commands]      KIND = COMMAND; nothing is done for a kind without one. {words*} in it are these fields:
    [settings]      state = FOLDER, of one chain of runs (state.py)
                    over = COMMAND that the words of the command are put behind, as `ssh -- {host}`; fields and words are quoted
                    for its shell; `ssh -- {host} {drivers}/keeper.py 0 end null` ends there what is ended here
                    here = KINDS that are not handed over
                    timeout = SECONDS, behind which a command is ended with all that it has begun
                    lost = `stay` or `end`: whether a command goes on where this driver is killed (stay); the next one waits
                    architectures = BUILD,HOST, of a farm in which NAME.HOST is the package or source NAME of HOST
    [hosts]         LANE = HOST, and `default`
    [modes]         full, arch, indep = WORDS, for `{mode*}`

A command is cut into words as a shell does, and then fields are put into the words, so that no shell reads what a field
holds; where you name a shell yourself, hand them to it as words, as in sh -c 'echo "$1"' sh {recipe}. What begins with a field
and would be an option, as a profile `-x`, is refused. Status 0 is done, all else is failed.

Each command has {lane} {number} {chroot} {kind} {host} {dir} {state} {run} {drivers} (the folder of this file), {job} (one name
for one thing, over all resumes), {log} (the file of this try's output), {again} (empty at the first time), {architectures} and
{request*}; a build {recipe} {source} {version} {upstream} (the version without its epoch) {steps} {scratch} {profiles} {mode}
{mode*} {packages} and {build*} (recipe_build.py); a publish {recipe} {packages}; and all others {names} {packages}
(NAME=VERSION). {profiles}, {names} and {packages} are joined by commas; with `*` each becomes a word for each of its own, or
none. Lanes and chroots are spelled so that they are file names. What a run keeps is below {state}/{run}, so that no later run
of the chain takes it for its own.

With `architectures` a build also has {name}, its source without the architecture, and {architecture}, the one that it is for;
{real} and {real*} are {packages} as apt has them, NAME:HOST=VERSION.
"""

import configparser
import os
import shlex
import sys

from control import Farm, Sides
from driver import Worker, drive, parser
from processes import run_command
from state import State
from system import Failed, Lock, file_name

HERE = os.path.dirname(os.path.abspath(__file__))


def read_configuration(path):
    found = configparser.ConfigParser(interpolation=None)
    found.optionxform = str  # lanes are not the same in capitals
    with open(path) as file:
        found.read_file(file)
    for section in ("commands", "settings", "hosts", "modes", "slurm"):
        if section not in found:
            found[section] = {}
    return found


def words_of(template, fields, lists):
    words = []
    for word in shlex.split(template):
        if word.startswith("{") and word.endswith("*}"):
            made = lists[word[1:-2]]
        else:
            made = [word.format(**fields)]
        for one in made:
            if word.startswith("{") and one.startswith("-"):
                raise Failed(f"{word} is {one}, which would be an option")
        words += made
    return words


class Commands(Worker):
    def __init__(self, configuration, folder):
        self.commands, self.hosts, self.modes = (configuration[name] for name in ("commands", "hosts", "modes"))
        settings = configuration["settings"]
        self.over, self.here = settings.get("over", ""), settings.get("here", "").split()
        self.timeout = float(settings.get("timeout", 0)) or None
        self.lost = settings.get("lost", "stay")
        if self.lost not in ("stay", "end"):
            raise Failed(f"lost = {self.lost}: expected `stay` or `end`")
        self.architectures = settings.get("architectures", "")
        self.sides = Sides(self.architectures)
        self.folder = os.path.abspath(folder)
        self.state = State(settings.get("state", "state"))

    def begin(self, run, after=None):
        self.state.claim(run, after)

    def forget(self, recipe):
        return self.state.put_aside(recipe)

    def fields(self, request, log=""):
        """The fields of a request, and those that are lists of words."""
        host = self.hosts.get(request.lane, self.hosts.get("default", "localhost"))
        fields = {
            "lane": file_name(request.lane), "number": request.number, "chroot": file_name(request.chroot),
            "kind": request.kind, "host": host, "dir": self.folder, "state": self.state.folder, "drivers": HERE,
            "job": request.job, "again": "again" if request.again else "", "run": file_name(request.run), "log": log,
            "architectures": self.architectures}
        first = "again" if request.again else "start"
        variants = request.variants
        if request.kind == "build" and not request.names_outputs:  # it is of an older program
            variants = Farm(self.folder).outputs(request.recipe)
        lists = {"request": [first, request.lane, str(request.number), request.chroot, request.kind, *request.words],
                 "names": [name for name, _ in variants],
                 "packages": [f"{name}={version}" for name, version in variants],
                 "real": [f"{self.sides.real(name)}={version}" for name, version in variants]}
        if request.kind in ("build", "publish"):
            fields["recipe"] = request.recipe
        if request.kind == "build":
            self.add_build(request, fields, lists)
        fields.update({name: ",".join(lists[name]) for name in ("names", "packages", "real", "profiles") if name in lists})
        return fields, lists

    def add_build(self, request, fields, lists):
        """The fields of a build."""
        for name in ("source", "version", "mode", "steps", "scratch"):
            fields[name] = getattr(request, name)
        fields["upstream"] = request.version.split(":", 1)[-1]
        fields["name"] = self.sides.stem(request.source)
        fields["architecture"] = self.sides.host if self.sides.is_of_host(request.source) else self.sides.build
        lists["profiles"] = request.profiles
        lists["mode"] = shlex.split(self.modes.get(request.mode, ""))
        lists["build"] = [request.recipe, request.source, request.version, request.mode, ",".join(request.profiles),
                          *lists["packages"]]

    def words(self, request, log):
        """The command of a kind that has one."""
        fields, lists = self.fields(request, log)
        words = words_of(self.commands[request.kind], fields, lists)
        if self.over and request.kind not in self.here:
            # the far shell reads all of it
            fields = {name: shlex.quote(str(value)) for name, value in fields.items()}
            lists = {name: [shlex.quote(word) for word in value] for name, value in lists.items()}
            words = words_of(self.over, fields, lists) + [shlex.quote(word) for word in words]
        return words

    def work(self, request):
        if self.commands.get(request.kind):
            log = self.state.new_log(request)
            words = self.words(request, log)
            # where this driver dies its command lives on, and the next driver waits for it here
            with Lock(self.state.place("lanes", request.lane)) as lock:
                self.execute(request, words, log, lock)

    def execute(self, request, words, log, lock):
        given = "open" if self.over and request.kind not in self.here else "null"
        run_command(words, log, lock, timeout=self.timeout, lost=self.lost, given=given)


def main():
    options = parser(__doc__, "configuration").parse_args()
    try:
        commands = Commands(read_configuration(options.configuration), options.dir)
    except Failed as why:
        sys.exit(f"command_driver.py: {why}")
    return drive(options, commands)


if __name__ == "__main__":
    sys.exit(main())
