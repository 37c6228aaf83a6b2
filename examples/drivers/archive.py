#!/usr/bin/env python3
"""The archive of a farm as a folder: pool/RECIPE/N/ with what a recipe gave, begin/ with what was there before, and an index
`Packages` of all that was ever published. It keeps every version: a lane may be asked to unpack an older one. As a command:

    archive.py begin ARCHIVE                                  an empty one, where there is none
    archive.py fetch ARCHIVE DIR [SOURCE..]                   what the farm text of DIR has at the beginning, by apt (fetch.py)
    archive.py publish ARCHIVE FOLDER RECIPE NAME=VERSION..   these go from FOLDER into the archive; FOLDER stays as it is
    archive.py path ARCHIVE NAME=VERSION..                    where each .deb is

ARCHIVE is refused where a part of its path is a link or another user's. Of a farm of two architectures
`--architectures=BUILD,HOST` stands ahead of these words; NAME.HOST is then the package NAME of HOST.
"""

import itertools
import os
import shutil
import sys

from control import Sides, paragraphs, read_text, shown
from processes import output_of
from state import refuse_unsafe
from system import Failed, Lock, file_name, link_or_copy, move_durably, sync_folder, take_option, write_durably


class Archive:
    def __init__(self, folder, sides=Sides()):
        self.folder, self.sides = os.path.abspath(folder), sides
        refuse_unsafe(self.folder)
        self.index = os.path.join(self.folder, "Packages")
        for name in ("pool", "begin", "new"):
            os.makedirs(os.path.join(self.folder, name), exist_ok=True)

    def begin(self):
        """An index must be there before apt looks for it."""
        with Lock(self.folder):
            if not os.path.exists(self.index):
                write_durably(self.index, b"")

    def paths(self):
        """Where each published variant is, by name and version."""
        if not os.path.exists(self.index):
            return {}
        return {variant: os.path.join(self.folder, name) for variant, name in self.file_names(read_text(self.index)).items()}

    def variant(self, fields):
        """Name and version of a package in the farm."""
        return self.sides.name(fields["package"], fields.get("architecture")), fields["version"]

    def file_names(self, index):
        """The file of each package of an index."""
        return {self.variant(fields): fields["filename"] for fields in paragraphs(index)}

    def all_paths(self, variants):
        """Where these variants are."""
        paths = self.paths()
        missing = [shown(variant) for variant in variants if variant not in paths]
        if missing:
            raise Failed(f"the archive {self.folder} has no {', '.join(missing)}")
        return [paths[variant] for variant in variants]

    def publish(self, folder, recipe, variants):
        """These variants go from a folder into the archive. Done again it does no harm: what the recipe gave is taken once,
        and the index says whether it names it."""
        with Lock(self.folder):
            if set(variants) <= set(self.paths()):
                return
            place = self.place(recipe, variants)
            if not os.path.exists(os.path.join(self.folder, place)):
                self.take(folder, recipe, variants, place)
            self.add(place, variants)

    def place(self, recipe, variants):
        """The folder of the pool that has these variants, or the next one: a later run may take others from a recipe."""
        for number in itertools.count(1):
            place = f"pool/{file_name(recipe)}/{number}"
            path = os.path.join(self.folder, place)
            if not os.path.exists(path) or set(variants) <= set(self.file_names(scan(path, recipe))):
                return place

    def take(self, folder, recipe, variants, place):
        """Makes the folder of the pool, of links to the packages or of copies of them."""
        given = self.file_names(scan(folder, recipe))
        missing = [shown(variant) for variant in variants if variant not in given]
        if missing:
            raise Failed(f"{folder} has no {', '.join(missing)}")
        pool, new = os.path.join(self.folder, place), os.path.join(self.folder, "new", file_name(recipe))
        os.makedirs(os.path.dirname(pool), exist_ok=True)
        sync_folder(os.path.join(self.folder, "pool"))
        shutil.rmtree(new, ignore_errors=True)
        os.makedirs(new)
        for variant in variants:
            path = os.path.join(folder, given[variant])
            link_or_copy(path, os.path.join(new, os.path.basename(path)))
        move_durably(new, pool)

    def add(self, place, variants):
        """Puts the packages of a folder of the archive into the index."""
        known, fresh = set(self.paths()), []
        for text in scan(os.path.join(self.folder, place), place).split("\n\n"):
            for fields in paragraphs(text):
                variant = self.variant(fields)
                if variant in variants and variant not in known:
                    fresh.append(text.strip("\n").replace("\nFilename: ", f"\nFilename: {place}/", 1) + "\n\n")
        old = read_text(self.index) if os.path.exists(self.index) else ""
        write_durably(self.index, (old + "".join(fresh)).encode("utf-8", "surrogateescape"))

    def add_beginning(self, files):
        """Files that are checked already go into begin/ and into the index, each with its variant."""
        with Lock(self.folder):
            begin = os.path.join(self.folder, "begin")
            for path, _ in files:
                os.rename(path, os.path.join(begin, os.path.basename(path)))
            sync_folder(begin)
            self.add("begin", {variant for _, variant in files})


def scan(folder, what):
    """The paragraphs of a folder's packages, with their names in it."""
    if not os.path.isdir(folder):
        raise Failed(f"there is no {folder}: `--again {what}` of the driver builds it once more")
    return output_of(["dpkg-scanpackages", "--multiversion", ".", os.devnull], cwd=folder).replace(
        "\nFilename: ./", "\nFilename: ")


def main(words):
    architectures = take_option("architectures", words)
    if len(words) < 2 or words[0] not in ("begin", "fetch", "publish", "path") or len(words) < 3 and words[0] != "begin":
        sys.exit(__doc__)
    verb, folder, *rest = words
    variants = [tuple(word.split("=", 1)) for word in rest[0 if verb == "path" else 2:]]
    try:
        archive = Archive(folder, Sides(architectures))
        if verb == "begin":
            archive.begin()
        elif verb == "fetch":
            from fetch import fetch
            fetch(archive, rest[0], rest[1:])
        elif verb == "path":
            print(*archive.all_paths(variants), sep="\n")
        else:
            archive.publish(*rest[:2], variants)
    except (Failed, OSError) as why:
        sys.exit(f"archive.py: {why}")


if __name__ == "__main__":
    main(sys.argv[1:])
