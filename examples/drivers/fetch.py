"""Fetches by apt what a farm text has at the beginning: the variants of its `Archive`, and those of its chroots."""

import hashlib
import os
import shutil

from control import Farm, shown
from processes import output_of, run_inner
from system import Failed, Lock, tell

AT_ONCE = 200  # packages in one call of apt-get


def options_of(room, architectures, sources):
    """apt with lists of its own, for the farm's architectures; the host's sources, or the lines that are given."""
    for name in ("lists/partial", "cache/archives/partial", "sources"):
        os.makedirs(os.path.join(room, name), exist_ok=True)
    open(os.path.join(room, "status"), "w").close()
    settings = {
        "Dir::State::Lists": f"{room}/lists", "Dir::Cache": f"{room}/cache", "Dir::State::Status": f"{room}/status",
        "APT::Architecture": architectures[0], "APT::Architectures": ",".join(architectures), "APT::Sandbox::User": "",
        "Acquire::Languages": "none", "Acquire::Retries": "3"}
    if sources:
        with open(f"{room}/sources/farm.list", "w") as file:
            file.write("".join(line + "\n" for line in sources))
        settings.update({"Dir::Etc::SourceList": "/dev/null", "Dir::Etc::SourceParts": f"{room}/sources"})
    return [word for name, value in settings.items() for word in ("-o", f"{name}={value}")]


def digest(path):
    found = hashlib.sha256()
    with open(path, "rb") as file:
        while piece := file.read(1 << 20):
            found.update(piece)
    return found.hexdigest()


def variant_of(path, sides):
    shown = output_of(["dpkg-deb", "--show", "--showformat=${Package} ${Architecture} ${Version}", path])
    name, architecture, version = shown.split(" ")
    return sides.name(name, architecture), version


def checked(room, wanted, packages, sides):
    """The files that came, each with its variant. What the packages text has another digest of is refused."""
    files = []
    for entry in os.scandir(room):
        variant = variant_of(entry.path, sides)
        told = packages.get(variant, {}).get("sha256")
        if variant in wanted and told and told != digest(entry.path):
            raise Failed(f"{shown(variant)}: the packages text has SHA256 {told}, what came has {digest(entry.path)}")
        if variant in wanted:
            files.append((entry.path, variant))
    return files


def fetch(archive, folder, sources):
    """Fetches what is not there yet. apt holds what comes against the checksums of the signed indexes."""
    farm, sides = Farm(folder), archive.sides
    architectures = [sides.build, sides.host] if sides.host else [farm.architecture]
    packages, known = farm.packages(), archive.paths()
    # a chroot may begin with what a recipe gives: that enters the archive by its publish, and the chroot from the mirror
    built = {variant for recipe in farm.recipes for variant in farm.outputs(recipe)}
    wanted = [variant for variant in farm.beginning() if variant not in known and variant not in built]
    tell(f"{len(farm.beginning())} packages at the beginning, {len(wanted)} to be fetched")
    fetching = os.path.join(archive.folder, "fetching")
    room = os.path.join(fetching, "room")
    archive.begin()
    os.makedirs(fetching, exist_ok=True)
    with Lock(fetching):
        shutil.rmtree(room, ignore_errors=True)
        apt = ["apt-get", *options_of(room, architectures, sources)]
        if wanted:
            run_inner([*apt, "-qq", "update"])
        for begin in range(0, len(wanted), AT_ONCE):
            part = wanted[begin:begin + AT_ONCE]
            came = os.path.join(room, "came")
            os.makedirs(came, exist_ok=True)
            run_inner([*apt, "-qq", "download", "--", *(f"{sides.real(name)}={version}" for name, version in part)], cwd=came)
            archive.add_beginning(checked(came, set(part), packages, sides))
            tell(f"{min(begin + AT_ONCE, len(wanted))} of {len(wanted)} fetched")
        shutil.rmtree(room, ignore_errors=True)
    missing = [shown(variant) for variant in wanted if variant not in archive.paths()]
    if missing:
        raise Failed(f"did not come: {', '.join(missing)}")
