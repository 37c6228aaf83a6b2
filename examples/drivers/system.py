"""Files that stay if the machine goes down, locks that commands inherit, names of files, what is told."""

import fcntl
import hashlib
import os
import shutil
import threading
import time
import urllib.parse

LONGEST = 200  # bytes of a file name
ending = threading.Event()  # the second signal has come: nothing is waited for


class Failed(Exception):
    """It cannot be done: its lane gives up, and portfarm asks nothing more."""


def file_name(text):
    """A file name that stands for this text alone, whatever its bytes are: a lane may be called `../x` or `-x`."""
    name = urllib.parse.quote(text, safe="+", errors="surrogateescape")
    if name[:1] in (".", "-"):
        name = f"%{ord(name[0]):02X}" + name[1:]
    if len(name) > LONGEST:  # no quoted text has `%~`
        name = name[:100] + "%~" + hashlib.sha256(text.encode("utf-8", "surrogateescape")).hexdigest()
    return name


def take_option(name, words):
    """Takes `--NAME=VALUE` from the front of the words: the value, empty where it is not there."""
    return words.pop(0).split("=", 1)[1] if words and words[0].startswith(f"--{name}=") else ""


def tell(text):
    """A line with its time on standard error, in one write: a signal may come in the middle of another one."""
    line = time.strftime("%Y-%m-%d %H:%M:%S ") + text + "\n"
    try:
        os.write(2, line.encode("utf-8", "backslashreplace"))
    except OSError:
        pass  # nobody reads it


class Lock:
    """A lock that commands inherit: FOLDER/NAME, or the folder itself where the name is empty. It is free again once who took
    it is gone *and* all that it had begun, even where it was killed: so the next life does not meet a dpkg that the last one
    left."""

    def __init__(self, folder, name="lock"):
        self.path = os.path.join(folder, name) if name else folder
        self.flags = os.O_RDWR | os.O_CREAT | os.O_NOFOLLOW if name else os.O_RDONLY

    def __enter__(self):
        self.file = os.open(self.path, self.flags, 0o600)
        if not self.is_taken():
            found = " ".join(map(str, holders(self.file))) or "not seen from here"
            tell(f"waits for what holds {self.path}: {found}")
            while not self.is_taken():
                if ending.wait(0.2):
                    os.close(self.file)
                    raise Failed(f"ended while it waited for what holds {self.path}")
        return self.file

    def is_taken(self):
        try:
            fcntl.flock(self.file, fcntl.LOCK_EX | fcntl.LOCK_NB)
            return True
        except BlockingIOError:
            return False

    def __exit__(self, *_):
        os.close(self.file)


def holders(file):
    """The processes that have this file open, as far as this user can see them; a keeper is older than what it keeps."""
    wanted, found = os.fstat(file), []
    for pid in filter(str.isdigit, os.listdir("/proc")):
        try:
            opened = [os.stat(f"/proc/{pid}/fd/{name}") for name in os.listdir(f"/proc/{pid}/fd")]
        except OSError:
            continue
        if int(pid) != os.getpid() and any(os.path.samestat(wanted, one) for one in opened):
            found.append(int(pid))
    return sorted(found)


def sync_folder(path):
    folder = os.open(path or ".", os.O_RDONLY)
    os.fsync(folder)
    os.close(folder)


def write_durably(path, content):
    """The file has the old content or the new one, and the new one for good when this returns."""
    with open(path + ".new", "wb") as file:
        file.write(content)
        file.flush()
        os.fsync(file.fileno())
    os.rename(path + ".new", path)
    sync_folder(os.path.dirname(path))


def sync_files(folder):
    """What stands in the folder itself is on the disk, with its names."""
    for entry in os.scandir(folder):
        if entry.is_file(follow_symlinks=False):
            with open(entry.path, "rb") as file:
                os.fsync(file.fileno())
    sync_folder(folder)


def move_durably(folder, to):
    """Moves a folder of files, which are on the disk before it is seen under its new name."""
    sync_files(folder)
    os.rename(folder, to)
    sync_folder(os.path.dirname(to))


def link_or_copy(path, to):
    """The same file under another name, or a copy of it on another file system."""
    try:
        os.link(path, to)
    except OSError:
        shutil.copyfile(path, to)
