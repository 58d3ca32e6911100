"""Which processes have a file, as far as this user may see: those that hold a lock on it, and else those that have it open for writing.

    holders(PATH)     a sentence for each of them

The program locks each journal that it opens, for as long as it runs, by `flock`. A lock goes with the process, however that ends.
"""
import os

LOCKS = "/proc/locks"


def lockers(path):
    """The numbers of the processes that hold a lock on a file, by the system's list."""
    found = os.stat(path)
    file = f"{os.major(found.st_dev):02x}:{os.minor(found.st_dev):02x}:{found.st_ino}"
    try:
        with open(LOCKS, encoding="ascii") as locks:
            rows = [line.split() for line in locks]
    except OSError:
        return set()
    # A row that waits for a lock has an arrow behind its number. A lock of a file that a child has, too, is that of whoever took it.
    return {int(row[4]) for row in rows if len(row) > 5 and row[1] != "->" and row[5] == file and int(row[4]) > 0}


def openers(path):
    """The numbers of the processes that have a file open for writing."""
    wanted, found = os.stat(path), set()
    for process in filter(str.isdigit, os.listdir("/proc")):
        try:
            for number in os.listdir(f"/proc/{process}/fd"):
                if is_written(process, number, wanted):
                    found.add(int(process))
        except OSError:
            continue
    return found - {os.getpid()}


def is_written(process, number, wanted):
    try:
        one = os.stat(f"/proc/{process}/fd/{number}")
        if (one.st_dev, one.st_ino) != (wanted.st_dev, wanted.st_ino):
            return False
        with open(f"/proc/{process}/fdinfo/{number}", encoding="ascii") as info:
            flags = next(int(line.split()[1], 8) for line in info if line.startswith("flags:"))
    except (OSError, StopIteration):
        return False
    return flags & os.O_ACCMODE != os.O_RDONLY


def read_proc(process, name):
    try:
        with open(f"/proc/{process}/{name}", "rb") as file:
            return file.read().rstrip(b"\0").replace(b"\0", b" ").decode(errors="backslashreplace")
    except OSError:
        return ""


def folder_of(process):
    try:
        return os.readlink(f"/proc/{process}/cwd")
    except OSError:
        return None


def said(process):
    command, folder = read_proc(process, "cmdline") or read_proc(process, "comm").strip(), folder_of(process)
    return f"process {process}{f', `{command}`' if command else ''}{f', in {folder}' if folder else ''}"


def holders(path):
    try:
        locked, opened = lockers(path), openers(path)
    except OSError:
        return []
    if locked:
        alive = {one for one in locked if os.path.exists(f"/proc/{one}")} | (opened if not opened & locked else set())
        return [f"{path} is locked by {said(one)}." for one in sorted(alive or locked)]
    return [f"{path} is open for writing in {said(one)}." for one in sorted(opened)]
