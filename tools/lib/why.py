"""Runs the program on words, hands everything through as it is, and says on standard error why it ended, where that was with 2 to 11.

usage: tools/why COMMAND WORDS..    (such as: tools/why run CATALOG KEY < SCRIPT > REPLIES)
COMMAND WORDS.. are the program's own words. Input, output and status are the program's: tools/why reads nothing of the one and writes
nothing to the other. It is started in the folder in which the program runs. PROGRAM=FILE names the program; else it is `hitchseason` on the
path; else tools/build's quick build of this repository. Where the program ended with another status than 2 to 11 nothing is said, but where a
signal ended it. What is said is found on the disk after the program ended; files and journals are read for it, and none is written.
It prints what stands in bad cells and how many records journals have: it is for the operator and the owner.
"""
import os
import resource
import shutil
import signal
import subprocess
import sys
import time

from causes import Before, causes, killed
from lines import harmless

TOP = os.path.dirname(os.path.dirname(os.path.dirname(os.path.abspath(__file__))))

HANDED_ON = (signal.SIGINT, signal.SIGTERM, signal.SIGHUP, signal.SIGQUIT)


class Progress:
    """Tells once a second, from the second second on, that tables are looked at."""

    def __init__(self):
        self.next = time.monotonic() + 2

    def __call__(self, rows):
        if time.monotonic() >= self.next:
            self.next = time.monotonic() + 1
            say([f"looking at the tables: {rows} rows .."])


def say(lines):
    """Writes to standard error, where there is one."""
    try:
        for line in lines:
            print(harmless(f"tools/why: {line}".encode(errors="backslashreplace").decode()), file=sys.stderr or open(os.devnull, "w"), flush=True)
    except OSError:
        pass


def program():
    named = os.environ.get("PROGRAM") or shutil.which("hitchseason")
    if named is None:
        named = f"{TOP}/out/hitchseason"
        subprocess.run([f"{TOP}/tools/build"], stdin=subprocess.DEVNULL, stdout=subprocess.DEVNULL, check=True)
    return named


def given():
    """Standard input as it was given to tools/why, or nothing where it was closed; no other process gets its number."""
    kept = os.environ.pop("WHY_INPUT", "0")
    if kept == "closed":
        return None
    os.set_inheritable(int(kept), False)
    return int(kept)


def ran(words, script):
    """The program's end: its status, or less 0 the signal that ended it."""
    closed = {"preexec_fn": lambda: os.close(0)} if script is None else {"stdin": script}
    child = subprocess.Popen([program(), *words], close_fds=False, **closed)
    for number in HANDED_ON:
        if signal.getsignal(number) != signal.SIG_IGN:
            signal.signal(number, lambda given, _: child.send_signal(given))
    status = child.wait()
    # From now on such a signal ends what is looked for, and the end is the program's.
    for number in HANDED_ON:
        if signal.getsignal(number) != signal.SIG_IGN:
            signal.signal(number, lambda *_: end(status))
    return status


def end(status):
    """Ends as the program did."""
    if status < 0:
        resource.setrlimit(resource.RLIMIT_CORE, (0, 0))
        signal.signal(-status, signal.SIG_DFL) if -status not in (signal.SIGKILL, signal.SIGSTOP) else None
        os.kill(os.getpid(), -status)
    os._exit(status if status >= 0 else 128 - status)


def main():
    words = sys.argv[1:]
    if words == ["--help"]:
        print(__doc__.strip())
        return
    if not words and sys.stderr is not None:
        print(__doc__.strip(), file=sys.stderr)
    script, before = given(), Before(words[0] if words else "")
    try:
        status = ran(words, script)
    except (OSError, subprocess.CalledProcessError) as fault:
        say([f"the program can't be run: {fault}"])
        os._exit(127)
    try:
        if 2 <= status <= 11:
            say(causes(status, words, before, script, Progress()))
        elif status < 0:
            say(killed(signal.Signals(-status).name, words, before))
    # Whatever goes wrong here, the end is the program's.
    except Exception as fault:
        say([f"no cause was found: {fault!r}"])
    end(status)


main()
