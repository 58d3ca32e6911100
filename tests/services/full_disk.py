#!/usr/bin/env python3
"""A disk that is filled and freed under load: who is told that an owner is shut, and that it comes back within a minute.

usage: tests/services/full_disk.py    (PROGRAM=FILE tries another build than tools/build's)
The journals lie on a small tmpfs of their own, where this may be mounted; and once more on a disk whose writes fail for a while (tests/faults/fail_disk.c).
Three analysts ask through tools/door without a pause, two of them an owner whose journal has to grow. The disk is filled. Then

- the door says on standard error that the owner's disk failed, and so does its log; a mark is there, and tools/watch ends with status 3 and names the owner;
- another owner's asks are answered still, and nothing is started anew while there is no room (tools/lib/shut.py asks for the journal's next area).

The disk is freed. Within a minute tools/keep_serving has started the service anew, the owner answers, no mark is left, and tools/watch ends with 0. No
answer that was given is lost, by the second reader's books. It ends with status 1 where one differs.
"""
import os
import subprocess
import sys
import tempfile
import threading
import time
from contextlib import suppress

sys.path.insert(0, f"{os.path.dirname(os.path.abspath(__file__))}/../lib")
import places  # noqa: E402,F401
from served import PROGRAM, TOP, Room, Wrong, free_ports, is_listened_at, need_program
from journal import HEAD, SLOT  # noqa: E402

DOOR, WORKERS = f"{TOP}/tools/door", 3
CAPACITY, MINUTE = 2**13, 60


class Disk:
    """Where the journals lie: it can be filled, so that writes fail, and freed."""

    def __init__(self, folder, by_mount):
        self.folder, self.filler, self.given = folder, f"{folder}/journals/filler", {}
        os.mkdir(f"{folder}/journals")
        words = ["mount", "-t", "tmpfs", "-o", "size=1m,mode=0700", "none", f"{folder}/journals"]
        self.mounted = by_mount
        if by_mount:
            subprocess.run(words, capture_output=True, check=True)
        else:
            self.filler = f"{folder}/filled"
            subprocess.run(["cc", "-shared", "-fPIC", "-O2", "-o", f"{folder}/fail.so", f"{TOP}/tests/faults/fail_disk.c", "-ldl"], check=True)
            self.given = {"LD_PRELOAD": f"{folder}/fail.so", "FAIL_WHILE": self.filler, "ONLY": "/0."}

    def fill(self):
        with open(self.filler, "wb", buffering=0) as file:
            try:
                while self.mounted:
                    file.write(bytes(4096))
            except OSError:
                pass

    def free(self):
        os.unlink(self.filler)

    def close(self):
        if self.mounted:
            subprocess.run(["umount", "-l", f"{self.folder}/journals"], check=True)


class Analyst:
    """Asks one owner by a door without a pause, and again by another one where the session ends. `told` has the replies with their times."""

    def __init__(self, name, owner, port, folder):
        self.name, self.owner, self.folder, self.told, self.ends, self.pause = name, owner, folder, [], False, 0.05
        self.words = [DOOR, name, str(port), str(WORKERS), "--catalog", f"{folder}/catalog.json", "--shut", f"{folder}/shut", "--log", f"{folder}/log.{name}"]
        self.noise = open(f"{folder}/noise.{name}", "w+b")
        self.thread = threading.Thread(target=self.run, daemon=True)
        self.thread.start()

    def run(self):
        while not self.ends:
            pipes = {"stdin": subprocess.PIPE, "stdout": subprocess.PIPE, "stderr": self.noise}
            with suppress(OSError), subprocess.Popen(self.words, **pipes) as door:
                self.session(door)
                door.stdin.close()

    def session(self, door):
        while not self.ends:
            door.stdin.write(f"ask {self.owner} 0.000001 size people\n".encode())
            door.stdin.flush()
            reply = door.stdout.readline().decode()
            self.told.append((time.monotonic(), reply.rstrip("\n")))
            if not reply or reply.startswith("door "):
                return
            time.sleep(self.pause if reply.startswith("answer") else 0.2)

    def since(self, moment, what):
        return [reply for when, reply in list(self.told) if when > moment and reply.startswith(what)]

    def said(self):
        self.noise.seek(0)
        return self.noise.read().decode()

    def end(self):
        self.ends = True
        self.thread.join(60)
        self.noise.close()


def must(what, found, wanted=True):
    if found != wanted:
        raise Wrong(f"{what}: {found!r}, wanted {wanted!r}")


def wait_for(what, holds, seconds=MINUTE):
    begun = time.monotonic()
    while not holds():
        if time.monotonic() > begun + seconds:
            raise Wrong(f"waited {seconds} s in vain: {what}")
        time.sleep(0.1)
    return time.monotonic() - begun


def watched(folder, number):
    """The status of tools/watch over a copy, and what it says."""
    copy = f"{folder}/copy{number}"
    subprocess.run([f"{TOP}/tools/snapshot", copy, folder], check=True)
    ran = subprocess.run([f"{TOP}/tools/watch", f"{folder}/catalog.json", copy, "--shut", f"{folder}/shut"], capture_output=True, text=True)
    return ran.returncode, ran.stdout + ran.stderr


def keeper(room, disk, port, ends):
    words = [f"{TOP}/tools/keep_serving", room.folder, "catalog.json", "key", "--port", str(port), "--workers", str(WORKERS), "--each", "1000000"]
    given = {**os.environ, **disk.given, "PROGRAM": PROGRAM, "SHUT": f"{room.folder}/shut", "LOOK": "2"}
    kept = subprocess.Popen(words, stdin=subprocess.DEVNULL, stderr=ends, env=given)
    wait_for("the service listens", lambda: all(is_listened_at(port + worker) for worker in range(WORKERS)))
    return kept


def filled(room, disk, analysts, ends):
    """The disk is full before the journal of census grows."""
    ann, bob, _ = analysts
    disk.fill()
    begun = time.monotonic()
    wait_for("an owner is shut", lambda: ann.since(begun, "no 42") and bob.since(begun, "no 42"))
    wait_for("a door says so", lambda: "the disk of census failed" in ann.said() + bob.said(), 5)
    must("the mark", "census" in os.listdir(f"{room.folder}/shut"))
    must("the reply that came first", len(ann.since(begun, "no 52") + bob.since(begun, "no 52")) >= 1)
    for name in ("ann", "bob"):
        with open(f"{room.folder}/log.{name}") as file:
            must(f"{name}'s log", '"kind": "shut", "owner": "census"' in file.read())
    status, said = watched(room.folder, 1)
    must(f"tools/watch says {said}", (status, "census is shut" in said), (3, True))
    moment = time.monotonic()
    time.sleep(6)
    beside = analysts[2].since(moment, "")
    must(f"another owner answers beside it: {beside}", sum(reply.startswith("answer") for reply in beside) > 2)
    ends.seek(0)
    must("starts without room", ends.read().count(b" start in "), 1)


def freed(room, disk, analysts, ends):
    ann, bob, _ = analysts
    disk.free()
    begun = time.monotonic()
    took = wait_for("the owner answers", lambda: ann.since(begun, "answer") and bob.since(begun, "answer"))
    must("marks behind the start", os.listdir(f"{room.folder}/shut"), [])
    status, said = watched(room.folder, 2)
    must(f"tools/watch says {said}", (status, "is shut" in said), (0, False))
    ends.seek(0)
    kept = ends.read().decode()
    must(f"keep_serving says {kept}", ("a new start is due: census" in kept, kept.count(" start in ")), (True, 2))
    return took


def answers_stand(room, analysts):
    """Each answer that somebody got is in the journal."""
    total = 0
    for order, name in enumerate(room.names):
        settled = room.book(order).settled
        for analyst in analysts:
            for _, reply in analyst.told if analyst.owner == name else ():
                if reply.startswith("answer "):
                    number, value = map(int, reply.split(" ")[1:3])
                    must(f"number {number} of {name}", settled[number].answer if number in settled else None, value)
                    total += 1
    return total


def may_mount():
    """In a place of its own, so that nothing is left of it."""
    words = ["unshare", "-m", "mount", "-t", "tmpfs", "-o", "size=1m", "none", "/mnt"]
    with suppress(OSError):
        return os.geteuid() == 0 and subprocess.run(words, capture_output=True).returncode == 0
    return False


def tried(folder, by_mount):
    disk = Disk(folder, by_mount)
    room = Room(folder, 2, capacity=CAPACITY)
    os.mkdir(f"{folder}/shut")
    port, ends, analysts, kept = free_ports(WORKERS), open(f"{folder}/ends", "w+b"), [], None
    try:
        kept = keeper(room, disk, port, ends)
        analysts = [Analyst(name, owner, port, folder) for name, owner in (("ann", "census"), ("bob", "census"), ("eve", "labour"))]
        # So that the journal of labour needs no room for a while, it has just grown for the second time, and little is asked.
        # It is looked at each tenth of a second, in which no more may be asked than the new area has room for.
        analysts[2].pause = 0.005
        wait_for("the journal of labour has grown", lambda: os.path.getsize(f"{folder}/journals/1.bud") > HEAD + SLOT * (64 + 128))
        analysts[2].pause = 0.5
        filled(room, disk, analysts, ends)
        took = freed(room, disk, analysts, ends)
    finally:
        for analyst in analysts:
            analyst.end()
        if kept:
            kept.terminate()
            kept.wait(30)
        ends.close()
        try:
            total = answers_stand(room, analysts)
        finally:
            disk.close()
    must("keep_serving's status", kept.returncode, 0)
    how = "a tmpfs was filled and freed" if disk.mounted else "writes failed for a while"
    return f"{how}: the owner answers {took:.0f} s later, and {total} answers stand"


def main():
    if sys.argv[1:] == ["--help"]:
        print(__doc__.strip())
        return
    need_program()
    ways = [True, False] if may_mount() else [False]
    for by_mount in ways:
        with tempfile.TemporaryDirectory() as folder:
            try:
                print(tried(folder, by_mount))
            except Wrong as fault:
                print(f"tests/services/full_disk.py: {fault}")
                sys.exit(1)
    print(f"{len(ways)} disks filled and freed under load")


if __name__ == "__main__":
    main()
