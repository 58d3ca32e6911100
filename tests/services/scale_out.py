#!/usr/bin/env python3
"""Runs the commands of docs/scale-out.md as they stand, one block after the other, from the top of a copy of the repository.

usage: bench/scale_out.py    (PROGRAM=FILE tries another build than tools/build's)
It wants Debian's haproxy, nftables and postgresql, of which it starts a database of its own, on no port. Ports 7000, 7001, 7100 and 7101
of 127.0.0.1, 127.0.0.2 and 127.0.0.3 must be free. A block must end with status 0 and print what the page says that it prints. It ends with status 1
where one differs, and with 2 where something is wanting.
"""
import glob
import os
import pwd
import re
import shutil
import subprocess
import sys
import tempfile
from contextlib import contextmanager

sys.path.insert(0, f"{os.path.dirname(os.path.abspath(__file__))}/../lib")
from places import TOP, page  # noqa: E402

PROGRAM = os.path.abspath(os.environ.get("PROGRAM", f"{TOP}/out/hitchseason"))
PAGE = "docs/scale-out.md"
WANTED = ("haproxy", "nft", "psql", "createdb")
BLOCK = re.compile(r"^```console\n(.*?)^```\n(?:\nprints\n\n```\n(.*?)^```\n)?", re.M | re.S)


def copy_to(room):
    names = subprocess.run(["git", "ls-files", "examples", "tools", "clients"], cwd=TOP, capture_output=True, check=True, text=True).stdout.split()
    for name in names:
        os.makedirs(os.path.dirname(f"{room}/{name}"), exist_ok=True)
        shutil.copy2(f"{TOP}/{name}", f"{room}/{name}")
    os.makedirs(f"{room}/out")
    shutil.copy(PROGRAM, f"{room}/out/hitchseason")


@contextmanager
def database():
    """A cluster of its own, reached by a socket in its folder; PostgreSQL doesn't run as root, so `postgres` has it then."""
    found = sorted(glob.glob("/usr/lib/postgresql/*/bin"))
    if not found:
        print("postgresql is wanted")
        sys.exit(2)
    with tempfile.TemporaryDirectory() as folder:
        who = ["runuser", "-u", "postgres", "--"] if os.geteuid() == 0 else []
        user = "postgres" if who else pwd.getpwuid(os.geteuid())[0]
        if who:
            shutil.chown(folder, "postgres")
        pg_ctl = [*who, f"{found[-1]}/pg_ctl", "-D", f"{folder}/data", "-l", f"{folder}/log", "-s", "-w"]
        quiet = {"cwd": "/", "check": True, "stdin": subprocess.DEVNULL, "stdout": subprocess.DEVNULL}
        subprocess.run([*who, f"{found[-1]}/initdb", "-A", "trust", "-D", f"{folder}/data"], **quiet)
        subprocess.run([*pg_ctl, "-o", f"-c listen_addresses='' -c unix_socket_directories={folder}", "start"], **quiet)
        try:
            yield {"PGHOST": folder, "PGUSER": user}
        finally:
            subprocess.run([*pg_ctl, "-m", "fast", "stop"], **quiet)


def ended(room):
    """What a block that failed has left running: what it wrote the numbers of."""
    for name in glob.glob(f"{room}/*.pid"):
        with open(name) as file:
            subprocess.run(["kill", file.read().strip()], stderr=subprocess.DEVNULL)


def main():
    missing = [name for name in WANTED if shutil.which(name, path=f"{os.environ['PATH']}:/usr/sbin") is None]
    if missing:
        print(f"{', '.join(missing)}: wanted, and not there")
        return 2
    if "PROGRAM" not in os.environ:
        subprocess.run([f"{TOP}/tools/build"], check=True)
    blocks = differences = 0
    with tempfile.TemporaryDirectory() as room, database() as of_it, open(PAGE) as file:
        copy_to(room)
        environment = {**os.environ, **of_it, "PATH": f"{os.environ['PATH']}:/usr/sbin"}
        try:
            for commands, wanted in BLOCK.findall(file.read()):
                blocks += 1
                ran = subprocess.run(["bash", "-ec", commands], cwd=room, env=environment, stdin=subprocess.DEVNULL, capture_output=True, text=True)
                if ran.returncode != 0 or (wanted and ran.stdout != wanted):
                    differences += 1
                    print(f"status {ran.returncode} of\n{commands}\n{ran.stdout}{ran.stderr}")
        finally:
            ended(room)
    print(f"{blocks} blocks of commands, {differences} differences")
    return 1 if differences else 0


sys.exit(main())
