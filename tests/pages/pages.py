#!/usr/bin/env python3
"""Runs the blocks of commands of each page in order, in one shell a page, as a reader pastes them from the top of a new clone.

usage: tests/pages/pages.py [PAGE ..]    (PROGRAM=FILE tries another build than tools/build's)
Each page has a copy of the repository with the built program, and one bash for all of its blocks: where one goes to a folder or sets a
variable, the next goes on from there. No command of a block may fail, and it must print what stands in the next block where only
`prints` or `says` is between them, or after `#` on its line where that begins with `ok` or `no`. Lines with `rt`, which proves, are left
out; blocks without the word `sh` aren't run (forms of commands, and what root does). What still runs at a page's end is ended then.
Programs are tried by first_programs.py and language.py, scale-out.md by scale_out.py. It ends with status 1 where a block differs.
"""
import glob
import os
import re
import shlex
import shutil
import signal
import subprocess
import sys
import tempfile

sys.path.insert(0, f"{os.path.dirname(os.path.abspath(__file__))}/../lib")
from places import TOP  # noqa: E402

PROGRAM = os.path.abspath(os.environ.get("PROGRAM", f"{TOP}/out/hitchseason"))
WAYS = ("README.md", "docs/*.md", "docs/dev/*.md", "examples/*/README.md")
BLOCK = re.compile(r"^( *)```sh\n(.*?)^\1```\n(?:\n *(?:prints|says):?\n\n *```\n(.*?)^ *```\n)?", re.M | re.S)
SAID = re.compile(r"#\s+((?:ok|no) .*)$", re.M)
PROVES = re.compile(r"(^|&& )rt ")
# How long a page may take, in seconds.
LIMIT = 600


class Block:
    """What is run, what it must print (nothing where that isn't said), and its line in the page."""

    def __init__(self, found, text):
        lines = [line for line in found[2].splitlines() if not PROVES.search(line.strip())]
        self.commands = "\n".join(lines) + "\n"
        self.wanted = found[3] or "".join(f"{said}\n" for said in SAID.findall(found[2]))
        self.line = text.count("\n", 0, found.start()) + 1

    def is_run(self):
        return any(line.strip() and not line.lstrip().startswith("#") for line in self.commands.splitlines())


def blocks_of(page):
    with open(f"{TOP}/{page}") as file:
        text = file.read()
    return [block for block in (Block(found, text) for found in BLOCK.finditer(text)) if block.is_run()]


def copy_to(room):
    """The repository's files, with a program that is newer than they are."""
    names = subprocess.run(["git", "ls-files"], cwd=TOP, capture_output=True, check=True, text=True).stdout.split()
    for name in names:
        if not os.path.exists(f"{TOP}/{name}"):
            continue
        os.makedirs(os.path.dirname(f"{room}/{name}"), exist_ok=True)
        shutil.copy2(f"{TOP}/{name}", f"{room}/{name}")
    os.makedirs(f"{room}/out")
    shutil.copy(PROGRAM, f"{room}/out/hitchseason")


def script_of(blocks, said):
    """One shell's script: each block from a file of its own, with what it prints, its status, and the commands that failed."""
    lines = []
    for number, block in enumerate(blocks):
        at = shlex.quote(f"{said}/{number}")
        with open(f"{said}/{number}.sh", "w") as file:
            file.write(block.commands)
        lines += [
            f"trap 'echo \"status $?: $BASH_COMMAND\" >> {at}.failed' ERR",
            f". {at}.sh > {at}.out 2> {at}.err < /dev/null",
            f"echo $? > {at}.status",
        ]
    return "\n".join(lines) + "\n"


def ended(shell):
    """The shell and all that it has begun, which is in a session of its own."""
    try:
        os.killpg(shell.pid, signal.SIGKILL)
    except ProcessLookupError:
        pass
    shell.wait()


def run(blocks, room, said):
    script = script_of(blocks, said)
    with open(f"{said}/script", "w") as file:
        file.write(script)
    # A page's own program is the copy's.
    environment = {name: value for name, value in os.environ.items() if name != "PROGRAM"}
    nothing = subprocess.DEVNULL
    shell = subprocess.Popen(["bash", f"{said}/script"], cwd=room, env=environment, stdin=nothing, stdout=nothing, stderr=nothing, start_new_session=True)
    try:
        shell.wait(LIMIT)
    except subprocess.TimeoutExpired:
        pass
    ended(shell)


def text_of(name):
    try:
        with open(name, errors="replace") as file:
            return file.read()
    except FileNotFoundError:
        return ""


def differences_of(page, blocks, said):
    differences = 0
    for number, block in enumerate(blocks):
        at = f"{said}/{number}"
        out, failed, status = text_of(f"{at}.out"), text_of(f"{at}.failed"), text_of(f"{at}.status").strip() or "none: it didn't end"
        if status != "0" or failed or (block.wanted and out != block.wanted):
            differences += 1
            print(f"{page}:{block.line}: status {status} of\n{block.commands}{failed}{out}{text_of(f'{at}.err')}")
            if block.wanted and out != block.wanted:
                print(f"and the page says\n{block.wanted}")
    return differences


def main():
    if "PROGRAM" not in os.environ:
        subprocess.run([f"{TOP}/tools/build"], check=True)
    pages = sys.argv[1:] or [page for way in WAYS for page in sorted(glob.glob(way, root_dir=TOP))]
    tried = differences = 0
    for page in pages:
        blocks = blocks_of(page)
        if not blocks:
            continue
        with tempfile.TemporaryDirectory() as room, tempfile.TemporaryDirectory() as said:
            copy_to(room)
            run(blocks, room, said)
            tried += len(blocks)
            differences += differences_of(page, blocks, said)
    print(f"{tried} blocks of commands, {differences} differences")
    return 1 if differences else 0


sys.exit(main())
