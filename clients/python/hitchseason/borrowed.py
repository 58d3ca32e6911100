"""What the package takes of the repository's tools, which stand in `tools/` at its top, and their modules in `tools/lib/`: words of refusals, the
language's second reader, and what an owner gives to analysts. Nothing of it is copied here; where the package is installed without the repository,
they stand in its own folder (backend/wheels.py).

The tools import one another by short names (`tables`, `lines`), by which whoever imports the package may mean other modules: so these names stand
for tools only while the tools are loaded, and sys.path is left as it was.
"""
import importlib.machinery
import importlib.util
import sys
from os import listdir
from os.path import abspath, dirname, isdir

HERE = dirname(abspath(__file__))
TOP = HERE if isdir(f"{HERE}/tools/lib") else dirname(dirname(dirname(HERE)))
TOOLS = f"{TOP}/tools"
LIB = f"{TOOLS}/lib"


def command(name):
    """A command of `tools/` as a module."""
    loader = importlib.machinery.SourceFileLoader(f"hitchseason_{name}", f"{TOOLS}/{name}")
    module = importlib.util.module_from_spec(importlib.util.spec_from_loader(loader.name, loader))
    kept, sys.dont_write_bytecode = sys.dont_write_bytecode, True
    try:
        loader.exec_module(module)
    finally:
        sys.dont_write_bytecode = kept
    return module


NAMES = [name.removesuffix(".py") for name in listdir(LIB) if name.endswith(".py")]
others, path = {name: sys.modules.pop(name) for name in NAMES if name in sys.modules}, list(sys.path)
sys.path.insert(0, LIB)
try:
    import bounds
    import lines
    import meanings
    import name_hints
    import names
    import options
    import program_parts
    import programs
    import runs
    import sql_words
    import tables

    explain = command("explain")
    public = command("public")
finally:
    sys.path[:] = path
    for name in NAMES:
        sys.modules.pop(name, None)
    sys.modules.update(others)

__all__ = [
    "TOOLS", "TOP", "bounds", "explain", "lines", "meanings", "name_hints", "names", "options", "program_parts", "programs", "public", "runs", "sql_words", "tables",
]  # fmt: skip
