"""Whether a program's value is never below 0, by its form alone: as of a count, whose noisy answer may be below 0 all the same.

    never_negative(PROGRAM)     of a program as it is sent; False where that isn't known
"""
from functools import lru_cache

from .borrowed import programs


@lru_cache(maxsize=1024)
def never_negative(program):
    try:
        return bool(program) and programs.deep(lambda: is_from_zero(programs.read(program.encode()), {}))
    except programs.Refused:
        return False


def is_from_zero(node, known):
    """KNOWN says it of the names that a `let` binds."""
    parts = node.parts
    if node.form in ("size", "number", "sum", "clip"):
        return node.form == "size" or min(number for number in parts if isinstance(number, int)) >= 0
    if node.form == "name":
        return known.get(parts[0], False)
    if node.form == "let":
        return is_from_zero(parts[2], {**known, parts[0]: is_from_zero(parts[1], known)})
    if node.form in ("let!", "let,"):
        return is_from_zero(parts[-1], {name: found for name, found in known.items() if name not in parts[:-2]})
    if node.form == "*":
        return parts[0] >= 0 and is_from_zero(parts[1], known)
    if node.form in ("+", "if"):
        return all(is_from_zero(part, known) for part in parts[-2:])
    return False
