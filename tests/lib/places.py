"""Where things stand: a script that imports this finds the modules of tools/lib and of tests/ by their names.

    TOP           the repository
    page(NAME)    a page of docs/ or docs/dev/ by its name
"""
import os
import sys

TOP = os.path.dirname(os.path.dirname(os.path.dirname(os.path.abspath(__file__))))
sys.path[:0] = [f"{TOP}/{folder}" for folder in ("tools/lib", "tests/lib", "tests/comparisons", "tests/pages")]


def page(name):
    places = [f"{TOP}/{folder}/{name}" for folder in ("docs", "docs/dev")]
    return next((place for place in places if os.path.isfile(place)), places[0])
