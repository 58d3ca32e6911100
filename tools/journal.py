#!/usr/bin/env python3
"""Journals, read apart from the server: tools/lib/journal.py says more."""
import sys
from os.path import dirname, realpath

sys.path.insert(0, f"{dirname(realpath(__file__))}/lib")
from journal import command  # noqa: E402

command()
