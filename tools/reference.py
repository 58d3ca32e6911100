#!/usr/bin/env python3
"""What the server must write for a script, worked out apart from it: tools/lib/reference.py says more."""
import sys
from os.path import dirname, realpath

sys.path.insert(0, f"{dirname(realpath(__file__))}/lib")
from reference import main  # noqa: E402

main()
