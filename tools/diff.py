#!/usr/bin/env python3
"""The command diff of ldvtools, without an installation: `tools/diff.py --help` has its words."""
import sys

from ldvtools.diff import main

if __name__ == "__main__":
    sys.exit(main())
