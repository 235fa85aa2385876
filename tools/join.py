#!/usr/bin/env python3
"""The command join of ldvtools, without an installation: `tools/join.py --help` has its words."""
import sys

from ldvtools.join import main

if __name__ == "__main__":
    sys.exit(main())
