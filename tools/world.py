#!/usr/bin/env python3
"""The command world of ldvtools, without an installation: `tools/world.py --help` has its words."""
import sys

from ldvtools.world import main

if __name__ == "__main__":
    sys.exit(main())
