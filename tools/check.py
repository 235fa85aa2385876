#!/usr/bin/env python3
"""The command check of ldvtools, without an installation: `tools/check.py --help` has its words."""
import sys

from ldvtools.check import main

if __name__ == "__main__":
    sys.exit(main())
