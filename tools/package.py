#!/usr/bin/env python3
"""The command package of ldvtools, without an installation: `tools/package.py --help` has its words."""
import sys

from ldvtools.package import main

if __name__ == "__main__":
    sys.exit(main())
