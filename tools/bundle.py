#!/usr/bin/env python3
"""The command bundle of ldvtools, without an installation: `tools/bundle.py --help` has its words."""
import sys

from ldvtools.bundle import main

if __name__ == "__main__":
    sys.exit(main())
