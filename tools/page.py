#!/usr/bin/env python3
"""The command page of ldvtools, without an installation: `tools/page.py --help` has its words."""
import sys

from ldvtools.page import main

if __name__ == "__main__":
    sys.exit(main())
