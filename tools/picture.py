#!/usr/bin/env python3
"""The command picture of ldvtools, without an installation: `tools/picture.py --help` has its words."""
import sys

from ldvtools.picture import main

if __name__ == "__main__":
    sys.exit(main())
