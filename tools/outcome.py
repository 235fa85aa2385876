#!/usr/bin/env python3
"""The command outcome of ldvtools, without an installation: `tools/outcome.py --help` has its words."""
import sys

from ldvtools.outcome import main

if __name__ == "__main__":
    sys.exit(main())
