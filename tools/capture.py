#!/usr/bin/env python3
"""The command capture of ldvtools, without an installation: `tools/capture.py --help` has its words."""
import sys

from ldvtools.capture import main

if __name__ == "__main__":
    sys.exit(main())
