#!/usr/bin/env python3
"""The command prov of ldvtools, without an installation: `tools/prov.py --help` has its words."""
import sys

from ldvtools.prov import main

if __name__ == "__main__":
    sys.exit(main())
