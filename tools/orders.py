#!/usr/bin/env python3
"""The command orders of ldvtools, without an installation: `tools/orders.py --help` has its words."""
import sys

from ldvtools.orders import main

if __name__ == "__main__":
    sys.exit(main())
