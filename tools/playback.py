#!/usr/bin/env python3
"""The command playback of ldvtools, without an installation: `tools/playback.py --help` has its words."""
import sys

from ldvtools.playback import main

if __name__ == "__main__":
    sys.exit(main())
