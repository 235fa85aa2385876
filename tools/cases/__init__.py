"""What makes cases: packages as Python structures, their bytes, and each rule with packages that break it.

Written from docs/FORMATS.md and by hand; nothing is taken from the program.
"""
