#!/bin/sh
# Refuses the program its memory, one request at a time (refused.py says how), and counts the answers that
# aren't `out of memory`.
#
#     tests/robustness/refused.sh [--world FILE] [--jobs J]
#
# LDV names another program than the one of this checkout, CC the C compiler (default: cc).
set -eu

here=$(CDPATH='' cd -- "$(dirname "$0")" && pwd -P)
. "$here/common.sh"
"${CC:-cc}" -O2 -Wall -shared -fPIC -o "$work/refuse.so" "$here/refuse.c"
python3 "$here/refused.py" "$ldv" "$work/refuse.so" "$@"
