#!/bin/sh
# Asks texts again and again, and compares each reply with that of a text that is asked once (repeated.py says
# how). Worlds that differ are kept in the folder where it is called.
#
#     tests/robustness/repeated.sh [--worlds N] [--seed S] [--folder FOLDER]
#
# LDV names another program than the one of this checkout.
set -eu

here=$(CDPATH='' cd -- "$(dirname "$0")" && pwd -P)
. "$here/common.sh"
python3 "$here/repeated.py" "$ldv" "$@"
