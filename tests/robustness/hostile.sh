#!/bin/sh
# Gives the program inputs made by mutation (hostile.py says which), and counts the answers that aren't as
# they have to be.
#
#     tests/robustness/hostile.sh [--count N] [--seed S] [--jobs J] ...
#
# LDV names another program than the one of this checkout.
set -eu

here=$(CDPATH='' cd -- "$(dirname "$0")" && pwd -P)
. "$here/common.sh"
python3 "$here/hostile.py" "$ldv" --keep "$root/hostile_inputs" "$@"
