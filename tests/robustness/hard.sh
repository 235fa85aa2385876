#!/bin/sh
# Statements by `ldv run` over values that are hard for a map or a sort: all equal, falling, and texts that
# differ in their last bytes alone, as a multiple of what values in no order take (hard.py). Then worlds that
# somebody makes to be dear, each as a multiple of a usual one of its size (hard_worlds.py; SCALE makes all smaller).
#
# LDV names another program than the one of this checkout, SIZE another number of rows, CASES some of the
# cases (group distinct ..), RUNS how often each is run.
set -eu

here=$(CDPATH='' cd -- "$(dirname "$0")" && pwd -P)
. "$here/common.sh"

set -- "$ldv" "$work"
[ -z "${SIZE:-}" ] || set -- "$@" --size "$SIZE"
[ -z "${CASES:-}" ] || set -- "$@" --cases "$(printf '%s' "$CASES" | tr ' ' ',')"
[ -z "${RUNS:-}" ] || set -- "$@" --runs "$RUNS"
python3 "$here/hard.py" "$@"
[ -n "${CASES:-}" ] || python3 "$here/hard_worlds.py" "$ldv" "$work" --scale "${SCALE:-1}" --runs "${RUNS:-3}"
