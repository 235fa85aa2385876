# What these scripts share: the program that is tried and a folder of their own. A script sets `here`, its
# folder, before it takes this in.
#
# LDV names another program than the one of this checkout.

root=$here/../..
ldv=${LDV:-$root/crates/ldv/out/ldv}
work=$(mktemp -d)
# Where Python finds the packages of tools/ and the programs of bench/.
PYTHONPATH=$root/tools:$root/bench${PYTHONPATH:+:$PYTHONPATH}
export PYTHONPATH
trap 'rm -rf "$work"' EXIT
trap 'exit 1' HUP INT TERM

# Builds the program of this checkout, if it isn't built. It is tried without the script.
if [ -z "${LDV:-}" ]; then
    printf '{"start":["main"],"files":{"main":"exit 0"}}' | "$root/ldv" run >"$work/out"
fi
