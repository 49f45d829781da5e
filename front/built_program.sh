# shellcheck shell=sh
# What install.sh and package.sh begin with. It reads their one word, a folder, and finds the
# program that REZOVAMY names, or else the place of the one that is built in this clone.
#
# EXAMPLE is a call of the script. `top` becomes the clone, `program` the path of the program, and
# `fault` ends the script with a line and a status.

BUILD="build it with (cd crates/rezovamy && rt run), or name it in REZOVAMY"

fault() {
    echo "${0##*/}: $1" >&2
    exit "${2:-1}"
}

# Ends the script if no program is at the path.
demand_program() {
    if [ ! -f "$program" ] || [ ! -x "$program" ]; then
        fault "no program is at $program: $BUILD"
    fi
}

if [ $# -ne 1 ]; then fault "a folder is wanted, as in $EXAMPLE" 2; fi
case $1 in "" | -*) fault "'$1' is no folder: $EXAMPLE" 2 ;; esac
top=$(cd "$(dirname "$0")/.." && pwd -P)
program=${REZOVAMY:-$top/crates/rezovamy/out/rezovamy}
case $program in /*) ;; *) program=$PWD/$program ;; esac
