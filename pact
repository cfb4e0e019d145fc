#!/usr/bin/env bash
# Runs pact with the words given, in the caller's folder: the program that was built here or else the released one, whichever is of the sources
# that are there. Where neither is, it is built first. Ends with 127, the shell's status for a command that isn't there, where it can't be.
set -u
# Where a file may not grow (`ulimit -f`), a signal would end the program; ignored, it leaves the program to tell that it can't write.
trap '' XFSZ
root=${BASH_SOURCE[0]}
[ ! -L "$root" ] || root=$(readlink -f -- "$root")
[[ $root == */* ]] || root=./$root
root=$(CDPATH='' cd -- "${root%/*}" && pwd -P) || exit 127
# shellcheck source=release/functions.bash
. "$root/release/functions.bash" || exit 127
find_last_choice || choose_folder || exit 127
exec "$folder/pact_program" "$@"
