# Which program the launcher runs, and when it builds one: over a tree of two crates and one of tests, by a stand-in for the toolchain that counts
# its builds and makes a program of that number.
# shellcheck source=/dev/null
. "$checks/tree.sh"

# The released program is run at once, with the toolchain and without; a link, another folder and no place for what is found out change nothing.
fresh
count runs_released "$plain"
count runs_released "$plain"
count runs_released "$with"
ln -s "$tree/pact" "$scratch/linked"
launcher=$scratch/linked count runs_released "$plain"
runs_from_elsewhere() { (cd "$tree/bin" && launcher=../pact runs_released "$plain"); }
count runs_from_elsewhere
count runs_without_cache
# A checkout that can't be written: nothing in it is.
find "$tree" -printf '%p %i %s %C@\n' >"$scratch/before"
chmod -R a-w "$tree"
rm -rf "$scratch/cache"
count runs_released "$plain"
chmod -R u+w "$tree"
find "$tree" -newer "$scratch/before" -type f -printf '%p\n' >"$scratch/written"
count cmp "$scratch/written" /dev/null
# Two first calls at once.
two_at_once() {
    rm -rf "$scratch/cache"
    (PATH=$1 XDG_CACHE_HOME=$scratch/cache "$BASH" "$tree/pact" run 1 >"$scratch/first" 2>/dev/null) &
    (PATH=$1 XDG_CACHE_HOME=$scratch/cache "$BASH" "$tree/pact" run 2 >"$scratch/second" 2>/dev/null) &
    wait
    is_text 'the first output' "$(cat "$scratch/first")" "$2 of run 1" && is_text 'the second output' "$(cat "$scratch/second")" "$2 of run 2"
}
count two_at_once "$plain" 'released,'
# What is touched, or written again as it was, is the same.
touch "$tree/crates/low/src/lib.rt"
count runs_released "$plain"
cp "$tree/crates/low/src/lib.rt" "$scratch/same"
echo other >"$tree/crates/low/src/lib.rt"
cp "$scratch/same" "$tree/crates/low/src/lib.rt"
count runs_released "$with"
# The program doesn't stand on a crate of tests.
echo more >>"$tree/crates/tests/src/lib.rt"
count runs_released "$plain"

# A source that has changed, and what else is a source.
other='pact: the released program is of other sources, and the toolchain'"'"'s command rt isn'"'"'t on the PATH to build another'
changes() {
    fresh
    runs_released "$plain" || return 1
    "$@"
    fails_with "$other" "$plain" && fails_with "$other" "$plain"
}
renamed() { mv "$tree/crates/low/src/lib.rt" "$tree/crates/low/src/other.rt"; }
older() { echo older >"$scratch/older"; touch -d 2001-01-01 "$scratch/older"; cp -p "$scratch/older" "$tree/crates/low/src/lib.rt"; }
linked() { rm "$tree/crates/low/src/lib.rt"; echo new >"$scratch/new"; ln -s "$scratch/new" "$tree/crates/low/src/lib.rt"; }
added() { mkdir "$tree/crates/low/proofs"; echo five >"$tree/crates/low/proofs/Lib.antt"; }
count changes appended crates/low/src/lib.rt
count changes appended crates/low/specs/Lib.antt
count changes appended crates/pact_program/src/main.rt
count changes appended crates.txt
count changes appended HANDLES
count changes rm "$tree/crates/low/specs/Lib.antt"
count changes renamed
count changes older
count changes linked
count changes added
# with the toolchain one is built, once, and again for each change
fresh
appended crates/low/src/lib.rt
count runs_build 1 "$with"
count grep -q '^pact: the released program is of other sources, so one is built$' "$scratch/err"
count grep -q '^pact: 1 of 2 crates: low, [0-9]* s$' "$scratch/err"
count grep -q '^pact: 2 of 2 crates: pact_program, [0-9]* s$' "$scratch/err"
count grep -q '^pact: built in [0-9]* s$' "$scratch/err"
count runs_build 1 "$with"
count test ! -s "$scratch/err"
count runs_build 1 "$plain"
count runs_build 1 "$with"
touch "$tree/crates/low/src/lib.rt"
count runs_build 1 "$with"
count test ! -s "$scratch/err"
added
count runs_build 2 "$with"
rm -r "$tree/crates/low/proofs"
count runs_build 3 "$with"
# of another toolchain too, and not where its command alone was written again
touch "$tree/bin/rt"
count runs_build 3 "$with"
echo 'kit two' >"$tree/kit"
touch "$tree/bin/rt"
count runs_build 4 "$with"
# what changed while it was built is built again
touch "$tree/hurried"
appended crates/low/src/lib.rt
count runs_build 5 "$with"
rm "$tree/hurried"
count runs_build 6 "$with"
count runs_build 6 "$with"
# the sources of the release again: it is run, and what was built is left
fresh_release_is_found() { fresh; runs_released "$with"; }
count fresh_release_is_found
# two first calls at once build once
appended crates/low/src/lib.rt
count two_at_once "$with" 'build 1'
count test "$(cat "$tree/builds")" = 1
# A build that fails says where, and leaves nothing that passes for a program.
fresh
touch "$tree/broken"
appended crates/low/src/lib.rt
count fails_with 'pact: the build failed' "$with"
count grep -qx "pact: low failed (log: $scratch/cache/pact$tree/@/trees/low.log)" "$scratch/err"
count grep -qx '    no proof' "$scratch/err"
count fails_with 'pact: the build failed' "$with"
rm "$tree/broken"
count runs_build 1 "$with"

# The program of the build before is no program of a source that was refused.
echo bad >>"$tree/crates/pact_program/src/main.rt"
touch "$tree/refused"
count fails_with 'pact: the build failed' "$with"
rm "$tree/refused"
count runs_build 2 "$with"
# Many crates on one, all of them done in no time.
fresh
for number in 1 2 3 4 5 6 7 8 9 10; do
    mkdir -p "$tree/crates/side_$number/src"
    echo "$number" >"$tree/crates/side_$number/src/lib.rt"
    echo "side_$number: low"
done >"$scratch/sides"
{ echo low:; cat "$scratch/sides"; echo "pact_program: low $(cut -d : -f 1 "$scratch/sides" | tr '\n' ' ')"; } >"$tree/crates.txt"
count runs_build 1 "$with"
count grep -q '^pact: 12 of 12 crates: pact_program, ' "$scratch/err"
# A build that is ended from outside leaves no lock, and a later call builds.
fresh
appended crates/low/src/lib.rt
touch "$tree/slow"
PATH=$with XDG_CACHE_HOME=$scratch/cache "$BASH" "$tree/pact" run >/dev/null 2>&1 &
ended=$!
sleep 0.5
kill "$ended"
wait "$ended"
count test $? = 143
rm "$tree/slow"
count runs_build 1 "$with"

# Where no file may grow beyond a kilobyte, nothing is ended by the signal for that: not the launcher, which has things to write of its own, and not the
# program, which it leaves the signal ignored.
fresh
printf '#!/bin/sh\n[ $# -gt 0 ] || exit 2\nprintf %%5000s x || echo unwritten >&2\nexit 6\n' >"$scratch/writing"
release "$scratch/writing"
is_limited() {
    (ulimit -c 0 && ulimit -S -f 1 && PATH=$plain XDG_CACHE_HOME=$scratch/cache exec "$BASH" "$tree/pact" run >"$scratch/out" 2>"$scratch/err")
    is_status $? 6 && is_text 'the number of bytes' "$(stat -c %s "$scratch/out")" 1024 &&
        is_text 'the last line on standard error' "$(tail -n 1 "$scratch/err")" unwritten
}
count is_limited
count is_limited

# A released program that is missing, cut, written over, or of another machine.
without() {
    fresh
    runs_released "$plain" || return 1
    "${@:2}"
    fails_with "pact: the released program $1, and the toolchain's command rt isn't on the PATH to build another" "$plain" && runs_build 1 "$with"
}
cut_short() { head -c 20 "$tree/release/pact_program" >"$scratch/short" && cat "$scratch/short" >"$tree/release/pact_program"; }
count without 'is missing' rm -r "$tree/release/pact_program"
count without 'is missing' rm "$tree/release/built_of"
count without 'is damaged' cut_short
count without 'is damaged' appended release/pact_program
count without "doesn't run here (it is for Linux on x86-64 with the GNU C library, 2.34 or later, and has to be executable)" chmod a-x "$tree/release/pact_program"
# another machine's: the first bytes of a program of this one, and then the number of another kind of processor
for_another_machine() {
    head -c 18 "$BASH" >"$scratch/other_machine"
    printf '\267\0' >>"$scratch/other_machine"
    release "$scratch/other_machine"
}
count without "doesn't run here (it is for Linux on x86-64 with the GNU C library, 2.34 or later, and has to be executable)" for_another_machine
# Nothing can be built where nothing can be written.
fresh
appended crates/low/src/lib.rt
no_cache() { PATH=$with XDG_CACHE_HOME=/dev/null "$BASH" "$tree/pact" run >"$scratch/out" 2>"$scratch/err"; [ $? = 127 ] && grep -q '^pact: nothing can be built in /dev/null' "$scratch/err"; }
count no_cache
