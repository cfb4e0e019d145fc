# A tree of two crates and one of tests with the launcher, a stand-in for the toolchain that counts its builds, and what the launcher is asked there: for
# `launcher` and `release`.


tree=$scratch/tree
mkdir -p "$tree/bin" "$tree/crates/low/src" "$tree/crates/low/specs" "$tree/crates/pact_program/src" "$tree/crates/tests/src" "$tree/release"
cp ../pact "$tree/pact"
cp ../release/{functions.bash,build.bash,make,check} "$tree/release"
# A file `broken` makes it fail in the lower crate, and a file `refused` in the program, which leaves what was linked before; with a file `hurried`
# a source changes while it proves, and with a file `slow` it takes its time. A file `linked` is what it links.
cat >"$tree/bin/rt" <<'END'
#!/bin/sh
top=$(dirname "$(dirname "$0")")
case $* in
version) cat "$top/kit" ;;
'lib --jobs '*)
    [ ! -f "$top/broken" ] || { echo 'no proof'; exit 1; }
    [ -f src/lib.rt ] && grep -q '^low:' ../../crates.txt || exit 1
    [ ! -f "$top/slow" ] || { sleep 30 & wait $!; }
    mkdir -p out/rlib
    [ ! -f "$top/hurried" ] || echo hurried >>"$top/crates/low/src/lib.rt"
    ;;
run)
    [ -d ../low/out/rlib ] && [ ! -f "$top/refused" ] || exit 1
    echo "$(($(cat "$top/builds") + 1))" >"$top/builds"
    printf '#!/bin/sh\n[ $# -gt 0 ] || exit 2\necho "build %s of $*"\nexit 5\n' "$(cat "$top/builds")" >out/pact_program
    chmod +x out/pact_program
    [ ! -f "$top/linked" ] || cp "$top/linked" out/pact_program
    ;;
esac
END
chmod +x "$tree/bin/rt"
# Commands without the toolchain.
plain=$scratch/plain
mkdir "$plain"
for command in awk basename bash cat chmod cmp cp cut date dirname find flock grep head mkdir mv nproc od readlink rm sed sha256sum sort stat tail tee touch tr wc xargs; do
    ln -s "$(command -v "$command")" "$plain/$command"
done

# The sources as they were at first; nothing was built or found out.
fresh() {
    rm -rf "$scratch/cache" "$tree"/{broken,refused,hurried,slow,linked} "$tree"/crates/side_* "$tree/crates/low/src"/* "$tree/crates/low/specs"/* "$tree/crates/low/proofs"
    echo 0 >"$tree/builds"
    echo 'kit one' >"$tree/kit"
    printf 'low:\npact_program: low\ntests: low\n' >"$tree/crates.txt"
    echo 'Handles allowed: none.' >"$tree/HANDLES"
    echo one >"$tree/crates/low/src/lib.rt"
    echo two >"$tree/crates/low/specs/Lib.antt"
    echo three >"$tree/crates/pact_program/src/main.rt"
    echo four >"$tree/crates/tests/src/lib.rt"
    printf '#!/bin/sh\n[ $# -gt 0 ] || exit 2\necho "released, of $*"\nexit 6\n' >"$scratch/released"
    release "$scratch/released"
}
# Makes this the released program, of the sources that are there.
release() {
    # shellcheck source=/dev/null
    (
        root=$tree && PATH=$tree/bin:$PATH && . "$tree/release/functions.bash" && . "$tree/release/build.bash" &&
            put_program "$tree/release" "$1" "$(sum_of_sources)"
    )
}
# The launcher, where these commands are, its answer, its errors and its status.
launch() {
    # a change and what follows a moment later have different times
    sleep 0.02
    PATH=$1 XDG_CACHE_HOME=$scratch/cache "$BASH" "${launcher:-$tree/pact}" run 'a b' >"$scratch/out" 2>"$scratch/err"
}
# Whether it runs the released program, and builds nothing.
runs_released() {
    launch "$1"
    came_to $? 6 'released, of run a b\n' '' && is_text 'the number of builds' "$(cat "$tree/builds")" 0
}
# Whether it runs the program of this build, which is the last.
runs_build() {
    launch "$2"
    is_status $? 5 && is_text 'standard output' "$(cat "$scratch/out")" "build $1 of run a b" && is_text 'the number of builds' "$(cat "$tree/builds")" "$1"
}
# Whether it runs the released program where nothing that it finds out can be kept.
runs_without_cache() {
    PATH=$plain XDG_CACHE_HOME=/dev/null "$BASH" "$tree/pact" run 'a b' >"$scratch/out" 2>"$scratch/err"
    came_to $? 6 'released, of run a b\n' ''
}
# Whether it ends with the status of a command that isn't there, and says this in its last line.
fails_with() {
    launch "$2"
    is_status $? 127 && is_file 'standard output' "$scratch/out" /dev/null && is_text 'the last line on standard error' "$(tail -n 1 "$scratch/err")" "$1"
}
with=$tree/bin:$PATH
# Adds a line to a file of the tree.
appended() { echo more >>"$tree/$1"; }
