# What release/make writes and release/check says, over the tree and the stand-in for the toolchain of the launcher's part. A program of this
# machine stands for the one that was linked.

# shellcheck source=/dev/null
. "$checks/tree.sh"

fresh
linked=$scratch/linked_program
cat "$(command -v grep)" >"$linked"   # which ends with 2 where it has no words, as pact does
make_release() { PATH=$with XDG_CACHE_HOME=$scratch/cache "$tree/release/make" "$@" >/dev/null 2>&1; }
# Whether release/check, with these words, has this status and says this, or nothing.
checked() {
    PATH=$with "$tree/release/check" "${@:3}" >"$scratch/said"
    local status=$?
    is_text 'what release/check prints' "$(cat "$scratch/said")" "$2" && is_status "$status" "$1"
}
line_of() { sed -n "s/^$1 //p" "$tree/release/built_of"; }

count make_release "$linked"
# the released program is the linked one up to the end of what is loaded, but for the place and the number of its sections, which are 0
differ_at() { cmp -l -n "$(line_of size)" "$linked" "$tree/release/pact_program" | awk '{ print $1 }'; }
differ_in_sections_only() { [ -n "$(differ_at)" ] && ! differ_at | grep -qvxE '4[1-8]|6[1-4]'; }
count differ_in_sections_only
count test "$(line_of size)" = "$(stat -c %s "$tree/release/pact_program")"
count test "$(line_of program)" = "$(sha256sum <"$tree/release/pact_program" | cut -d ' ' -f 1)"
count test "$(line_of toolchain)" = 'kit one'
released_runs() { [ "$(echo runs | "$tree/release/pact_program" -c runs)" = 1 ]; }
count released_runs
count checked 0 '' "$linked"
count checked 0 ''
# what is linked now has another byte, in its midst; or was linked by another toolchain
cp "$linked" "$scratch/other_program"
printf '\0\1\2\3' | dd of="$scratch/other_program" bs=1 seek=5000 conv=notrunc 2>/dev/null
count checked 1 'release: the released program is not, byte for byte, the one that was just linked' "$scratch/other_program"
count checked 1 'release: the released program is not, byte for byte, the one that was just linked' /dev/null
echo 'kit two' >"$tree/kit"
count checked 0 'release: bytes were not compared: the released program was linked by kit one, and this one by kit two' "$scratch/other_program"
echo 'kit one' >"$tree/kit"
# the release isn't of these sources, or is none
appended crates/low/src/lib.rt
count checked 1 'release: the released program is of other sources' "$linked"
count make_release "$linked"
count checked 0 '' "$linked"
appended release/pact_program
count checked 1 'release: the released program is damaged'
rm "$tree/release/pact_program"
count checked 1 'release: the released program is missing' "$linked"
# what is no program becomes no release
fails_to_make() { ! make_release "$1"; }
count fails_to_make "$tree/crates.txt"
count fails_to_make "$tree/none"
count checked 1 'release: the released program is missing'
# with no words it is made of a program that is built for it
fresh
cp "$linked" "$tree/linked"
count make_release
count checked 0 '' "$linked"
count test "$(cat "$tree/builds")" = 1
# another program beside it: what it was built of has its name, and only its own sources count
fresh
count make_release "$linked" low
count test -s "$tree/release/low.built_of"
count checked 0 '' "$linked" low
appended crates/pact_program/src/main.rt
count checked 0 '' "$linked" low
count checked 1 'release: the released program is of other sources' ''
appended crates/low/src/lib.rt
count checked 1 'release: the released program low is of other sources' "$linked" low
rm "$tree/release/low" "$tree/release/low.built_of"
count checked 1 'release: the released program low is missing' '' low
