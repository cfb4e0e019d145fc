# Generated rows and drills: what a seed comes to, reckoned again by awk and by the shell; and that no option shows in a drill.
count gives 0 '1,-752,t66\n' '' gen 0 1
count gives 0 '' '' gen 0 0
count gives 0 'rows 1\nout 1\ncheck 44790612456\n' '' drill 0 1
count gives 0 'rows 0\nout 0\ncheck 0\n' '' drill 0 0
count gives 0 'rows 0\nout 0\ncheck 0\n' '' drill 2147483646 0 --workers 16
# Numbers and options as they may be written.
count gives 0 '1,-752,t66\n' '' gen +0 01
count gives 0 '1,-752,t66\n' '' gen -- 0 1
count gives 0 'rows 1\nout 1\ncheck 44790612456\n' '' drill --workers=2 0 --local=sort 1
# A sink that takes nothing; where there is nothing to write it isn't touched.
cannot_write() {
    keep_command pact "$@"
    "$pact" "$@" >/dev/full 2>"$scratch/err"
    came_to $? 4 '' 'cannot write\n'
}
count cannot_write gen 1 3
count cannot_write drill 1 3
count cannot_write drill 1 3 --workers 1
writes_nothing() {
    "$pact" "$@" >/dev/full 2>"$scratch/err"
    came_to $? 0 '' ''
}
count writes_nothing gen 1 0

# The rows of a seed, by awk, whose numbers are exact up to 2^53: x * 48271 is below 2^47.
reckoned_rows() {
    awk -v x="$1" -v n="$2" 'function step() { x = (x * 48271 + 1) % 2147483647; return x }
        BEGIN { for (i = 0; i < n; i++) { a = step() % 1000; b = step() % 2001 - 1000; c = step()
            printf "%d,%d,%s\n", a, b, c % 10 == 0 ? "" : "t" c % 100 } }'
}
generates() {
    reckoned_rows "$1" "$2" >"$scratch/reckoned" && writes 0 "$scratch/reckoned" /dev/null gen "$1" "$2"
}
for seed in 0 1 2 1000000007 2147483646; do
    for rows in 1 2 17 1000 100000; do
        count generates "$seed" "$rows"
    done
done
# The most rows that can be asked for.
counts_rows() {
    is_text 'the number of rows' "$("$pact" gen "$1" "$2" | wc -l)" "$2"
}
count counts_rows 1 1000000

# The fold of a file's bytes, in the shell's numbers of 64 bits.
fold_of() {
    local fold=0 byte
    for byte in $(od -An -v -tu1 <"$1"); do fold=$((fold * 31 + byte)); done
    printf '%u' "$fold"
}
# A drill tells of what its program, which is drill.pact, writes on these rows where they are read from a file.
drills() {
    "$pact" gen "$1" "$2" >"$scratch/drill.csv" && cp drill.pact "$scratch" && (cd "$scratch" && "$pact" run drill.pact >ran) || return
    printf 'rows %s\nout %s\ncheck %s\n' "$2" "$(wc -l <"$scratch/ran")" "$(fold_of "$scratch/ran")" >"$scratch/told"
    writes 0 "$scratch/told" /dev/null drill "$1" "$2"
}
for seed in 0 1 2147483646; do
    for rows in 1 100 10000; do
        count drills "$seed" "$rows"
    done
done
# 500 keys are low, and of a hundred thousand rows each has some.
count drills 1 100000
count gives 0 'rows 100000\nout 500\ncheck 3015456105367194496\n' '' drill 1 100000
tells_the_same() {
    writes 0 "$scratch/told" /dev/null drill 1 100000 "$@"
}
while IFS= read -r options; do
    # shellcheck disable=SC2086
    count tells_the_same $options
done <<'END_OF_OPTIONS'
--workers 1
--workers 2
--workers 8
--workers 16
--local sort
--local sort --workers 1
--depth 1 --batch 7
--depth 1 --batch 1 --workers 3
--batch 1024 --depth 64
--plans 1
END_OF_OPTIONS
