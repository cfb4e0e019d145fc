# What runs on threads write: each program that allows one answer, on 2 to 16 of them, with batches of one record and of 64, and pipes of one note
# and of 64, again and again. Threads fall differently each time, and no byte may.

# By the launcher, which takes its time, once; by the program itself twenty times.
times=20
[ -n "${PACT_PROGRAM-}" ] || times=1
# Whether the program writes its rows each time, with these numbers of workers, of records and of notes.
writes_the_same() {
    local name=$1 workers=$2 batch=$3 depth=$4 i
    for ((i = 0; i < times; i++)); do
        "$pact" run "$name.pact" --workers "$workers" --batch "$batch" --depth "$depth"
    done >"$scratch/again" 2>"$scratch/err"
    keep_command pact run "$name.pact" --workers "$workers" --batch "$batch" --depth "$depth"
    is_file 'standard error' "$scratch/err" /dev/null && is_file "the rows of $times runs" "$scratch/again" "$scratch/often"
}
for program in *.pact; do
    name=${program%.pact}
    # Not those that are refused, or allow several answers.
    [ -s "expected/$name.stdout" ] && ! "$pact" sets "$program" | grep -q 'order no$' || continue
    for ((i = 0; i < times; i++)); do cat "expected/$name.stdout"; done >"$scratch/often"
    for workers in 2 3 4 8 16; do
        for batch in 1 64; do
            for depth in 1 64; do
                count writes_the_same "$name" "$workers" "$batch" "$depth"
            done
        done
    done
done

# An answer of more rows than one part, whose text several threads make. Many of its rows are equal.
"$pact" gen 7 60000 >"$scratch/many.csv"
cat >"$scratch/many.pact" <<'END'
pact 1
fields 3
source s many.csv int:0 int:1 text:2
function all map
  r0 = copy in
  emit r0
end
map m all s
sink m 2 0
END
(cd "$scratch" && "$pact" run many.pact --workers 1 >by_one)
has_lines_of_one_thread() {
    (cd "$scratch" && "$pact" run many.pact --workers "$1" >in_parts 2>err) && is_file 'standard error' "$scratch/err" /dev/null &&
        is_text 'the number of rows' "$(wc -l <"$scratch/in_parts")" 60000 && is_file 'the rows' "$scratch/in_parts" "$scratch/by_one"
}
for workers in 2 3 4 16; do
    count has_lines_of_one_thread "$workers"
done

# Numbers of rows on both sides of those from which workers start on threads, and of those that give a text of two and three parts; then a
# source that is just too short to be read in two parts, and one that is not.
is_the_same_on() { # workers, rows
    (cd "$scratch" && "$pact" run edge.pact --workers 1 >by_one 2>err && "$pact" run edge.pact --workers "$1" >in_parts 2>>err) &&
        is_file 'standard error' "$scratch/err" /dev/null && is_file 'the rows' "$scratch/in_parts" "$scratch/by_one" &&
        is_text 'the number of rows' "$(wc -l <"$scratch/in_parts")" "$2"
}
sed 's/many\.csv/edge.csv/' "$scratch/many.pact" >"$scratch/edge.pact"
for limit in '2 4095' '2 4096' '4 8188' '4 8191' '4 8192' '4 8193' '16 32767' '16 32768' '4 24999' '4 25000' '4 25001' '4 37499' '4 37500'; do
    read -r workers rows <<<"$limit"
    head -n "$rows" "$scratch/many.csv" >"$scratch/edge.csv"
    count is_the_same_on "$workers" "$rows"
done
for bytes in 65535 65536 131071 131072 131073; do
    # Six bytes a row, and in the last one a longer text.
    awk -v bytes="$bytes" 'BEGIN { for (; bytes > 14; bytes -= 6) print "1,2,a"; printf "3,4,%*s\n", bytes - 5, "b" }' >"$scratch/edge.csv"
    count [ "$(wc -c <"$scratch/edge.csv")" = "$bytes" ]
    count is_the_same_on 4 "$(wc -l <"$scratch/edge.csv")"
done
