# What `--combine` does: whether each worker reduces its own share of a group before anything is shipped shows in the lines `partials` behind the counts,
# and in nothing else. Which functions of a Reduce may be split is worked out by hand from the rule in docs/order.md.

combined=$scratch/combined
mkdir "$combined"

# Whether a run with `--combine` of a program in that folder writes the rows and the counts of one without it, and behind these the lines, with escapes.
combines() { # lines, program, options
    (cd "$combined" && "$pact" run "${@:2}" --counts >plain 2>counts && "$pact" run "${@:2}" --combine --counts >out 2>err) || return
    printf '%b' "$1" | cat "$combined/counts" - >"$combined/lines"
    is_file 'standard error' "$combined/err" "$combined/lines" && is_file 'standard output' "$combined/out" "$combined/plain"
}
# How many partial records come of the rows in s.csv. Row i lies at worker i modulo the number of workers, and a Map keeps it there. So a worker sends one
# for each key of its rows.
shares() { # workers, and by awk the key of a row and, where not all are left, which are
    awk -F , -v workers="$1" "NF { at = i++ % workers; if ((${3-1}) && !seen[at \",\" ($2)]++) n++ } END { print n + 0 }" "$combined/s.csv"
}

# ---- Programs of this folder

while IFS='|' read -r words told; do
    printf '%b' "$told" >"$scratch/told"
    # shellcheck disable=SC2086
    set -- $words
    count writes 0 "$(or_none "expected/${1%.pact}.stdout")" "$scratch/told" run "$@" --combine
done <<'END'
sum.pact --workers 2|
sum.pact --workers 2 --counts|s out 3\nr in 3 out 2\nr partials 2\n
sum.pact --workers 1 --counts|s out 3\nr in 3 out 2\nr partials 2\n
sum.pact --workers 16 --counts|s out 3\nr in 3 out 2\nr partials 3\n
count.pact|
count.pact --counts|s out 2\nr in 2 out 2\nm in 2 out 1\n
extremes.pact --workers 1 --counts|sale out 9\nspans in 9 out 4\nspans partials 4\n
extremes.pact --workers 2 --counts|sale out 9\nspans in 9 out 4\nspans partials 6\n
average.pact --workers 2 --counts|sale out 9\nmeans in 9 out 4\nmeans partials 6\n
minimum.pact --workers 2 --counts|sale out 9\nlowest in 9 out 4\n
distinct.pact --workers 2 --counts|sale out 9\npairs in 9 out 7\n
drill.pact --workers 4 --counts|g out 40\nr in 21 out 21\nm in 40 out 21\nr partials 21\n
push.pact --workers 4 --counts|s out 100\nr in 10 out 1\nm in 100 out 10\nr partials 2\n
shop.pact --workers 2 --counts|c out 2\no out 4\nj in 1 4 out 3\nd in 2 out 1\nr in 3 out 1\n
cogroup.pact --workers 2 --counts|s out 3\nt out 3\ng in 3 3 out 3\n
END
# No row and no count of any program is another, and behind the counts stands a line for each Reduce that is combined, and nothing else.
keeps_all() { # how many are combined, program, options
    local lines
    (cd "$combined/all" && "$pact" run "${@:2}" --counts >plain 2>counts && "$pact" run "${@:2}" --combine --counts >out 2>err) || return
    lines=$(wc -l <"$combined/all/counts")
    head -n "$lines" "$combined/all/err" >"$combined/all/first_lines"
    is_file 'standard output' "$combined/all/out" "$combined/all/plain" && is_file 'the counts' "$combined/all/first_lines" "$combined/all/counts" || return
    tail -n "+$((lines + 1))" "$combined/all/err" >"$combined/all/behind"
    [ "$(wc -l <"$combined/all/behind")" = "$1" ] && [ "$(grep -c '^[a-z0-9_]* partials [0-9]*$' "$combined/all/behind")" = "$1" ]
}
mkdir "$combined/all"
cp ./*.pact ./*.csv "$combined/all"
# How many Reduces of a program are combined as it is written, and as it is chosen for four workers: none, where it isn't named. In the chosen plan of
# shop.pact the join has brought together what its Reduce groups.
declare -A splits=(
    [average]='1 1' [city_count]='1 1' [count_all]='1 1' [count_column]='1 1' [count_distinct]='1 1' [discount]='1 1' [distances]='1 1' [drill]='1 1' [extremes]='1 1' [having]='1 1'
    [label]='1 1' [push]='1 1' [revenue]='1 1' [shop]='1 0' [sum]='1 1' [uniq]='1 1'
)
for program in *.pact; do
    # Not those that are refused, or allow several answers.
    [ ! -f "expected/${program%.pact}.status" ] && ! "$pact" sets "$program" | grep -q 'order no$' || continue
    read -r written chosen <<<"${splits[${program%.pact}]-0 0}"
    count keeps_all "$written" "$program" --workers 1 --plans 1
    count keeps_all "$chosen" "$program" --workers 4 --local sort --batch 1
done
# A refusal is told as without it, and where counts can't be told the rows stand.
for program in faulty wrong_key no_sink bad_row missing; do
    count writes "$(cat "expected/$program.status")" /dev/null "expected/$program.stderr" run "$program.pact" --combine
done
tells_no_count() {
    "$pact" run sum.pact --combine --counts >"$scratch/out" 2>/dev/full
    is_status $? 4 && is_file 'standard output' "$scratch/out" expected/sum.stdout
}
count tells_no_count
# A drill tells the same, whatever its shares are: of a hundred thousand rows what generated.bash finds without, and so of fewer.
count gives 0 'rows 100000\nout 500\ncheck 3015456105367194496\n' '' drill 1 100000 --combine
"$pact" drill 1 1000 >"$scratch/told"
while IFS= read -r options; do
    # shellcheck disable=SC2086
    count writes 0 "$scratch/told" /dev/null drill 1 1000 $options
done <<'END'
--combine
--combine --workers 1
--combine --workers 16 --local sort
--workers 2 --combine --batch 7 --depth 1
--combine --plans 1
END
count gives 0 'rows 0\nout 0\ncheck 0\n' '' drill 2147483646 0 --combine
count gives 0 'rows 1\nout 1\ncheck 44790612456\n' '' drill 0 1 --combine --workers 16
# It tells of no partial records, so its program is run on these rows too. The filter goes below the Reduce, so that rows of low keys are left.
cp drill.pact "$combined"
"$pact" gen 1 1000 >"$combined/drill.csv"
cp "$combined/drill.csv" "$combined/s.csv"
# shellcheck disable=SC2016
for workers in 1 2 4 16; do count combines "r partials $(shares "$workers" '$1' '$1 < 500')\\n" drill.pact --workers "$workers"; done

# ---- Which functions

printf '1,5,1\n2,-3,0\n1,7,\n1,,2\n2,5,5\n' >"$combined/s.csv"
# A program of a Reduce by field 0. Its input has the fields of the columns, as numbers.
by_first() { # version, fields, columns, statements
    printf 'pact %s\nfields %s\nsource s s.csv' "$1" "$2"
    # shellcheck disable=SC2086
    printf ' int:%s' $3
    printf '\nfunction f reduce 1\n%s\nend\nreduce r f s by 0\nsink r 0 1\n' "${4//; /$'\n'}"
}
# Whether it is combined, and writes what it does without. One that isn't may have several answers, so one thread runs it, which takes the rows in the
# file's order.
is_combined() { # yes or no, version, fields, columns, statements
    by_first "${@:2}" >"$combined/m.pact"
    if [ "$1" = yes ]; then combines 'r partials 4\n' m.pact --workers 2; else combines '' m.pact --workers 1; fi
}
# How one is that is combined: its fields are 0 to 5, of which the source has 0, 1 and 3. So two are left for accumulators.
start='v0 = int 0; v9 = int 3'
loop='each x1 of group; v1 = get x1 1; v0 = addw v0 v1; end'
rest='r0 = new; v2 = key 0; set r0 0 v2; set r0 1 v0; emit r0'
count is_combined yes 1 6 '0 1 3' "$start; $loop; $rest"

# What stands before the loop. A sum starts from a number that is written there, outside every block; nothing is emitted; and only the input's fields are
# set.
while IFS='|' read -r answer front; do
    count is_combined "$answer" 1 6 '0 1 3' "${front:+$front; }$loop; $rest"
done <<'END'
yes|v0 = int 5
yes|v0 = int -9223372036854775808
yes|v0 = null; v0 = int 0
yes|v0 = int 3; v0 = int 4
yes|v0 = key 0; if v0; v0 = null; end; v0 = int 0
yes|v0 = int 0; if v0; v3 = int 2; end
yes|v0 = int 0; repeat 2; v3 = mov v0; end
no|
no|v0 = null
no|v0 = key 0
no|v0 = text ""
no|v0 = text "0"
no|v3 = int 0; v0 = mov v3
no|v0 = int 0; v0 = mov v0
no|v0 = int 0; v0 = add v0 v0
no|v0 = int 0; v0 = addw v0 v3
no|v0 = int 0; v0 = get r0 0
no|v0 = int 0; v0 = null
no|v3 = int 1; if v3; v0 = int 0; end
no|v3 = int 1; if v3; v0 = int 0; else; v0 = int 0; end
no|v0 = int 0; if v0; v0 = int 1; end
no|v0 = int 0; if v0; else; v0 = int 0; end
no|v0 = int 0; if v0; repeat 2; v0 = int 0; end; end
no|repeat 1; v0 = int 0; end
no|v0 = int 0; repeat 1; v0 = int 0; end
no|v0 = int 0; emit r0
no|v0 = int 0; if v0; emit r0; end
no|v0 = int 0; if v0; else; repeat 2; emit r0; end; end
yes|v0 = int 0; set r1 0 v0
yes|v0 = int 0; set r0 1 v0
yes|v0 = int 0; set r1 3 v0
no|v0 = int 0; set r1 2 v0
no|v0 = int 0; set r0 5 v0
no|v0 = int 0; if v0; set r1 2 v0; end
no|v0 = int 0; repeat 1; set r1 4 v0; end
no|v0 = int 0; each x1 of group; end
no|v0 = int 0; if v0; each x1 of group; end; end
no|v0 = int 0; repeat 1; each x1 of group; end; end
no|v0 = int 0; v3 = get first 1
no|v0 = int 0; r1 = copy first
END

# The loop's body. An accumulator has one of three operations, as the order test asks; what it takes up may come from anywhere.
while IFS='|' read -r answer body; do
    count is_combined "$answer" 1 6 '0 1 3' "$start; each x1 of group;${body:+ $body;} end; $rest"
done <<'END'
yes|
yes|v1 = get x1 1
yes|v0 = addw v0 v9
yes|v1 = get x1 1; v0 = min v0 v1
yes|v1 = get x1 1; v0 = max v0 v1
no|v1 = get x1 1; v0 = add v0 v1
no|v1 = get x1 1; v0 = sub v0 v1
no|v1 = get x1 1; v0 = mul v0 v1
no|v1 = get x1 1; v0 = or v0 v1
no|v1 = get x1 1; v0 = addw v1 v0
no|v1 = get x1 1; v0 = addw v0 v0
no|v1 = get x1 1; v0 = mov v1
no|v0 = get x1 1
yes|v1 = get x1 1; v0 = addw v0 v1; v0 = addw v0 v9
no|v1 = get x1 1; v0 = addw v0 v1; v0 = max v0 v1
no|v1 = get x1 1; v0 = addw v0 v1; v3 = mov v0
no|v1 = get x1 1; v0 = addw v0 v1; if v0; end
yes|v1 = get x1 1; if v1; v0 = addw v0 v1; end
yes|v1 = get x1 1; if v1; else; v0 = addw v0 v9; end
yes|repeat 3; v1 = get x1 1; v0 = addw v0 v1; end
yes|v1 = key 0; v0 = addw v0 v1
yes|v1 = get x1 5; v0 = addw v0 v1
no|v1 = get first 1; v0 = addw v0 v1
yes|v1 = get x1 1; v0 = addw v0 v1; v3 = max v3 v1
yes|v1 = get x1 1; v0 = addw v0 v1; v9 = addw v9 v1
yes|v1 = get x1 1; v9 = addw v9 v1; v0 = min v0 v1
no|v1 = get x1 1; v0 = addw v0 v1; v3 = addw v3 v1
no|v1 = get x1 1; v0 = addw v0 v1; v3 = max v3 v1; v9 = min v9 v1
no|v1 = get x1 1; v0 = addw v0 v1; emit r0
no|r1 = copy x1; emit r1
no|if v9; r1 = copy x1; emit r1; end
no|repeat 2; if v9; else; emit r0; end; end
no|each x2 of group; end
no|v1 = get x1 1; if v1; each x2 of group; end; end
no|repeat 1; each x2 of group; v1 = get x2 1; v0 = addw v0 v1; end; end
yes|r1 = copy x1; set r1 1 v9; v1 = get r1 3; v0 = addw v0 v1
yes|r1 = copy x1; set r1 0 v9; v1 = get r1 3; v0 = addw v0 v1
no|r1 = copy x1; set r1 2 v9; v1 = get r1 3; v0 = addw v0 v1
no|if v9; r1 = new; set r1 5 v9; end; v0 = addw v0 v9
no|set r0 1 v9
END

# What stands behind the loop. It may do anything but go through the group again.
while IFS='|' read -r answer behind; do
    count is_combined "$answer" 1 6 '0 1 3' "$start; $loop${behind:+; $behind}"
done <<'END'
yes|
yes|emit r0
yes|set r0 5 v0; emit r0
yes|if v0; emit r0; else; emit r0; emit r0; end
yes|repeat 3; emit r0; end
yes|v0 = add v0 v0; set r0 1 v0; emit r0
yes|v0 = null; set r0 1 v0; emit r0
yes|v2 = key 0; v0 = cat v0 v2; set r0 1 v0; emit r0
no|each x1 of group; end; emit r0
no|each x1 of group; r0 = copy x1; emit r0; end
no|if v0; each x1 of group; end; end; emit r0
no|repeat 2; each x1 of group; end; end; emit r0
no|r0 = copy first; emit r0
no|set r0 1 v1; emit r0
END

# The loop itself stands in no block, and there is one.
while IFS= read -r statements; do
    count is_combined no 1 6 '0 1 3' "$start; ${statements//LOOP/$loop}; $rest"
done <<'END'
v3 = null
if v9; LOOP; end
if v9; else; LOOP; end
repeat 1; LOOP; end
repeat 2; if v9; LOOP; end; end
LOOP; LOOP
END

# Fields for the partial values: those of the input outside the keys. Each row has the fields, the columns, and how many accumulators there are.
sums() { # how many
    local i text=
    for ((i = 0; i < $1; i++)); do text+="v$((i + 1)) = int $i; "; done
    text+='each x1 of group; v0 = get x1 0; '
    for ((i = 0; i < $1; i++)); do text+="v$((i + 1)) = addw v$((i + 1)) v0; "; done
    text+='end; r0 = new; v0 = key 0; set r0 0 v0; '
    if [ "$1" -gt 0 ]; then text+="set r0 1 v$1; "; fi
    echo "${text}emit r0"
}
# Columns from 3 on are empty.
printf '1,5,1,,,,\n2,-3,0,,,,\n1,7,,,,,\n1,,2,,,,\n2,5,5,,,,\n' >"$combined/wide.csv"
while IFS='|' read -r answer fields columns how_many; do
    # shellcheck disable=SC2086
    set -- $columns
    cut -d , -f "1-$#" "$combined/wide.csv" >"$combined/s.csv"
    count is_combined "$answer" 1 "$fields" "$columns" "$(sums "$how_many")"
done <<'END'
yes|6|0|0
no|6|0|1
yes|6|0 1|1
no|6|0 1|2
yes|6|0 5|1
yes|3|0 1 2|2
no|3|0 1 2|3
yes|64|0 63 7 9 21|4
no|64|0 63 7 9 21|5
yes|64|0 1 2 3 4 5 6|6
no|64|0 1 2 3 4 5 6|7
END
printf '1,5,1\n2,-3,0\n1,7,\n1,,2\n2,5,5\n' >"$combined/s.csv"

# In version 2 a field may come from a register. A `set` by register sets every field, so each has to be one of the input.
while IFS='|' read -r answer fields columns statements; do
    # shellcheck disable=SC2086
    set -- $columns
    cut -d , -f "1-$#" "$combined/wide.csv" >"$combined/s.csv"
    count is_combined "$answer" 2 "$fields" "$columns" "$statements"
done <<'END'
yes|6|0 1 3|v0 = int 0; v3 = int 1; each x1 of group; v1 = get x1 @v3; v0 = addw v0 v1; end; set r0 1 v0; emit r0
no|6|0 1 3|v0 = int 0; v3 = int 1; each x1 of group; v1 = get x1 @v0; v0 = addw v0 v1; end; set r0 1 v0; emit r0
yes|6|0 1 3|v0 = int 0; v3 = int 1; each x1 of group; v1 = get x1 @v3; v0 = addw v0 v1; end; set r0 @v3 v0; emit r0
yes|3|0 1 2|v0 = int 0; v3 = int 1; each x1 of group; r1 = copy x1; set r1 @v3 v3; v1 = get r1 1; v0 = addw v0 v1; end; set r0 1 v0; emit r0
no|4|0 1 2|v0 = int 0; v3 = int 1; each x1 of group; r1 = copy x1; set r1 @v3 v3; v1 = get r1 1; v0 = addw v0 v1; end; set r0 1 v0; emit r0
yes|3|0 1 2|v0 = int 0; v3 = int 1; set r1 @v3 v3; each x1 of group; v1 = get x1 1; v0 = addw v0 v1; end; set r0 1 v0; emit r0
no|4|0 1 2|v0 = int 0; v3 = int 1; set r1 @v3 v3; each x1 of group; v1 = get x1 1; v0 = addw v0 v1; end; set r0 1 v0; emit r0
no|4|0 1 2|v0 = int 0; v3 = int 1; if v0; set r1 @v3 v3; end; each x1 of group; v1 = get x1 1; v0 = addw v0 v1; end; set r0 1 v0; emit r0
END
printf '1,5,1\n2,-3,0\n1,7,\n1,,2\n2,5,5\n' >"$combined/s.csv"

# A spare register: with v31 each is named, wherever it occurs, and without it one is left.
others=
for ((i = 2; i < 31; i++)); do others+="v$i = null; "; done
while IFS='|' read -r answer version statements; do
    count is_combined "$answer" "$version" 6 '0 1 3' "v0 = int 0; $others${statements//LOOP/$loop}; set r0 1 v0; emit r0"
done <<'END'
yes|1|LOOP
no|1|v31 = null; LOOP
no|1|v0 = int 0; LOOP; v31 = null
no|1|LOOP; v3 = mov v31
no|1|LOOP; v3 = add v3 v31
no|1|LOOP; set r0 1 v31
no|1|LOOP; if v31; end
no|1|repeat 1; if v3; v31 = int 4; end; end; LOOP
no|2|LOOP; v3 = get r0 @v31
no|2|LOOP; set r0 @v31 v3
yes|1|repeat 1; if v3; v30 = int 4; end; end; LOOP
END

# Neither half has more than 1,000 statements. A sender of one sum by one key has seven more than stand before the loop and in it: the sum's own start, the
# loop's line, and five that make the record. A merger has, for an accumulator, two in the place of the body.
filled() { # how many
    local i
    for ((i = 0; i < $1; i++)); do printf 'v3 = null; '; done
}
count is_combined yes 1 6 '0 1 3' "$(filled 989)v0 = int 0; v9 = int 3; each x1 of group; v1 = get x1 1; v0 = addw v0 v1; end; set r0 1 v0; emit r0"
count is_combined no 1 6 '0 1 3' "$(filled 990)v0 = int 0; v9 = int 3; each x1 of group; v1 = get x1 1; v0 = addw v0 v1; end; set r0 1 v0; emit r0"
count is_combined yes 1 6 '0 1 3' "$start; each x1 of group; v0 = addw v0 v9; end; $(filled 993)set r0 1 v0; emit r0"
count is_combined no 1 6 '0 1 3' "$start; each x1 of group; v0 = addw v0 v9; end; $(filled 994)set r0 1 v0; emit r0"

# ---- Which Reduces

# A Reduce whose records lie together already has nothing shipped. Of operators there are 15 before one is combined, of functions 62, called or not. Each
# row has the operators over the source s, the lines, and how many functions stand besides that nothing calls.
of_operators() { # operators, further functions
    local i
    printf 'pact 1\nfields 6\nsource s s.csv int:0 int:1 int:2\n'
    for ((i = 0; i < $2; i++)); do printf 'function more%d map\nend\n' "$i"; done
    printf 'function same map\n  r0 = copy in\n  emit r0\nend\n'
    printf 'function sum reduce 1\n  v0 = int 0\n  each x1 of group\n    v1 = get x1 2\n    v0 = addw v0 v1\n  end\n'
    printf '  r0 = new\n  v2 = key 0\n  set r0 0 v2\n  set r0 1 v2\n  set r0 2 v0\n  emit r0\nend\n'
    printf 'function keep reduce 1\n  each x1 of group\n    r0 = copy x1\n    emit r0\n  end\nend\n'
    printf '%s\n' "${1//; /$'\n'}"
}
are_combined() { # lines, operators, further functions
    of_operators "$2" "$3" >"$combined/m.pact"
    combines "$1" m.pact --workers 2 --plans 1
}
maps() { # from, to, the name of what stands below
    local i below=$3
    for ((i = $1; i <= $2; i++)); do
        printf 'map m%d same %s; ' "$i" "$below"
        below=m$i
    done
}
printf '1,5,1\n2,-3,0\n1,7,\n1,,2\n2,5,5\n' >"$combined/s.csv"
while IFS='|' read -r lines operators more; do
    operators=${operators//MAPS13/$(maps 1 13 s)}
    operators=${operators//MAPS14/$(maps 1 14 s)}
    operators=${operators//MAPS15/$(maps 1 15 s)}
    count are_combined "$lines" "$operators" "$more"
done <<'END'
r partials 4\n|reduce r sum s by 0; sink r 0 2|0
a partials 4\n|reduce a sum s by 0; reduce b sum a by 0; sink b 0 2|0
a partials 4\nb partials 2\n|reduce a sum s by 0; reduce b sum a by 1; sink b 0 2|0
b partials 5\n|reduce b sum a by 1; reduce a keep s by 0; sink b 0 2|0
b partials 2\na partials 4\n|reduce b sum a by 1; reduce a sum s by 0; sink b 0 2|0
r partials 4\n|MAPS14reduce r sum m14 by 0; sink r 0 2|0
|MAPS15reduce r sum m15 by 0; sink r 0 2|0
a partials 4\n|MAPS13reduce a sum m13 by 0; reduce b sum a by 1; sink b 0 2|0
b partials 2\n|MAPS13reduce b sum a by 1; reduce a sum m13 by 0; sink b 0 2|0
r partials 4\n|reduce r sum s by 0; sink r 0 2|59
|reduce r sum s by 0; sink r 0 2|60
a partials 4\nb partials 2\n|reduce a sum s by 0; reduce b sum a by 1; sink b 0 2|57
a partials 4\n|reduce a sum s by 0; reduce b sum a by 1; sink b 0 2|58
b partials 2\n|reduce b sum a by 1; reduce a sum s by 0; sink b 0 2|58
END

# ---- Each accumulator

# Keys, which are texts where the last column has one, and values, which are texts where the third has; else they are numbers or Null. So three fields are
# left for accumulators.
over_values() { # version, statements before the loop, in it, and behind it
    printf 'pact %s\nfields 8\nsource s s.csv int:0 int:1 text:2 text:3\nfunction mixed map\n  r0 = copy in\n' "$1"
    printf '  v0 = get in %d\n  v1 = isnull v0\n  if v1\n  else\n    set r0 %d v0\n  end\n' 2 1 3 0
    printf '  emit r0\nend\n'
    printf 'function f reduce 1\n%s\neach x1 of group\nv9 = get x1 1\n%s\nend\nr0 = new\nv9 = key 0\nset r0 0 v9\n%s\nemit r0\nend\n' "${2//; /$'\n'}" "${3//; /$'\n'}" "${4//; /$'\n'}"
    printf 'map m mixed s\nreduce r f m by 0\nsink r 0 4 5 6\n'
}
# Whether it is combined for so many workers, either way to find records, and writes the rows and the counts of the run that stands before.
are_taken_up() { # how many workers
    local options
    # shellcheck disable=SC2016
    { cat "$combined/counts" && echo "r partials $(shares "$1" '$4 == "" ? $1 : "t" $4')"; } >"$combined/told"
    for options in '--local hash' '--local sort --batch 2'; do
        # shellcheck disable=SC2086
        (cd "$combined" && "$pact" run values.pact --combine --counts --workers "$1" $options >out 2>err) || return
        is_file 'standard output' "$combined/out" "$combined/plain" && is_file 'standard error' "$combined/err" "$combined/told" || return
    done
}
# Files with no row, one, one for each of many keys, many for one, and many for some, with Null and texts among keys and values. A key that is a text may
# be spelled as a number that is one too.
awk 'BEGIN { for (k = 0; k < 40; k++) print k "," k * k - 300 ",," (k % 3 ? "" : k + 1) }' >"$combined/alone.csv"
awk 'BEGIN { for (i = 0; i < 70; i++) print "7," (i % 5 ? i * 37 % 101 - 50 : "") "," (i % 11 ? "" : "t" i) "," }' >"$combined/one_key.csv"
sed 's/$/key/' "$combined/one_key.csv" >"$combined/one_text.csv"
awk 'BEGIN { x = 1
    for (i = 0; i < 150; i++) {
        x = x * 48271 % 2147483647; k = x % 9
        x = x * 48271 % 2147483647; v = x % 4 ? x % 19 - 9 : ""
        x = x * 48271 % 2147483647; t = x % 6 ? "" : "t" x % 7
        x = x * 48271 % 2147483647; print (k == 8 ? "" : k) "," v "," t "," (x % 3 ? "" : x % 2 ? "t" x % 5 : x % 9)
    } }' >"$combined/many.csv"
# Numbers whose sums leave 64 bits.
printf '%s,,\n' 1,9223372036854775807 1,1 1,9223372036854775807 2,-9223372036854775808 2,-1 1,-2 2, 3,0 >"$combined/great.csv"
# A key has Null alone, one has texts alone; and the number 1, the text 1 and Null are three keys.
printf '%s\n' 1,,, 2,,a, 1,,, 2,,b, 1,,, 2,,, ,,, ,4,, 1,5,,1 ,2,,1 2,,a,x ,,,x >"$combined/null_or_text.csv"
: >"$combined/none.csv"
echo '5,-1,,' >"$combined/single.csv"
over_table() { # its name, and numbers of workers
    local workers
    cp "$combined/$1.csv" "$combined/s.csv"
    (cd "$combined" && "$pact" run values.pact --counts --workers 1 >plain 2>counts)
    for workers in "${@:2}"; do count are_taken_up "$workers"; done
}
while IFS='|' read -r start body rest; do
    over_values 1 "$start" "$body" "$rest" >"$combined/values.pact"
    for table in none single alone one_key one_text many great null_or_text; do over_table "$table" 1 2 4 16; done
    over_values 2 "$start" "$body" "$rest" >"$combined/values.pact"
    for table in many null_or_text; do over_table "$table" 2 4; done
done <<'END'
v0 = int 100|v0 = addw v0 v9|set r0 4 v0
v0 = text "~"|v0 = min v0 v9|set r0 4 v0
v0 = null|v0 = max v0 v9|set r0 4 v0
v0 = int -7; v1 = text "t3"; v2 = int 4|v0 = addw v0 v9; v1 = min v1 v9; v2 = max v2 v9|set r0 4 v0; set r0 5 v1; set r0 6 v2
v0 = int 1; v3 = int 1; v4 = int 3|v5 = rem v9 v4; if v5; v0 = addw v0 v3; else; v1 = max v1 v9; end|v6 = add v0 v3; set r0 4 v6; set r0 5 v1
END

# ---- Several keys

# Keys may be texts, and stand in another order than their fields. A sum is taken, and where two fields are left the least value too.
by_keys() { # the keys' fields
    local at=0 field
    printf 'pact 1\nfields 6\nsource s s.csv int:0 text:1 text:2 int:3\nfunction f reduce %d\n' $#
    printf '  v0 = int 0\n  v2 = text "~"\n  each x1 of group\n    v1 = get x1 3\n    v0 = addw v0 v1\n'
    [ $# -gt 2 ] || printf '    v2 = min v2 v1\n'
    printf '  end\n  r0 = new\n  set r0 4 v0\n  set r0 5 v2\n'
    for field in "$@"; do
        printf '  v3 = key %d\n  set r0 %d v3\n' "$at" "$field"
        at=$((at + 1))
    done
    printf '  emit r0\nend\nreduce r f s by %s\nsink r 0 1 2 4 5\n' "$*"
}
awk 'BEGIN { x = 1; split("a,ab,b,3,", one, ","); split("b,bb,,3,a", other, ",")
    for (i = 0; i < 150; i++) {
        x = x * 48271 % 2147483647; k = x % 5
        x = x * 48271 % 2147483647; l = one[x % 5 + 1]
        x = x * 48271 % 2147483647; m = other[x % 5 + 1]
        x = x * 48271 % 2147483647; print (k == 4 ? "" : k) "," l "," m "," (x % 7 ? x % 2001 - 1000 : "")
    } }' >"$combined/s.csv"
while read -r fields; do
    # shellcheck disable=SC2086
    by_keys $fields >"$combined/keys.pact"
    key='""'
    for field in $fields; do key+=" \",\" \$$((field + 1))"; done
    for workers in 1 2 4 16; do count combines "r partials $(shares "$workers" "$key")\\n" keys.pact --workers "$workers"; done
    count combines "r partials $(shares 4 "$key")\\n" keys.pact --workers 4 --local sort --batch 1
done <<'END'
2
2 0
0 2
2 1
2 1 0
1 2 0
END

# ---- Two Reduces

# The sum of each pair of keys, and the greatest of these of each first key. The second goes by a part of the first one's keys, so both ship.
cat >"$combined/two.pact" <<'END'
pact 1
fields 4
source s s.csv int:0 int:1 int:2
function sum reduce 2
  v0 = int 0
  each x1 of group
    v1 = get x1 2
    v0 = addw v0 v1
  end
  r0 = new
  v2 = key 0
  set r0 0 v2
  v2 = key 1
  set r0 1 v2
  set r0 2 v0
  emit r0
end
function top reduce 1
  each x1 of group
    v1 = get x1 2
    v0 = max v0 v1
  end
  r0 = new
  v2 = key 0
  set r0 0 v2
  set r0 3 v0
  emit r0
end
reduce a sum s by 0 1
reduce b top a by 0
sink b 0 3
END
awk 'BEGIN { x = 1
    for (i = 0; i < 200; i++) {
        x = x * 48271 % 2147483647; k = x % 5
        x = x * 48271 % 2147483647; l = x % 7
        x = x * 48271 % 2147483647; print k "," l "," x % 2001 - 1000
    } }' >"$combined/s.csv"
# Records of keys k and l lie at worker 31 * k + l modulo the number of workers (docs/running.md).
second_shares() { # workers
    awk -F , -v workers="$1" '!seen[(31 * $1 + $2) % workers "," $1]++ { n++ } END { print n }' "$combined/s.csv"
}
for workers in 1 2 3 4 8 16; do
    # shellcheck disable=SC2016
    lines="a partials $(shares "$workers" '$1 "," $2')\\nb partials $(second_shares "$workers")\\n"
    count combines "$lines" two.pact --workers "$workers"
    count combines "$lines" two.pact --workers "$workers" --local sort --batch 1 --depth 1
done
# They are 35 pairs of five keys, so with one worker there is a record for each.
count combines 'a partials 35\nb partials 5\n' two.pact --workers 1
