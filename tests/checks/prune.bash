# What `--prune` does: which fields are dropped before records are shipped shows in the lines `keeps` behind the counts, and in nothing else. What is kept is
# worked out by hand from the rule in docs/optimizer.md, and again by awk from what `plan` and `sets` tell.

pruned=$scratch/pruned
mkdir "$pruned"
cp ./*.pact ./*.csv "$pruned"

# Whether a run with `--prune` of a program in that folder writes the rows and the counts of one without it, and behind these the lines, with escapes.
prunes() { # lines, program, options
    (cd "$pruned" && "$pact" run "${@:2}" --counts >plain 2>counts && "$pact" run "${@:2}" --prune --counts >out 2>err) || return
    is_counted "$1"
}
# Whether that run wrote the rows and the counts of the one without it, and behind these the lines.
is_counted() {
    printf '%b' "$1" | cat "$pruned/counts" - >"$pruned/lines"
    is_file 'standard error' "$pruned/err" "$pruned/lines" && is_file 'standard output' "$pruned/out" "$pruned/plain"
}

# ---- Programs of this folder

# Plans as they are chosen, and that of shop.pact as written. With one worker its customers are broadcast, and its orders stay.
while IFS='|' read -r words told; do
    printf '%b' "$told" >"$scratch/told"
    # shellcheck disable=SC2086
    set -- $words
    count writes 0 "$(or_none "expected/${1%.pact}.stdout")" "$scratch/told" run "$@" --prune
done <<'END'
shop.pact|
shop.pact --counts|c out 2\no out 4\nj in 1 4 out 3\nd in 2 out 1\nr in 3 out 1\no keeps {4,5}\nd keeps {0,1}\n
shop.pact --counts --workers 16 --local sort --batch 1 --depth 1|c out 2\no out 4\nj in 1 4 out 3\nd in 2 out 1\nr in 3 out 1\no keeps {4,5}\nd keeps {0,1}\n
shop.pact --counts --plans 1|c out 2\no out 4\nj in 2 4 out 4\nd in 4 out 3\nr in 3 out 1\no keeps {4,5}\n
shop.pact --counts --workers 1|c out 2\no out 4\nj in 2 4 out 4\nd in 4 out 3\nr in 3 out 1\nd keeps {0,1,5}\n
sum.pact|
sum.pact --counts|s out 3\nr in 3 out 2\n
sum.pact --counts --workers 2 --combine|s out 3\nr in 3 out 2\nr partials 2\n
cogroup.pact|
cogroup.pact --counts|s out 3\nt out 3\ng in 3 3 out 3\n
drill.pact --counts|g out 40\nr in 21 out 21\nm in 40 out 21\nm keeps {0,1}\n
drill.pact --counts --combine|g out 40\nr in 21 out 21\nm in 40 out 21\nm keeps {0,1}\nr partials 21\n
push.pact --counts --combine|s out 100\nr in 10 out 1\nm in 100 out 10\nr partials 2\n
END
count prunes 'valued keeps {6,8}\n' revenue.pact
count prunes 'reduced keeps {65,100,120}\ntaken keeps {1,65,100}\n' discount.pact

# A refusal is told as without it, and where counts can't be told the rows stand.
for program in faulty wrong_key no_sink bad_row missing; do
    count writes "$(cat "expected/$program.status")" /dev/null "expected/$program.stderr" run "$program.pact" --prune
done
tells_no_count() {
    "$pact" run shop.pact --prune --counts >"$scratch/out" 2>/dev/full
    is_status $? 4 && is_file 'standard output' "$scratch/out" expected/shop.stdout
}
count tells_no_count

# No row and no count of a program is another with `--prune`, with `--combine` or with both. Behind the counts stand the lines `keeps`, and behind these the
# lines `partials`, the same with both as with either; and nothing is told without `--counts`.
tells_alike() { # program, options
    (
        cd "$pruned" && "$pact" run "$@" --counts >plain 2>counts || exit
        lines=$(wc -l <counts)
        for way in prune combine; do
            "$pact" run "$@" --counts "--$way" >out 2>err && is_file 'standard output' out plain || exit
            head -n "$lines" err >err_counts && is_file 'the counts' err_counts counts || exit
            tail -n "+$((lines + 1))" err >"$way.lines"
        done
        ! grep -qv '^[a-z][a-z0-9_]* keeps {[0-9,]*}$' prune.lines && ! grep -qv '^[a-z][a-z0-9_]* partials [0-9]*$' combine.lines || exit
        cat counts prune.lines combine.lines >all.lines
        "$pact" run "$@" --counts --combine --prune >out 2>err && is_file 'standard output' out plain && is_file 'standard error' err all.lines || exit
        "$pact" run "$@" --prune >out 2>err && is_file 'standard output' out plain && is_file 'standard error' err /dev/null || exit
        "$pact" run "$@" --prune --combine >out 2>err && is_file 'standard output' out plain && is_file 'standard error' err /dev/null
    )
}
for program in *.pact; do
    # Not those that are refused, or allow several answers.
    [ ! -f "expected/${program%.pact}.status" ] && ! "$pact" sets "$program" | grep -q 'order no$' || continue
    for workers in 1 4; do
        count tells_alike "$program" --workers "$workers"
        count tells_alike "$program" --workers "$workers" --plans 1 --local sort --batch 1
    done
done

# A drill tells the same: of a hundred thousand rows what generated.bash finds without, and so of fewer.
for options in '--prune' '--combine' '--prune --combine'; do
    # shellcheck disable=SC2086
    count gives 0 'rows 100000\nout 500\ncheck 3015456105367194496\n' '' drill 1 100000 $options
done
"$pact" drill 1 1000 >"$scratch/told"
while IFS= read -r options; do
    # shellcheck disable=SC2086
    count writes 0 "$scratch/told" /dev/null drill 1 1000 $options
done <<'END'
--prune
--prune --workers 1
--prune --combine
--combine --prune --workers 16 --local sort
--workers 2 --prune --batch 7 --depth 1
--prune --plans 1
--prune --combine --plans 1 --workers 1
END
count gives 0 'rows 0\nout 0\ncheck 0\n' '' drill 2147483646 0 --prune
count gives 0 'rows 1\nout 1\ncheck 44790612456\n' '' drill 0 1 --prune --combine --workers 16

# ---- The same by awk

# A program's text in which each operator reads what it reads in a plan, so that `sets` tells what is found of it there: the plan's text, and the program.
as_planned() {
    awk '
        part == "plan" {
            if (!/ ship /) next
            match($0, /^ */)
            place[RLENGTH] = $1
            if (RLENGTH == 0) root = $1
            else { over = place[RLENGTH - 2]; input[over, ++inputs[over]] = $1 }
            next
        }
        inside != "" {
            if ($1 ~ /^(if|repeat|each)$/) open++
            if ($1 == "end" && open-- == 0) inside = ""
        }
        inside == "" { sub(/#.*/, "") }
        $1 == "function" && inside == "" { inside = $2; open = 0 }
        inside == "" && $1 ~ /^(map|reduce|match|cross|cogroup)$/ { for (i = 1; i <= inputs[$2]; i++) $(i + 3) = input[$2, i] }
        inside == "" && $1 == "sink" { $2 = root }
        { print }' part=plan "$1" part=program "$2"
}
# The lines `keeps` of a plan: its program as it is planned, what `sets` finds of that, and the plan's text.
keeps_of() {
    awk '
        function mark(what, name, set,    fields_of, many, i) {
            many = split(substr(set, 2, length(set) - 2), fields_of, ",")
            for (i = 1; i <= many; i++) is[what, name, fields_of[i]] = 1
        }
        part == "program" { sub(/#.*/, "") }
        part == "program" && inside != "" {
            if ($1 == "set" && $3 ~ /^@/) for (k = 0; k < fields; k++) is["named", inside, k] = 1
            else if ($1 == "set") is["named", inside, $3] = 1
            if ($1 ~ /^(if|repeat|each)$/) open++
            if ($1 == "end" && open-- == 0) inside = ""
            next
        }
        part == "program" && $1 == "fields" { fields = $2 }
        part == "program" && $1 == "function" { inside = $2; open = 0; functions++ }
        part == "program" && $1 == "source" {
            named[numbers++] = $2
            for (i = 4; i <= NF; i++) { split($i, column, ":"); is["column", $2, column[2]] = 1 }
        }
        part == "program" && $1 ~ /^(map|reduce|match|cross|cogroup)$/ { named[numbers++] = $2; called[$2] = $3; operators++ }
        part == "program" && $1 == "sink" { for (i = 3; i <= NF; i++) is["needed", $2, $i] = 1 }
        part == "sets" { mark("read", $1, $4); mark("written", $1, $6) }
        part == "plan" && / ship / {
            match($0, /^ */)
            place[RLENGTH] = $1
            nodes[++count] = $1
            over[$1] = RLENGTH == 0 ? "" : place[RLENGTH - 2]
            for (i = 1; i < NF; i++) if ($i == "ship") shipped[$1] = $(i + 1)
        }
        END {
            # attributes from the sources upwards: what stands above comes first in a plan
            for (i = count; i > 0; i--) {
                name = nodes[i]
                for (k = 0; k < fields; k++) {
                    if (is["column", name, k] || name in called && is["named", called[name], k]) is["attribute", name, k] = 1
                    if (is["attribute", name, k]) is["attribute", over[name], k] = 1
                }
            }
            # what is needed from the root downwards
            for (i = 2; i <= count; i++) {
                name = nodes[i]
                for (k = 0; k < fields; k++)
                    if (is["attribute", name, k] && (is["read", over[name], k] || is["needed", over[name], k] && !is["written", over[name], k])) is["needed", name, k] = 1
            }
            room = 16 - operators < 64 - functions ? 16 - operators : 64 - functions
            for (i = 0; i < numbers && room > 0; i++) {
                name = named[i]
                if (shipped[name] == "forward" || shipped[name] == "sink") continue
                kept = ""
                spare = 0
                for (k = 0; k < fields; k++)
                    if (is["needed", name, k]) kept = kept "," k
                    else if (is["attribute", name, k]) spare = 1
                if (!spare) continue
                print name " keeps {" substr(kept, 2) "}"
                room--
            }
        }' part=program "$1" part=sets "$2" part=plan "$3"
}
# Whether a program in that folder is pruned as is reckoned, where it is found in the order in which it runs. The lines are counted.
kept_lines=0
is_as_reckoned() { # program, number of workers, other options
    (
        cd "$pruned" && set -- "$1" --workers "${@:2}" && "$pact" plan "$@" >reckoned.plan || exit
        as_planned reckoned.plan "$1" >reckoned.pact && "$pact" sets reckoned.pact >reckoned.sets || exit
        # As it is written now, it is shipped as the chosen plan is.
        "$pact" plan reckoned.pact --workers "$3" --plans 1 | grep ' ship ' >again.plan && grep ' ship ' reckoned.plan >ships.plan || exit
        is_file 'the plan' again.plan ships.plan || exit
        keeps_of reckoned.pact reckoned.sets reckoned.plan >reckoned.keeps && "$pact" run "$@" --prune --counts >out 2>err || exit
        grep ' keeps ' err >keeps
        is_file 'the lines of what is kept' keeps reckoned.keeps
    ) || return
    kept_lines=$((kept_lines + $(wc -l <"$pruned/reckoned.keeps")))
}
for program in *.pact; do
    [ ! -f "expected/${program%.pact}.status" ] || continue
    for workers in 1 2 4 16; do
        count is_as_reckoned "$program" "$workers"
        count is_as_reckoned "$program" "$workers" --plans 1
    done
    # In version 2 the same is found, shipped and kept.
    sed 's/^\([[:blank:]]*pact[[:blank:]][[:blank:]]*\)1/\12/' "$program" >"$pruned/second.pact"
    count is_as_reckoned second.pact 4
done
count test "$kept_lines" -gt 50

# ---- What one operator needs

printf '1,5,1\n2,-3,0\n1,7,\n1,,2\n2,5,5\n' >"$pruned/s.csv"
printf '1,8,0\n2,-3,4\n' >"$pruned/t.csv"
# Whether a Reduce by field 0 of the fields 0, 1 and 2, of eight, is pruned so. What is worked out by hand has to be what is reckoned.
needs() { # lines, version, fields of the sink, statements
    printf 'pact %s\nfields 8\nsource s s.csv int:0 int:1 int:2\nfunction f reduce 1\n%s\nend\nreduce r f s by 0\nsink r %s\n' \
        "$2" "${4//; /$'\n'}" "$3" >"$pruned/m.pact"
    prunes "$1" m.pact --workers 2 && is_as_reckoned m.pact 2
}
# What is handed on is needed where it is needed above, and the key is, whoever names it.
while IFS='|' read -r lines sink statements; do
    count needs "$lines" 1 "$sink" "each x1 of group; $statements; end"
done <<'END'
s keeps {0}\n|0|r0 = copy x1; emit r0
s keeps {0,1}\n|1|r0 = copy x1; emit r0
s keeps {0,2}\n|2 2|r0 = copy x1; emit r0
s keeps {0}\n|7|r0 = copy x1; emit r0
|1 2|r0 = copy x1; emit r0
|2 0 1|r0 = copy x1; emit r0
s keeps {0}\n|0|
|0 1 2|
s keeps {0,1}\n|0 3|v0 = get x1 1; r0 = copy x1; set r0 3 v0; emit r0
s keeps {0}\n|0 4|v0 = get x1 1; r0 = new; set r0 4 v1; emit r0
s keeps {0,1}\n|0|v0 = get x1 1; r0 = copy x1; set r0 3 v0; emit r0
s keeps {0}\n|0 3|v0 = get x1 5; r0 = copy x1; set r0 3 v0; emit r0
s keeps {0}\n|0 3|v0 = key 0; r0 = copy x1; set r0 3 v0; emit r0
s keeps {0,2}\n|0|v0 = get x1 2; if v0; r0 = copy x1; emit r0; end
|0 1|v0 = get x1 2; if v0; r0 = copy x1; emit r0; end
s keeps {0,2}\n|0|v0 = get x1 2; r0 = copy x1; if v0; end; emit r0
s keeps {0,2}\n|0|v0 = get x1 2; v0 = isnull v0; r0 = copy x1; if v0; emit r0; else; emit r0; end
s keeps {0,2}\n|0 1 2|v0 = int 5; r0 = copy x1; set r0 1 v0; emit r0
s keeps {0}\n|0 1|v0 = int 5; r0 = copy x1; set r0 1 v0; emit r0
s keeps {0,1}\n|0 1|v0 = get x1 1; v0 = addw v0 v0; r0 = copy x1; set r0 1 v0; emit r0
|0 1 2|v0 = get x1 1; v0 = addw v0 v0; r0 = copy x1; set r0 1 v0; emit r0
s keeps {0,2}\n|0 1|v0 = get x1 2; r0 = copy x1; set r0 1 v0; emit r0
s keeps {0}\n|0|v0 = get x1 1; r0 = copy x1; set r0 1 v0; emit r0
s keeps {0,1}\n|1|v0 = get x1 1; r0 = copy x1; set r0 1 v0; emit r0
s keeps {0}\n|0|v0 = key 0; r0 = copy x1; set r0 0 v0; emit r0
|0|v0 = get x1 2; r0 = copy x1; if v0; v1 = int 5; set r0 1 v1; end; emit r0
s keeps {0,2}\n|0 1|v0 = get x1 2; r0 = copy x1; if v0; v1 = int 5; else; v1 = int 6; end; set r0 1 v1; emit r0
|0|r0 = copy x1; emit r0; r0 = new; emit r0
s keeps {0}\n|0 1 2|r0 = new; v0 = key 0; set r0 0 v0; emit r0
END
count needs 's keeps {0,1}\n' 1 '0 3' 'v0 = int 0; each x1 of group; v1 = get x1 1; v0 = addw v0 v1; end; r0 = new; v2 = key 0; set r0 0 v2; set r0 3 v0; emit r0'
count needs 's keeps {0,1}\n' 1 0 'each x1 of group; v1 = get x1 1; v0 = max v0 v1; end; if v0; r0 = new; v2 = key 0; set r0 0 v2; emit r0; end'
# A field by register may be any field of its record: a `get` needs the whole of it, and so does a `set`, but in a record that is made anew.
while IFS='|' read -r lines sink statements; do
    count needs "$lines" 2 "$sink" "v1 = int 1; each x1 of group; $statements; end"
done <<'END'
s keeps {0,1}\n|0 3|v0 = get x1 1; r0 = copy x1; set r0 3 v0; emit r0
|0 3|v0 = get x1 @v1; r0 = copy x1; set r0 3 v0; emit r0
s keeps {0}\n|0|v0 = get x1 @v1; r0 = copy x1; emit r0
|0|v0 = get x1 @v1; r0 = copy x1; if v0; end; emit r0
|0|r0 = copy x1; set r0 @v1 v1; emit r0
s keeps {0}\n|0 1 2|r0 = new; set r0 @v1 v1; emit r0
s keeps {0,2}\n|0 1|v0 = get x1 2; r0 = new; set r0 @v1 v0; emit r0
END
# Of a pair that is one side's record alone, and of a record that is made anew what was put into it.
needs_of_pairs() { # lines, fields of the sink, statements
    printf 'pact 2\nfields 8\nsource s s.csv int:0 int:1 int:2\nsource t t.csv int:3 int:4 int:5\nfunction f match\nv1 = int 1\n%s\nend\nmatch j f s t by 0 = 3\nsink j %s\n' \
        "${3//; /$'\n'}" "$2" >"$pruned/m.pact"
    prunes "$1" m.pact --plans 1 && is_as_reckoned m.pact 4 --plans 1
}
while IFS='|' read -r lines sink statements; do
    count needs_of_pairs "$lines" "$sink" "$statements"
done <<'END'
t keeps {3}\n|6|v0 = get left @v1; r0 = copy right; set r0 6 v0; emit r0
t keeps {3,4}\n|4 6|v0 = get left @v1; r0 = copy right; set r0 6 v0; emit r0
s keeps {0}\n|6|v0 = get right @v1; r0 = copy left; set r0 6 v0; emit r0
|6|v0 = get join @v1; r0 = copy left; set r0 6 v0; emit r0
t keeps {3}\n|0|r0 = copy left; set r0 @v1 v1; emit r0
s keeps {0}\n|4|r0 = copy right; set r0 @v1 v1; emit r0
s keeps {0}\nt keeps {3}\n|6|r0 = new; v0 = get r0 @v1; set r0 6 v0; emit r0
s keeps {0,1}\nt keeps {3}\n|7|v2 = get left 1; r0 = new; set r0 6 v2; v0 = get r0 @v1; set r0 7 v0; emit r0
END

# ---- Which edges

# Programs over these sources and functions, whose plans are as they are written. Of two sources the second has the fewer rows: with four workers and a Match
# both go by their keys, and else the second goes to all workers.
of_edges() { # declarations
    cat <<'END'
pact 1
fields 8
function same map
  r0 = copy in
  emit r0
end
function added map
  v0 = get in 1
  v1 = get in 2
  v0 = addw v0 v1
  r0 = copy in
  set r0 6 v0
  emit r0
end
function five map
  v0 = int 5
  r0 = copy in
  set r0 1 v0
  emit r0
end
function few map
  v0 = get in 2
  if v0
    r0 = copy in
    emit r0
  end
end
function keep reduce 1
  each x1 of group
    r0 = copy x1
    emit r0
  end
end
function both reduce 2
  each x1 of group
    r0 = copy x1
    emit r0
  end
end
function sum reduce 1
  v0 = int 0
  each x1 of group
    v1 = get x1 1
    v0 = addw v0 v1
  end
  r0 = new
  v2 = key 0
  set r0 0 v2
  set r0 6 v0
  emit r0
end
function pair match
  r0 = copy join
  emit r0
end
function left_kept match
  r0 = copy left
  emit r0
end
function asked match
  v0 = get right 5
  if v0
    r0 = copy left
    emit r0
  end
end
function each_pair cross
  r0 = copy join
  emit r0
end
function each_left cross
  r0 = copy left
  emit r0
end
function counted cogroup 1
  v0 = int 0
  v1 = int 1
  each x1 of right
    v0 = addw v0 v1
  end
  each x1 of left
    r0 = copy x1
    set r0 6 v0
    emit r0
  end
end
function keys cogroup 1
  r0 = new
  v0 = key 0
  set r0 0 v0
  emit r0
end
END
    local declarations=$1
    declarations=${declarations//S;/source s s.csv int:0 int:1 int:2;}
    declarations=${declarations//T;/source t t.csv int:3 int:4 int:5;}
    printf '%s\n' "${declarations//; /$'\n'}"
}
cuts() { # lines, number of workers, declarations
    of_edges "$3" >"$pruned/m.pact"
    prunes "$1" m.pact --workers "$2" --plans 1 && is_as_reckoned m.pact "$2" --plans 1
}
while IFS='|' read -r lines workers declarations; do
    count cuts "$lines" "$workers" "$declarations"
done <<'END'
|4|S; map m same s; sink m 0
|4|S; reduce r keep s by 0; sink r 0 1 2
s keeps {0}\n|1|S; reduce r keep s by 0; sink r 0
s keeps {0}\n|4|S; reduce r keep s by 0; sink r 0
m keeps {0,1}\n|4|S; map m same s; reduce r keep m by 0; sink r 1
m keeps {0,6}\n|4|S; map m added s; reduce r keep m by 0; sink r 6
|4|S; map m added s; reduce r keep m by 0; sink r 6 1 2
m keeps {0}\n|4|S; map m few s; reduce r keep m by 0; sink r 0
s keeps {0,1}\n|4|S; reduce r sum s by 0; sink r 0 6
s keeps {0,1}\nr keeps {0,6}\n|4|S; reduce r sum s by 0; reduce q keep r by 6; sink q 0
s keeps {0,1}\n|4|S; reduce a keep s by 0; reduce b keep a by 0; sink b 1
s keeps {0,1}\n|4|S; reduce a keep s by 0; reduce b both a by 1 0; sink b 1
s keeps {0,1}\na keeps {1}\n|4|S; reduce a keep s by 0; reduce b keep a by 1; sink b 1
b keeps {2}\na keeps {1,2}\n|4|S; reduce c keep b by 2; reduce b keep a by 1; reduce a keep s by 0; sink c 2
s keeps {0,2}\n|4|S; reduce a keep s by 0; map m few a; sink m 0
|4|S; reduce a keep s by 0; map m few a; sink m 1
s keeps {0}\n|4|S; reduce a keep s by 0; map m five a; sink m 0 1
|4|S; reduce a keep s by 0; map m added a; map n five m; sink n 0 1 6
s keeps {0,2}\n|4|S; reduce a keep s by 0; map m five a; map n added m; sink n 6
s keeps {0,1}\nt keeps {3,4}\n|4|S; T; match j pair s t by 0 = 3; sink j 1 4
t keeps {3,4}\n|2|S; T; match j pair s t by 0 = 3; sink j 1 4
t keeps {3,4}\n|1|S; T; match j pair s t by 0 = 3; sink j 1 4
s keeps {3,4}\n|1|source s t.csv int:3 int:4 int:5; source t s.csv int:0 int:1 int:2; match j pair s t by 3 = 0; sink j 1 4
t keeps {3,4}\ns keeps {0,1}\n|4|T; S; match j pair s t by 0 = 3; sink j 1 4
|4|S; T; match j pair s t by 0 = 3; sink j 1 2 4 5
t keeps {3,4}\n|4|S; T; match j pair s t by 0 1 = 3 4; sink j 2
s keeps {0,1}\nt keeps {3}\n|4|S; T; match j left_kept s t by 0 = 3; sink j 1
s keeps {0}\nt keeps {3}\n|4|S; T; match j left_kept s t by 0 = 3; sink j 4
s keeps {0,1}\nt keeps {3,5}\n|4|S; T; match j asked s t by 0 = 3; sink j 1
s keeps {0,1}\nt keeps {3,4}\n|4|S; T; match j pair s t by 0 = 3; reduce r both j by 0 1; sink r 4
s keeps {0,1}\nt keeps {3,4}\nj keeps {1,4}\n|4|S; T; match j pair s t by 0 = 3; reduce r keep j by 1; sink r 4
j keeps {1,4}\nt keeps {3,4}\ns keeps {0,1}\n|4|reduce r keep j by 1; match j pair s t by 0 = 3; T; S; sink r 4
s keeps {0,1}\nt keeps {3,4}\n|4|S; T; reduce a keep s by 0; match j pair a t by 0 = 3; sink j 1 4
t keeps {4}\n|4|S; T; cross x each_pair s t; sink x 1 4
t keeps {4}\n|16|S; T; cross x each_pair t s; sink x 1 4
|4|S; T; cross x each_pair s t; sink x 3 4 5
t keeps {}\n|4|S; T; cross x each_left s t; sink x 1
t keeps {}\n|1|S; T; cross x each_left t s; sink x 1
s keeps {0,1}\nt keeps {3}\n|4|S; T; cogroup g counted s t by 0 = 3; sink g 1 6
s keeps {0,1}\nt keeps {3}\n|1|S; T; cogroup g counted s t by 0 = 3; sink g 1 6
|4|S; T; cogroup g keys s t by 0 = 3; sink g 0
|4|S; T; reduce a keep s by 1; cogroup g keys a t by 0 = 3; sink g 0
s keeps {0,2}\n|4|S; T; reduce a keep s by 0; map m five a; cogroup g keys m t by 0 = 3; sink g 0
END

# Fields beyond the 64th, and a Map below which has all fields for attributes.
while IFS='|' read -r lines fields statements reduce; do
    printf 'pact 2\nfields %s\nsource s s.csv int:0 int:%d int:%d\nfunction f map\n%s\nend\n' \
        "$fields" $((fields / 2)) $((fields - 1)) "${statements//; /$'\n'}" >"$pruned/m.pact"
    printf 'function keep reduce 1\neach x1 of group\nr0 = copy x1\nemit r0\nend\nend\nmap m f s\n%s\n' "${reduce//; /$'\n'}" >>"$pruned/m.pact"
    count prunes "$lines" m.pact --plans 1
    count is_as_reckoned m.pact 4 --plans 1
done <<'END'
m keeps {64,127}\n|128|r0 = copy in; emit r0|reduce r keep m by 64; sink r 127
m keeps {63,64}\n|128|r0 = copy in; v0 = get in 0; set r0 63 v0; emit r0|reduce r keep m by 64; sink r 63
m keeps {3,5}\n|8|r0 = copy in; v0 = int 3; set r0 @v0 v0; emit r0|reduce r keep m by 3; sink r 5
|3|r0 = copy in; v0 = int 1; set r0 @v0 v0; emit r0|reduce r keep m by 0; sink r 1 2
END

# ---- Limits

# A Map is put in while there are fewer than 16 operators, of which sources are none, and fewer than 64 functions, called or not. Pruning comes before
# combining, which wants fewer than 63. Each row has the lines with `--prune`, those behind them with `--combine` too, the operators over the source s, and
# how many functions there are.
of_operators() { # operators, functions
    local i
    printf 'pact 1\nfields 8\nsource s s.csv int:0 int:1 int:2\n'
    printf 'function same map\n  r0 = copy in\n  emit r0\nend\n'
    printf 'function keep reduce 1\n  each x1 of group\n    r0 = copy x1\n    emit r0\n  end\nend\n'
    printf 'function pair match\n  r0 = copy join\n  emit r0\nend\n'
    printf 'function sum reduce 1\n  v0 = int 0\n  each x1 of group\n    v1 = get x1 1\n    v0 = addw v0 v1\n  end\n'
    printf '  r0 = new\n  v2 = key 0\n  set r0 0 v2\n  set r0 1 v0\n  emit r0\nend\n'
    printf 'function sum_of_both reduce 1\n  v0 = int 0\n  each x1 of group\n    v1 = get x1 1\n    v0 = addw v0 v1\n    v1 = get x1 2\n    v0 = addw v0 v1\n'
    printf '  end\n  r0 = new\n  v2 = key 0\n  set r0 0 v2\n  set r0 1 v0\n  emit r0\nend\n'
    for ((i = 5; i < $2; i++)); do printf 'function more%d map\nend\n' "$i"; done
    printf '%s\n' "${1//; /$'\n'}"
}
# So many Maps, one over the other, each with its `; `: how many.
maps_over_s() {
    local i below=s
    for ((i = 1; i <= $1; i++)); do
        printf 'map m%d same %s; ' "$i" "$below"
        below=m$i
    done
}
prunes_first() { # the lines of both ways, those of partial records, operators, functions
    of_operators "$3" "$4" >"$pruned/m.pact"
    prunes "$1" m.pact --workers 2 --plans 1 && is_as_reckoned m.pact 2 --plans 1 || return
    (cd "$pruned" && "$pact" run m.pact --workers 2 --plans 1 --prune --combine --counts >out 2>err) || return
    is_counted "$1$2"
}
while IFS='|' read -r keeps partials operators functions; do
    for many in 12 13 14 15; do operators=${operators//MAPS$many/$(maps_over_s "$many")}; done
    count prunes_first "$keeps" "$partials" "$operators" "$functions"
done <<'END'
m12 keeps {0,1}\na keeps {1}\n||MAPS12reduce a keep m12 by 0; reduce b keep a by 1; sink b 1|5
m13 keeps {0,1}\n||MAPS13reduce a keep m13 by 0; reduce b keep a by 1; sink b 1|5
||MAPS14reduce a keep m14 by 0; reduce b keep a by 1; sink b 1|5
a keeps {1}\n||reduce a keep m13 by 0; MAPS13reduce b keep a by 1; sink b 1|5
t keeps {3}\n||source t t.csv int:3 int:4 int:5; MAPS14match j pair m14 t by 0 = 3; sink j 0 1 2|5
m14 keeps {0,1}\n||MAPS14reduce r sum m14 by 0; sink r 0 1|5
m13 keeps {0,1}\n|r partials 4\n|MAPS13reduce r sum m13 by 0; sink r 0 1|5
||MAPS15reduce r sum m15 by 0; sink r 0 1|5
|r partials 4\n|MAPS14reduce r sum_of_both m14 by 0; sink r 0 1|5
s keeps {0,1}\na keeps {1}\n||reduce a keep s by 0; reduce b keep a by 1; sink b 1|62
s keeps {0,1}\n||reduce a keep s by 0; reduce b keep a by 1; sink b 1|63
||reduce a keep s by 0; reduce b keep a by 1; sink b 1|64
s keeps {0,1}\n|r partials 4\n|reduce r sum s by 0; sink r 0 1|61
s keeps {0,1}\n||reduce r sum s by 0; sink r 0 1|62
s keeps {0,1}\n||reduce r sum s by 0; sink r 0 1|63
||reduce r sum s by 0; sink r 0 1|64
END

# ---- Words

echo 'usage: pact COMMAND ARGUMENTS' >"$scratch/usage"
while IFS= read -r words; do
    # shellcheck disable=SC2086
    count writes 2 /dev/null "$scratch/usage" $words
done <<'END'
plan sum.pact --prune
cert sum.pact --prune
check sum.pact certificates/push.good.json --prune
sets sum.pact --prune
gen 0 1 --prune
drill 0 1 --prune --counts
drill 0 1 --prune --prune
iterate label.pact v 3 --prune
iterate label.pact v 3 --stable --prune
run sum.pact --prune --prune
run sum.pact --prune=true
run sum.pact --prun
run --prune
END
while IFS= read -r words; do
    # shellcheck disable=SC2086
    count writes 0 expected/shop.stdout /dev/null $words
done <<'END'
run --prune shop.pact
run shop.pact --combine --workers=2 --prune
run --combine --prune -- shop.pact
END
