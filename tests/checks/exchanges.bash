# Which exchanges `check` finds legal, where they lead, and why it refuses others. What a step has to state is what `check` tells that it has found, so that the judgement alone is left;
# docs/exchanges.md has the conditions.

cat >"$scratch/functions" <<'END'
pact 1
fields 8
function low map
  v0 = get in 1
  v1 = int 7
  v2 = lt v0 v1
  if v2
    r0 = copy in
    emit r0
  end
end
function high map
  v0 = get in 3
  v1 = int 8
  v2 = lt v1 v0
  if v2
    r0 = copy in
    emit r0
  end
end
function mark map
  r0 = copy in
  v0 = int 7
  set r0 6 v0
  emit r0
end
function tell map
  v0 = get in 6
  r0 = copy in
  set r0 7 v0
  emit r0
end
function drop map
  r0 = new
  v0 = get in 1
  set r0 1 v0
  emit r0
end
function jn match
  r0 = copy join
  emit r0
end
function lft match
  r0 = copy left
  emit r0
end
function all cross
  r0 = copy join
  emit r0
end
function anew cross
  r0 = new
  emit r0
end
function sum reduce 1
  each x1 of group
    r0 = copy x1
    emit r0
  end
end
function both cogroup 1
  each x1 of left
    r0 = copy x1
    emit r0
  end
end
function other cogroup 1
  each x1 of right
    r0 = copy x1
    emit r0
  end
end
END
one='source s s.csv int:0 int:1\n'
two=$one'source t t.csv int:2 int:3\n'
three=$two'source u u.csv int:4 int:5\n'

# shellcheck source=/dev/null
. "$checks/judging.sh"

# ---- neighbouring Maps
count refused 'C4 conflict read-write 6' "${one}map a mark s\nmap b tell a\nsink b 7\n" b map-map
count refused 'C4 conflict write-read 6' "${one}map a tell s\nmap b mark a\nsink b 7\n" b map-map
count refused 'C4 conflict write-write 6' "${one}map a mark s\nmap b mark a\nsink b 6\n" b map-map
mark_then_low="${one}map a mark s\nmap b low a\nsink b 6\n"
count leads 'a(b(s))' 'b(a(s))' "$mark_then_low" b map-map a map-map
for name in a s nobody; do
    count refused C1 "$mark_then_low" "$name" map-map
done

# ---- Maps past one side. Each of the two operators is judged by all that its inputs may hold before or after: `drop` loses the other side's fields in the wider plan alone, and `lft` the
# mark where it comes from the right.
joined="${two}match g jn s t by 0 = 2\nmap l low g\nmap h high l\nmap m mark h\nsink m 0\n"
count leads 'm(h(g(l(s),t)))' 'm(h(l(g(s,t))))' "$joined" l map-left g map-left-up
count refused 'C4 side 1' "$joined" l map-right
count refused C1 "$joined" m map-left
high_over="${two}match g jn s t by 0 = 2\nmap h high g\nsink h 0\n"
count refused 'C4 side 3' "$high_over" h map-left
count leads 'g(s,h(t))' 'h(g(s,t))' "$high_over" h map-right g map-right-up
crossed="${two}cross g all s t\nmap d drop g\nsink d 1\n"
count refused 'C4 side 2' "$crossed" d map-left
count refused 'C4 side 0' "$crossed" d map-right
left_dropped="${two}map d drop s\ncross g all d t\nsink g 1\n"
count refused 'C4 side 2' "$left_dropped" g map-left-up
right_dropped="${two}map d drop s\ncross g all t d\nsink g 1\n"
count refused 'C4 side 2' "$right_dropped" g map-right-up
left_kept="${two}match g lft s t by 0 = 2\nmap m mark g\nsink m 0 1 6\n"
count leads 'g(m(s),t)' 'm(g(s,t))' "$left_kept" m map-left g map-left-up
count refused 'C4 conflict write-write 6' "$left_kept" m map-right

# ---- rotations. `anew` touches whatever may be in its inputs.
two_matches="${three}match g jn s t by 0 = 2\nmatch h jn g u by 3 = 4\nsink h 0 1 2 3 4 5\n"
count leads 'g(s,h(t,u))' 'h(g(s,t),u)' "$two_matches" h rotate g rotate-up
count refused C1 "$two_matches" h rotate-up
count refused 'C4 side 1' "${three}match g jn s t by 0 = 2\nmatch h jn g u by 1 = 4\nsink h 0\n" h rotate
by_last="${three}match h jn t u by 3 = 4\nmatch g jn s h by 0 = 5\nsink g 0\n"
count refused 'C4 side 5' "$by_last" g rotate-up
count refused 'C4 side 4' "${three}cross g anew s t\ncross h all g u\nsink h 0\n" h rotate
count refused 'C4 side 0' "${three}cross h anew t u\ncross g all s h\nsink g 0\n" g rotate-up

# ---- Maps past groups, and back. The control of `low` is field 1, that of `high` field 3, and `mark` gives one record for each; `both` copies the records of the left, and `other` those of
# the right. The first cause is told: the side before the anchor, and the anchor before the groups.
past_reduce() { # why it is refused, or nothing; the Map's function, the key
    local over="${one}reduce r sum s by $3\nmap m $2 r\nsink m 1\n" under="${one}map m $2 s\nreduce r sum m by $3\nsink r 1\n"
    if [ -n "$1" ]; then
        refused "$1" "$over" m map-reduce && refused "$1" "$under" r map-reduce-up
    else
        leads 'r(m(s))' 'm(r(s))' "$over" m map-reduce r map-reduce-up
    fi
}
count past_reduce '' low 1
count past_reduce 'C4 key-group' low 0
count past_reduce '' mark 0
past_side() { # side, why it is refused, or nothing; the functions of the Map and of the CoGroup, its keys
    local over="${two}cogroup c $4 s t by $5\nmap m $3 c\nsink m 1\n" inputs='m t' map='s' after='c(m(s),t)'
    [ "$1" = left ] || { inputs='s m' map=t after='c(s,m(t))'; }
    local under="${two}map m $3 $map\ncogroup c $4 $inputs by $5\nsink c 1\n"
    if [ -n "$2" ]; then
        refused "$2" "$over" m "map-cogroup-$1" && refused "$2" "$under" c "map-cogroup-$1-up"
    else
        leads "$after" 'm(c(s,t))' "$over" m "map-cogroup-$1" c "map-cogroup-$1-up"
    fi
}
count past_side left '' low both '1 = 2'
count past_side left 'C4 key-group' low both '0 = 2'
count past_side left 'C4 not-anchored' low other '1 = 2'
count past_side right '' high other '0 = 3'
count past_side right 'C4 key-group' high other '0 = 2'
count past_side right 'C4 not-anchored' high both '0 = 3'
count past_side left 'C4 side 3' high other '0 = 2'
count past_side left 'C4 not-anchored' low other '0 = 2'
count past_side right 'C4 not-anchored' high both '0 = 2'
# A Map behind a count of its group would change what is counted.
count refused 'C4 key-group' "${one}function cnt reduce 1\n  v0 = int 0\n  v1 = int 1\n  each x1 of group\n    v0 = addw v0 v1\n  end\n  each x1 of group\n    r0 = copy x1\n    set r0 4 v0\n    emit r0\n  end\nend\nreduce r cnt s by 0\nmap m low r\nsink m 0 1 4\n" m map-reduce

# ---- where rules have a place: all of the rules that are no C1 at an operator
grouped="${two}map a mark s\nmap k high t\ncogroup c both a k by 0 = 2\nmap b low c\nreduce r sum b by 0\nmap e tell r\nsink e 0 7\n"
count places map-reduce "$grouped" e
count places map-reduce-up "$grouped" r
count places 'map-cogroup-left map-cogroup-right' "$grouped" b
count places 'map-cogroup-left-up map-cogroup-right-up' "$grouped" c
count places '' "$grouped" k
count places map-map "$joined" h
count places 'map-left map-right' "$joined" l
count places map-left-up "$left_dropped" g
count places map-right-up "$right_dropped" g
count places rotate-up "$by_last" g
count places rotate "$two_matches" h
count refused C2 "$two_matches" h map-up
count refused C2 "$two_matches" h ''

# ---- nothing that is stated of a step is believed: each of the eight parts of either found set, changed by itself, is told with what was found
other_parts='
s/"reads":\[/&63,/;s/63,([0-9,]+)\]/\1,63]/;s/63,\]/63]/
s/"writes":\[/&63,/;s/63,([0-9,]+)\]/\1,63]/;s/63,\]/63]/
s/"control":\[/&63,/;s/63,([0-9,]+)\]/\1,63]/;s/63,\]/63]/
s/"touched":\[/&63,/;s/63,([0-9,]+)\]/\1,63]/;s/63,\]/63]/
s/"lo":[0-9]+/"lo":7/
s/"hi":[0-9]+/"hi":7/
s/"anchor":"none"/"anchor":"left"/;t;s/"anchor":"left"/"anchor":"none"/
s/"anchor":"none"/"anchor":"right"/;t;s/"anchor":"left"/"anchor":"both"/
'
believes_nothing() { # declarations, upper, rule
    judged "$1" '' "$2" "$3" >/dev/null
    local set change others=0
    cp "$scratch/judged.json" "$scratch/found.json"
    for set in lower upper; do
        while IFS= read -r change; do
            [ -n "$change" ] || continue
            # the members of one of the two sets, on a line of their own
            sed -E "s/\"$set\":\{[^}]*\}/\n&\n/" "$scratch/found.json" | sed -E "/^\"$set\"/{$change}" | tr -d '\n' >"$scratch/judged.json"
            cmp -s "$scratch/judged.json" "$scratch/found.json" && return 1
            "$pact" check "$scratch/judged.pact" "$scratch/judged.json" >"$scratch/told" 2>&1
            head -n 1 "$scratch/told" | grep -qx 'certificate refused: step 1: C3' || return 1
            others=$((others + 1))
        done <<<"$other_parts"
    done
    [ "$others" -eq 16 ]
}
count believes_nothing "$two_matches" h rotate
count believes_nothing "$left_kept" m map-left
count believes_nothing "${two}cogroup c both s t by 1 = 2\nmap m low c\nsink m 1\n" m map-cogroup-left

# ---- what an exchange leads to, written as a program of its own, gives the same rows
printf '1,5\n1,7\n' >"$scratch/s.csv"
printf '1,9\n1,8\n' >"$scratch/t.csv"
printf '9,3\n' >"$scratch/u.csv"
both_give() { # the rows, the declarations before and after
    local declarations
    for declarations in "${@:2}"; do
        { cat "$scratch/functions"; printf '%b' "$declarations"; } >"$scratch/exchanged.pact"
        gives 0 "$1" '' run exchanged.pact --plans 1 || return 1
    done
}
count both_give '1,5,1,9,9,3\n1,7,1,9,9,3\n' "$two_matches" "${three}match h jn t u by 3 = 4\nmatch g jn s h by 0 = 2\nsink g 0 1 2 3 4 5\n"
count both_give '1,5,1,8\n1,5,1,9\n' "${two}match g jn s t by 0 = 2\nmap l low g\nsink l 0 1 2 3\n" "${two}map l low s\nmatch g jn l t by 0 = 2\nsink g 0 1 2 3\n"
count both_give '1,5,1,9\n1,7,1,9\n' "${two}match g jn s t by 0 = 2\nmap h high g\nsink h 0 1 2 3\n" "${two}map h high t\nmatch g jn s h by 0 = 2\nsink g 0 1 2 3\n"
count both_give '1,5,7\n' "${one}map a mark s\nmap b low a\nsink b 0 1 6\n" "${one}map b low s\nmap a mark b\nsink a 0 1 6\n"
count both_give '1,5\n' "${one}reduce r sum s by 1\nmap l low r\nsink l 0 1\n" "${one}map l low s\nreduce r sum l by 1\nsink r 0 1\n"
count both_give '1,5\n' "${two}cogroup c both s t by 1 = 2\nmap m low c\nsink m 0 1\n" "${two}map m low s\ncogroup c both m t by 1 = 2\nsink c 0 1\n"
count both_give '1,9\n' "${two}cogroup c other s t by 0 = 3\nmap m high c\nsink m 2 3\n" "${two}map m high t\ncogroup c other s m by 0 = 3\nsink c 2 3\n"
