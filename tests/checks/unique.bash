# Exchanges of a Reduce and a Match: where they are legal and lead, each cause that refuses them, and rows before and after. How a step is judged is in judging.sh.

# The functions: `best` gives each key once, so does `pairs` of two, `many` each record, `own` writes its key; `cnt` counts a group, `cnts` by two keys, `sum` in a record made anew with the
# key, `third` in field 3, `anew` loses all fields, `seen` reads field 3; `jn` gives each pair, `some` those with less than 6 in field 1; `high` asks for more than 8 in field 3.
cat >"$scratch/functions" <<'END'
pact 1
fields 8
source s s.csv int:0 int:1
source t t.csv int:2 int:3
function best reduce 1
  v0 = null
  each x1 of group
    v1 = get x1 3
    v0 = max v0 v1
  end
  r0 = new
  v2 = key 0
  set r0 2 v2
  set r0 3 v0
  emit r0
end
function many reduce 1
  each x1 of group
    r0 = copy x1
    emit r0
  end
end
function own reduce 1
  r0 = new
  v2 = int 1
  set r0 2 v2
  emit r0
end
function cnt reduce 1
  v0 = int 0
  v1 = int 1
  each x1 of group
    v0 = addw v0 v1
  end
  each x1 of group
    r0 = copy x1
    set r0 6 v0
    emit r0
  end
end
function cnts reduce 2
  v0 = int 0
  v1 = int 1
  each x1 of group
    v0 = addw v0 v1
  end
  each x1 of group
    r0 = copy x1
    set r0 6 v0
    emit r0
  end
end
function pairs reduce 2
  r0 = new
  v2 = key 0
  set r0 2 v2
  v3 = key 1
  set r0 3 v3
  emit r0
end
function sum reduce 1
  v0 = int 0
  each x1 of group
    v1 = get x1 1
    v0 = addw v0 v1
  end
  r0 = new
  v2 = key 0
  set r0 0 v2
  set r0 6 v0
  emit r0
end
function third reduce 1
  v0 = int 0
  v1 = int 1
  each x1 of group
    v0 = addw v0 v1
  end
  each x1 of group
    r0 = copy x1
    set r0 3 v0
    emit r0
  end
end
function anew reduce 1
  r0 = new
  emit r0
end
function seen reduce 1
  each x1 of group
    v0 = get x1 3
    r0 = copy x1
    set r0 6 v0
    emit r0
  end
end
function same map
  r0 = copy in
  emit r0
end
function high map
  v0 = get in 3
  v1 = int 8
  v2 = lt v1 v0
  if v2
    r0 = copy in
    emit r0
  end
end
function key map
  r0 = copy in
  v0 = int 1
  set r0 2 v0
  emit r0
end
function twice map
  r0 = copy in
  emit r0
  emit r0
end
function jn match
  r0 = copy join
  emit r0
end
function some match
  v0 = get join 1
  v1 = int 6
  v2 = lt v0 v1
  if v2
    r0 = copy join
    emit r0
  end
end
function all cross
  r0 = copy join
  emit r0
end
END
# shellcheck source=/dev/null
. "$checks/judging.sh"

# Operators in which the Reduce `r` stands over the Match `g`, or on a side of it; `B` stands for what makes the other side, which is named `b`, or `t` where nothing is made.
# The words are over or under, the side, the functions of the Reduce and of the Match, the Match's key on the side of the move, and what makes the other side.
declared() {
    local other=t near=s inputs keys
    [ -z "$6" ] || other=b
    [ "$1" = over ] || near=r
    if [ "$2" = left ]; then inputs="$near $other" keys="$5 = 2"; else inputs="$other $near" keys="2 = $5"; fi
    printf '%s' "$6"
    if [ "$1" = over ]; then
        printf 'match g %s %s by %s\nreduce r %s g by 0\nsink r 0\n' "$4" "$inputs" "$keys" "$3"
    else
        printf 'reduce r %s s by 0\nmatch g %s %s by %s\nsink g 0\n' "$3" "$4" "$inputs" "$keys"
    fi
}
# Whether the exchange at the upper operator is refused so; where nothing is told, whether it is legal and leads there and back.
reduce_match() { # side, why; the functions and the key as above, what makes the other side
    local over under after=g written='r(g(s,b))'
    over=$(declared over "$1" "${@:3}")
    under=$(declared under "$1" "${@:3}")
    if [ -n "$2" ]; then
        refused "C4 ${2%/*}" "$over\n" r "reduce-match-$1" && refused "C4 ${2#*/}" "$under\n" g "reduce-match-$1-up"
        return
    fi
    if [ "$1" = left ]; then after='g(r(s),b)'; else after='g(b,r(s))' written='r(g(b,s))'; fi
    after=${after//b/"$7"} written=${written//b/"$7"}
    leads "$after" "$written" "$over\n" r "reduce-match-$1" g "reduce-match-$1-up" &&
        leads "$written" "$after" "$under\n" g "reduce-match-$1-up" r "reduce-match-$1"
}
best=$'reduce b best t by 2\n'
for side in left right; do
    count reduce_match "$side" '' cnt jn 0 "$best" 'b(t)'
    # Each cause alone, and then with all that come behind it. A conflict is told of the upper operator, so in other words each way.
    count reduce_match "$side" 'conflict write-read 0/conflict read-write 0' anew jn 0 "$best"
    count reduce_match "$side" 'conflict write-read 2/conflict read-write 2' sum jn 0 "$best"
    count reduce_match "$side" 'side 3' seen jn 0 "$best"
    # below the Match it would be no program, since both sides had field 3
    count refused 'C4 side 3' "$(declared over "$side" third jn 0 "$best")\n" r "reduce-match-$side"
    count reduce_match "$side" 'match-key 1' cnt jn 1 "$best"
    count reduce_match "$side" not-unique cnt jn 0 ''
    count reduce_match "$side" key-group cnt some 0 "$best"
    count reduce_match "$side" 'conflict write-read 1/conflict read-write 1' anew some 1 ''
    count reduce_match "$side" 'side 3' seen some 1 ''
    count reduce_match "$side" 'match-key 1' cnt some 1 ''
    count reduce_match "$side" not-unique cnt some 0 ''
    # What holds each key once, and what doesn't: Maps over such a Reduce, and a Reduce by more keys, by another, with many records, or that writes its key.
    count reduce_match "$side" '' cnt jn 0 $'reduce c best t by 2\nmap b same c\n' 'b(c(t))'
    count reduce_match "$side" '' cnt jn 0 $'reduce d best t by 2\nmap c same d\nmap b same c\n' 'b(c(d(t)))'
    count reduce_match "$side" not-unique cnt jn 0 $'reduce c best t by 2\nmap b key c\n'
    count reduce_match "$side" not-unique cnt jn 0 $'reduce c best t by 2\nmap b twice c\n'
    count reduce_match "$side" not-unique cnt jn 0 $'map b same t\n'
    count reduce_match "$side" not-unique cnt jn 0 $'reduce b best t by 3\n'
    count reduce_match "$side" not-unique cnt jn 0 $'reduce b many t by 2\n'
    count reduce_match "$side" not-unique cnt jn 0 $'reduce b own t by 2\n'
done
# The side that isn't moved is passed, so a Reduce goes to its own side alone.
over=$(declared over left cnt jn 0 "$best")
count refused 'C4 side 0' "$over\n" r reduce-match-right
# By two keys: a Match by two that are both none of the Reduce's, of which the least is told, or of which one is; a Reduce by the Match's keys, or by more.
wide=$'source w w.csv int:4 int:5 int:7\nmatch x jn s t by 0 = 2\n'
count refused 'C4 match-key 5' "${wide}match g jn w x by 7 5 = 2 3\nreduce r cnt g by 4\nsink r 4\n" r reduce-match-left
count refused 'C4 match-key 5' "${wide}match g jn x w by 2 3 = 7 5\nreduce r cnt g by 4\nsink r 4\n" r reduce-match-right
count refused 'C4 match-key 5' "${wide}reduce r cnt w by 4\nmatch g jn r x by 7 5 = 2 3\nsink g 4\n" g reduce-match-left-up
count refused 'C4 match-key 1' "match g jn s t by 1 0 = 2 3\nreduce r cnt g by 0\nsink r 0\n" r reduce-match-left
count refused 'C4 not-unique' "${best/2/3}match g jn s b by 0 = 2\nreduce r cnts g by 0 1\nsink r 0\n" r reduce-match-left
count leads 'g(r(s),b(t))' 'r(g(s,b(t)))' $'reduce b pairs t by 2 3\nmatch g jn s b by 0 1 = 2 3\nreduce r cnts g by 0 1\nsink r 0\n' r reduce-match-left g reduce-match-left-up
count leads 'g(r(s),b(t))' 'r(g(s,b(t)))' "${best}match g jn s b by 0 = 2\nreduce r cnts g by 0 1\nsink r 0\n" r reduce-match-left g reduce-match-left-up
count leads 'g(b(t),r(s))' 'r(g(b(t),s))' "${best}match g jn b s by 2 = 0\nreduce r cnts g by 1 0\nsink r 0\n" r reduce-match-right g reduce-match-right-up
# A filter by a field of the other side can't pass the Reduce, but where the Reduce is below the Match it goes on to its side: so the exchange opens further ones.
opened="${best}match g jn s b by 0 = 2\nreduce r cnt g by 0\nmap h high r\nsink h 0 1 2 3 6\n"
count refused 'C4 key-group' "$opened" h map-reduce
count says 'C5 stated  found g(r(s),h(b(t)))' "$opened" '' r reduce-match-left h map-right
lists_opened() {
    { cat "$scratch/functions"; printf '%b' "$opened"; } >"$scratch/opened.pact"
    printf '1,5\n' >"$scratch/s.csv"
    printf '1,9\n' >"$scratch/t.csv"
    (cd "$scratch" && "$pact" plan opened.pact) | head -n 1 | grep -qx 'plans 5 complete'
}
count lists_opened
# Where the rules have a place: of a Reduce over a Match, and the other way round, and not of a Cross.
count places 'reduce-match-left reduce-match-right' "$over\n" r
count places reduce-match-left-up "$(declared under left cnt jn 0 '')\n" g
count places reduce-match-right-up "$(declared under right cnt jn 0 '')\n" g
count places 'reduce-match-left-up reduce-match-right-up' "${best}reduce r cnt s by 0\nmatch g jn r b by 0 = 2\nsink g 0\n" g
count places '' "cross g all s t\nreduce r cnt g by 0\nsink r 0\n" r
count places '' "reduce r cnt s by 0\ncross g all r t\nsink g 0\n" g

# ---- rows, before the exchange and after it

# Operators whose sink tells both sides and the count, and a program of this version with them.
told() { # the words of `declared`
    declared "$@" | sed 's/^\(sink .\) 0$/\1 0 1 2 3 6/'
}
written() { # version, and these words
    sed "s/^pact 1\$/pact $1/" "$scratch/functions"
    told "${@:2}"
}
# The same by awk: the greatest value of each key of the other side, and how many records of s have the key of each.
worked_counts() { # version
    (cd "$scratch" && awk -F, -v version="$1" '
        FILENAME == "t.csv" { if (!($1 in best) || best[$1] == "" || ($2 != "" && $2 + 0 > best[$1] + 0)) best[$1] = $2; next }
        { rows[++number] = $0; seen[$1]++ }
        END {
            for (i = 1; i <= number; i++) {
                split(rows[i], row)
                if (row[1] in best && (version == 1 || row[1] != "")) print rows[i] "," row[1] "," best[row[1]] "," seen[row[1]]
            }
        }' t.csv s.csv | LC_ALL=C sort >wanted)
}
keeps_rows() { # version, side
    local form words
    worked_counts "$1"
    for form in over under; do
        written "$1" "$form" "$2" cnt jn 0 "$best" >"$scratch/written.pact"
        for words in '--workers 1 --plans 1' '--workers 4 --plans 1' '--workers 1' '--workers 4 --batch 1 --depth 1' '--workers 3 --local sort'; do
            # shellcheck disable=SC2086
            keep_command pact run written.pact $words
            # shellcheck disable=SC2086
            (cd "$scratch" && "$pact" run written.pact $words | LC_ALL=C sort >out 2>err) && is_file 'the rows' "$scratch/out" "$scratch/wanted" || return 1
        done
        # two plans are listed, whichever of them was written
        (cd "$scratch" && "$pact" plan written.pact) | head -n 1 | grep -qx 'plans 2 complete' || return 1
    done
}
# Each row has the rows of s and of t, as printf writes them, and how many rows come in version 1 and in version 2.
while IFS='|' read -r lefts rights first second; do
    printf '%b' "$lefts" >"$scratch/s.csv"
    printf '%b' "$rights" >"$scratch/t.csv"
    for side in left right; do
        count keeps_rows 1 "$side"
        count test "$(wc -l <"$scratch/wanted")" = "$first"
        count keeps_rows 2 "$side"
        count test "$(wc -l <"$scratch/wanted")" = "$second"
    done
done <<'END'
1,5\n2,-3\n1,7\n|1,9\n1,8\n3,7\n|2|2
1,5\n1,7\n|2,9\n3,8\n|0|0
|1,9\n|0|0
1,5\n||0|0
1,5\n,4\n1,7\n,6\n|,2\n1,9\n,3\n|4|2
,4\n,4\n,\n|,2\n|3|0
1,5\n1,5\n2,5\n3,5\n3,6\n3,7\n|1,9\n2,8\n3,7\n3,9\n|6|6
END

# What would come of an exchange that is refused, written as a program of its own, differs: several partners, partners by another field, and a Match that gives some pairs alone.
printf '1,5\n1,7\n' >"$scratch/s.csv"
printf '1,9\n1,8\n5,3\n' >"$scratch/t.csv"
differs() { # why, the rows over the Match, those below it; the words of `declared` behind the side
    local side why=$1
    shift
    for side in left right; do
        refused "C4 $why" "$(told over "$side" "${@:3}")\n" r "reduce-match-$side" || return 1
        refused "C4 $why" "$(told under "$side" "${@:3}")\n" g "reduce-match-$side-up" || return 1
        written 1 over "$side" "${@:3}" >"$scratch/over.pact"
        written 1 under "$side" "${@:3}" >"$scratch/under.pact"
        gives 0 "$1" '' run over.pact && gives 0 "$2" '' run under.pact || return 1
    done
}
count differs not-unique '1,5,1,8,4\n1,5,1,9,4\n1,7,1,8,4\n1,7,1,9,4\n' '1,5,1,8,2\n1,5,1,9,2\n1,7,1,8,2\n1,7,1,9,2\n' cnt jn 0 ''
count differs 'match-key 1' '1,5,5,3,1\n' '1,5,5,3,2\n' cnt jn 1 "$best"
count differs key-group '1,5,1,9,1\n' '1,5,1,9,2\n' cnt some 0 "$best"
