# What Null does as a key, in each operator and version. The rows that are wanted stand here, or are worked out by awk over the tables as they stand.

# A program's text in this version.
in_version() { sed "s/^pact [12]\$/pact $1/" "$2"; }

# Whether `run` with these words writes the rows of `wanted`, in the scratch folder, whatever the workers, the strategy and the batches are.
writes_wanted() {
    local words
    for words in '--workers 1' '--workers 4' '--workers 1 --local sort' '--workers 4 --local sort' '--workers 3 --batch 1 --depth 1'; do
        # shellcheck disable=SC2086
        keep_command pact run "$@" $words
        # shellcheck disable=SC2086
        (cd "$scratch" && "$pact" run "$@" $words >out 2>err)
        came_to_files $? 0 "$scratch/wanted" /dev/null || return 1
    done
}
# Whether so many rows are wanted, as counted by hand: what is worked out isn't nothing.
are_wanted() { is_text 'the number of rows' "$(wc -l <"$scratch/wanted")" "$1"; }

# ---- Programs of this folder

# Whether such a program writes these rows, given with escapes, in this version.
gives_in_version() { # version, program, rows
    in_version "$1" "$2.pact" >"$scratch/worked.pact"
    printf '%b' "$3" >"$scratch/wanted"
    writes_wanted worked.pact
}
cp n.csv m.csv "$scratch"
cp n.csv "$scratch/s.csv"
# Each row has the version, the program, and the rows that are written.
while IFS='|' read -r version program rows; do
    count gives_in_version "$version" "$program" "$rows"
done <<'END'
1|null|5,9\n
2|null|
1|null2|,5,,5\n
2|null2|
1|sum|,5\n
2|sum|,5\n
END

# ---- Two records, one on either side

# Numbers in a row, each behind a blank and a word.
numbered() { # word, the first, how many
    local number
    for ((number = $2; number < $2 + $3; number++)); do printf ' %s%d' "$1" "$number"; done
}
# The sources of a program of this version. Records have a number, and behind it a key of so many fields of this kind.
keyed_sources() { # version, kind, keys
    printf 'pact %d\nfields 24\n' "$1"
    printf 'source l l.csv int:0%s\nsource r r.csv int:10%s\n' "$(numbered "$2:" 1 "$3")" "$(numbered "$2:" 11 "$3")"
}
keys_of_both() { printf ' by%s =%s' "$(numbered '' 1 "$1")" "$(numbered '' 11 "$1")"; }
# Behind them a Match, which gives the numbers of each pair.
keyed_match() {
    keyed_sources "$@"
    printf 'function f match\n  r0 = copy join\n  emit r0\nend\nmatch m f l r%s\nsink m 0 10\n' "$(keys_of_both "$3")"
}

# Whether two records with these keys match, or don't, whichever of them is on the left.
match_or_not() { # yes or no, version, kind, the keys
    local commas=${4//[^,]/}
    keyed_match "$2" "$3" $((${#commas} + 1)) >"$scratch/two.pact"
    if [ "$1" = yes ]; then echo 1,2; fi >"$scratch/wanted"
    printf '1,%s\n' "$4" >"$scratch/l.csv"
    printf '2,%s\n' "$5" >"$scratch/r.csv"
    writes_wanted two.pact || return
    printf '1,%s\n' "$5" >"$scratch/l.csv"
    printf '2,%s\n' "$4" >"$scratch/r.csv"
    writes_wanted two.pact
}
# Each row has two keys, and whether they match in version 1 and in version 2. Where nothing stands there is Null.
while IFS='|' read -r one other first second; do
    for kind in int text; do
        count match_or_not "$first" 1 "$kind" "$one" "$other"
        count match_or_not "$second" 2 "$kind" "$one" "$other"
    done
done <<'END'
7|7|yes|yes
7|8|no|no
7||no|no
||yes|no
7,8|7,8|yes|yes
7,8|8,7|no|no
7,8|,8|no|no
7,8|7,|no|no
7,8|,|no|no
,8|,8|yes|no
,8|7,|no|no
,8|8,|no|no
,8|,|no|no
7,|7,|yes|no
7,|,|no|no
,|,|yes|no
END
# As many keys as there may be, of which one is Null.
for place in '' 1 2 3 4 5 6 7 8; do
    key=1,2,3,4,5,6,7,8
    key=${key/"$place"/}
    count match_or_not yes 1 int "$key" "$key"
    if [ -z "$place" ]; then
        count match_or_not yes 2 int "$key" "$key"
    else
        count match_or_not no 2 int "$key" "$key"
        count match_or_not no 2 int "$key" 1,2,3,4,5,6,7,8
    fi
done

# ---- Tables, in each operator

# Behind the sources a Reduce of the left one, which gives each key, the sum of its records' numbers, and how many these are.
keyed_reduce() {
    keyed_sources "$@" | sed '/^source r/d'
    printf 'function f reduce %d\n  v0 = int 0\n  v1 = int 0\n  v2 = int 1\n' "$3"
    printf '  each x1 of group\n    v3 = get x1 0\n    v0 = addw v0 v3\n    v1 = addw v1 v2\n  end\n'
    keyed_record "$3"
    printf 'reduce m f l by%s\nsink m%s 20 21\n' "$(numbered '' 1 "$3")" "$(numbered '' 1 "$3")"
}
# And a CoGroup, which gives each key, and how many records have it on the left and on the right.
keyed_cogroup() {
    keyed_sources "$@"
    printf 'function f cogroup %d\n  v0 = int 0\n  v1 = int 0\n  v2 = int 1\n' "$3"
    printf '  each x1 of left\n    v0 = addw v0 v2\n  end\n  each x1 of right\n    v1 = addw v1 v2\n  end\n'
    keyed_record "$3"
    printf 'cogroup m f l r%s\nsink m%s 20 21\n' "$(keys_of_both "$3")" "$(numbered '' 1 "$3")"
}
# The end of both functions.
keyed_record() {
    local place
    printf '  r0 = new\n'
    for ((place = 0; place < $1; place++)); do
        printf '  v3 = key %d\n  set r0 %d v3\n' "$place" $((place + 1))
    done
    printf '  set r0 20 v0\n  set r0 21 v1\n  emit r0\nend\n'
}

# The same by awk, of l.csv and r.csv, where a key is what stands behind the number; and of a left outer join.
worked_out() { # match, reduce, cogroup or outer; version
    (cd "$scratch" && awk -F, -v operator="$1" -v version="$2" '
        { key = $0; sub(/^[^,]*,/, "", key); is_left = NR == FNR }
        is_left { number[++lefts] = $1; keys[lefts] = key; sum[key] += $1 }
        { seen[key]; records[key, is_left]++ }
        (operator == "match" || operator == "outer") && !is_left && (version == 1 || "," key "," !~ /,,/) {
            for (i = 1; i <= lefts; i++) if (keys[i] "" == key "") { print number[i] "," $1; joined[i] }
        }
        END {
            for (i = 1; i <= lefts; i++) if (operator == "outer" && !(i in joined)) print number[i] ","
            for (key in seen) {
                if (operator == "reduce" && records[key, 1]) print key "," sum[key] "," records[key, 1]
                if (operator == "cogroup") print key "," records[key, 1] + 0 "," records[key, 0] + 0
            }
        }' l.csv r.csv | LC_ALL=C sort >wanted)
}

# Whether such a program gives the rows that are wanted.
keyed_gives() { # match, reduce or cogroup; version, kind, keys
    "keyed_$1" "${@:2}" >"$scratch/keyed.pact"
    writes_wanted keyed.pact
}

# Keys of Null, 7 and 8 in every combination, some of them more than once on a side, and 9 on one side alone.
printf '%s\n' 10, 11,7 12,8 13, 14,7 15,9 >"$scratch/left1.csv"
printf '%s\n' 50, 51,7 52,8 53, 54, 55,8 >"$scratch/right1.csv"
printf '%s\n' 10,, 11,,7 12,,8 13,7, 14,7,7 15,7,8 16,8, 17,8,7 18,8,8 19,, 20,7, 21,8,8 22,9, >"$scratch/left2.csv"
printf '%s\n' 50,, 51,,7 52,,8 53,7, 54,7,7 55,7,8 56,8, 57,8,7 58,8,8 59,, 60,,8 61,7,7 62,,9 >"$scratch/right2.csv"
# Each row has the number of key fields, the operator, the version, and how many rows are written.
while IFS='|' read -r keys operator version rows; do
    cp "$scratch/left$keys.csv" "$scratch/l.csv"
    cp "$scratch/right$keys.csv" "$scratch/r.csv"
    worked_out "$operator" "$version"
    count are_wanted "$rows"
    for kind in int text; do
        count keyed_gives "$operator" "$version" "$kind" "$keys"
    done
done <<'END'
1|match|1|10
1|match|2|4
1|reduce|1|4
1|reduce|2|4
1|cogroup|1|4
1|cogroup|2|4
2|match|1|16
2|match|2|6
2|reduce|1|10
2|reduce|2|10
2|cogroup|1|11
2|cogroup|2|11
END

# However the two sides are shipped: both by their keys, or one of them to all. Each row has how often the tables stand on the left and on the right, the layout,
# and how many pairs match in version 1 and in version 2.
repeated() { # file, times
    local time
    for ((time = 0; time < $2; time++)); do cat "$1"; done
}
is_laid_out() { (cd "$scratch" && [[ $("$pact" plan keyed.pact) = *" layout $1 cost "* ]]); }
while IFS='|' read -r lefts rights layout first second; do
    repeated "$scratch/left2.csv" "$lefts" >"$scratch/l.csv"
    repeated "$scratch/right2.csv" "$rights" >"$scratch/r.csv"
    for version in 1 2; do
        worked_out match "$version"
        count are_wanted "$([ "$version" = 1 ] && echo "$first" || echo "$second")"
        count keyed_gives match "$version" int 2
        count is_laid_out "$layout"
    done
done <<'END'
1|1|0|16|6
1|9|1|144|54
9|1|2|144|54
END

# ---- Null and the text without a byte

# No cell of a file is that text, so Maps make it of `-`, and Null of `~`, below the operator. The two are different keys.
made_texts() { # Map, source, the field of its number, which one with a text stands behind
    printf 'source %s %s.csv int:%d text:%d\nmap %s make_%s %s\n' "$2" "$2" "$3" $(($3 + 1)) "$1" "$1" "$2"
    printf 'function make_%s map\n  v0 = get in %d\n  v1 = text "-"\n  v1 = eq v0 v1\n  if v1\n    v0 = text ""\n  end\n' "$1" $(($3 + 1))
    printf '  v1 = text "~"\n  v1 = eq v0 v1\n  if v1\n    v0 = null\n  end\n  r0 = copy in\n  set r0 %d v0\n  emit r0\nend\n' $(($3 + 1))
}
printf '%s\n' 1, 2,- 3,a 7,~ 8,- >"$scratch/l.csv"
printf '%s\n' 4, 5,- 6,a 9,- >"$scratch/r.csv"
# Each row has the version, the operator with its function and the sink, and the rows that are written: pairs of numbers, sums of them, and how many there are
# on either side.
texts_give() { # version, operator, rows
    {
        printf 'pact %d\nfields 8\n' "$1"
        made_texts m l 0
        [[ $2 = reduce* ]] || made_texts n r 2
        printf 'function f %b\n' "$2"
    } >"$scratch/texts.pact"
    printf '%b' "$3" >"$scratch/wanted"
    writes_wanted texts.pact
}
while IFS='|' read -r version operator rows; do
    count texts_give "$version" "$operator" "$rows"
done <<'END'
1|match\nr0 = copy join\nemit r0\nend\nmatch g f m n by 1 = 3\nsink g 0 2|1,4\n2,5\n2,9\n3,6\n7,4\n8,5\n8,9\n
2|match\nr0 = copy join\nemit r0\nend\nmatch g f m n by 1 = 3\nsink g 0 2|2,5\n2,9\n3,6\n8,5\n8,9\n
1|reduce 1\neach x1 of group\nv0 = get x1 0\nv1 = addw v1 v0\nend\nset r0 0 v1\nemit r0\nend\nreduce g f m by 1\nsink g 0|3\n8\n10\n
2|reduce 1\neach x1 of group\nv0 = get x1 0\nv1 = addw v1 v0\nend\nset r0 0 v1\nemit r0\nend\nreduce g f m by 1\nsink g 0|3\n8\n10\n
1|cogroup 1\nv2 = int 1\neach x1 of left\nv0 = addw v0 v2\nend\neach x1 of right\nv1 = addw v1 v2\nend\nset r0 0 v0\nset r0 2 v1\nemit r0\nend\ncogroup g f m n by 1 = 3\nsink g 0 2|1,1\n2,1\n2,2\n
2|cogroup 1\nv2 = int 1\neach x1 of left\nv0 = addw v0 v2\nend\neach x1 of right\nv1 = addw v1 v2\nend\nset r0 0 v0\nset r0 2 v1\nemit r0\nend\ncogroup g f m n by 1 = 3\nsink g 0 2|1,1\n2,1\n2,2\n
END

# ---- Plans: each exchange past a Match, there and back

# Null is a key on both sides of both Matches.
printf '%s\n' 1,1 ,2 ,7 7,3 7,8 8,4 ,4 >"$scratch/s1.csv"
printf '%s\n' 1,5 ,5 , 7, 7,6 7,5 8,9 >"$scratch/t.csv"
printf '%s\n' 5,1 ,2 ,3 6,4 >"$scratch/u.csv"

# A plan as a program: `g` and `h` are the Matches of join3.pact, `m` a Map that keeps the rows in which field 1 is below 5, `n` one that keeps those in
# which field 3 is Null.
planned_program() { # version, plan
    sed "/^match\|^sink/d; s/^pact .*/pact $1/" join3.pact
    printf 'function low map\n  v0 = get in 1\n  v1 = int 5\n  v0 = lt v0 v1\n  if v0\n    r0 = copy in\n    emit r0\n  end\nend\n'
    printf 'function bare map\n  v0 = get in 3\n  v0 = isnull v0\n  if v0\n    r0 = copy in\n    emit r0\n  end\nend\n'
    local rest=$2 inputs
    while [[ $rest =~ ([a-z])\(([a-z,]+)\) ]]; do
        inputs=${BASH_REMATCH[2]/,/ }
        case ${BASH_REMATCH[1]} in
        g) echo "match g jn $inputs by 0 = 2" ;;
        h) echo "match h jn $inputs by 3 = 4" ;;
        m) echo "map m low $inputs" ;;
        n) echo "map n bare $inputs" ;;
        esac
        rest=${rest/"${BASH_REMATCH[0]}"/"${BASH_REMATCH[1]}"}
    done
    echo "sink $rest 0 1 2 3 4 5"
}
# The rows of such a plan, by awk.
worked_join() { # version, plan
    (cd "$scratch" && awk -F, -v version="$1" -v plan="$2" '
        function match_in(one, other) { return one "" == other "" && (version == 1 || one != "") }
        FILENAME == "s1.csv" { s[++lefts] = $0; next }
        FILENAME == "t.csv" { t[++middles] = $0; next }
        {
            for (i = 1; i <= lefts; i++)
                for (j = 1; j <= middles; j++) {
                    split(s[i], left); split(t[j], middle)
                    if (match_in(left[1], middle[1]) && match_in(middle[2], $1) && (plan !~ /m/ || left[2] + 0 < 5) && (plan !~ /n/ || middle[2] == ""))
                        print s[i] "," t[j] "," $0
                }
        }' s1.csv t.csv u.csv | LC_ALL=C sort >wanted)
}
# What the analysis finds of these operators.
found_of() {
    case $1 in
    g) echo '{"anchor":"none","control":[],"hi":1,"lo":1,"reads":[0,2],"touched":[0,2],"writes":[]}' ;;
    h) echo '{"anchor":"none","control":[],"hi":1,"lo":1,"reads":[3,4],"touched":[3,4],"writes":[]}' ;;
    m) echo '{"anchor":"none","control":[1],"hi":1,"lo":0,"reads":[1],"touched":[1],"writes":[]}' ;;
    n) echo '{"anchor":"none","control":[3],"hi":1,"lo":0,"reads":[3],"touched":[3],"writes":[]}' ;;
    esac
}
# Whether the exchange of an operator, by a rule, with the one below it leads from one plan to the other, as a certificate of this version says.
is_certified() { # version, from, to, upper, rule, lower
    planned_program "$1" "$2" >"$scratch/planned.pact"
    printf '{"plan":"%s","steps":[{"at":"%s","lower":%s,"rule":"%s","upper":%s}],"version":%d}' \
        "$3" "$4" "$(found_of "$6")" "$5" "$(found_of "$4")" "$1" >"$scratch/planned.json"
    gives 0 'accepted\n' '' check planned.pact planned.json
}
# Whether a plan gives these rows, as it stands and as the choice has it, among so many, with a certificate of this version.
plan_gives() { # version, plan, how many
    planned_program "$1" "$2" >"$scratch/planned.pact"
    writes_wanted planned.pact --plans 1 && writes_wanted planned.pact || return
    [[ $(cd "$scratch" && "$pact" plan planned.pact) = "plans $3 complete"* ]] || return
    (cd "$scratch" && "$pact" cert planned.pact >planned.json) && grep -q "\"version\":$1}" "$scratch/planned.json" && gives 0 'accepted\n' '' check planned.pact planned.json
}
# Each row has how many rows are written in version 1 and in version 2, and plans that give them, which are all in reach of each other.
while IFS='|' read -r first second plans; do
    read -ra plans <<<"$plans"
    for version in 1 2; do
        worked_join "$version" "${plans[0]}"
        count are_wanted "$([ "$version" = 1 ] && echo "$first" || echo "$second")"
        for plan in "${plans[@]}"; do
            count plan_gives "$version" "$plan" "${#plans[@]}"
        done
    done
done <<'END'
18|5|h(g(s,t),u) g(s,h(t,u))
11|3|m(h(g(s,t),u)) h(m(g(s,t)),u) h(g(m(s),t),u) m(g(s,h(t,u))) g(m(s),h(t,u))
10|0|n(h(g(s,t),u)) h(n(g(s,t)),u) h(g(s,n(t)),u) n(g(s,h(t,u))) g(s,n(h(t,u))) g(s,h(n(t),u))
END
# Each row has a plan, the exchange, and where it leads.
while read -r from upper rule lower to; do
    for version in 1 2; do
        count is_certified "$version" "$from" "$to" "$upper" "$rule" "$lower"
    done
done <<'END'
h(g(s,t),u) h rotate g g(s,h(t,u))
g(s,h(t,u)) g rotate-up h h(g(s,t),u)
m(h(g(s,t),u)) m map-left h h(m(g(s,t)),u)
h(m(g(s,t)),u) h map-left-up m m(h(g(s,t),u))
h(m(g(s,t)),u) m map-left g h(g(m(s),t),u)
h(g(m(s),t),u) g map-left-up m h(m(g(s,t)),u)
n(g(s,h(t,u))) n map-right g g(s,n(h(t,u)))
g(s,n(h(t,u))) g map-right-up n n(g(s,h(t,u)))
h(n(g(s,t)),u) n map-right g h(g(s,n(t)),u)
h(g(s,n(t)),u) g map-right-up n h(n(g(s,t)),u)
h(g(s,n(t)),u) h rotate g g(s,h(n(t),u))
g(s,h(n(t),u)) g rotate-up h h(g(s,n(t)),u)
END

# What is found, listed and chosen is the same in both versions.
says_the_same() { # command, plan
    local version
    for version in 1 2; do
        planned_program "$version" "$2" >"$scratch/planned.pact"
        (cd "$scratch" && "$pact" "$1" planned.pact >"told.$version") || return
    done
    is_file 'of version 2' "$scratch/told.2" "$scratch/told.1"
}
for plan in 'h(g(s,t),u)' 'g(m(s),h(t,u))' 'n(h(g(s,t),u))'; do
    count says_the_same sets "$plan"
    count says_the_same plan "$plan"
done

# ---- Joins, as docs/language.md has them

# The functions that it shows for Null in a key, in a program over the files of the joins here.
awk '/^##/ { inside = $0 == "### Null in a key" } inside && /^```/ { shown = !shown; next } inside && shown' ../docs/language.md >"$scratch/shown"
shown_gives() { # version, operator, rows
    {
        in_version "$1" inner_join.pact | grep '^pact\|^fields\|^source'
        cat "$scratch/shown"
        printf '%s member visit by 0 = 2\nsink seen 0 1 3\n' "$2"
    } >"$scratch/shown.pact"
    printf '%b' "$3" >"$scratch/wanted"
    writes_wanted shown.pact
}

# Each row has the bytes of members.csv and of visits.csv, and the rows of each join here, in either version, and of the inner one in version 1 and in version 2.
while IFS='|' read -r members visits outer full semi anti first second; do
    printf '%b' "$members" >"$scratch/members.csv"
    printf '%b' "$visits" >"$scratch/visits.csv"
    for join in outer full semi anti inner; do
        for version in 1 2; do
            case $join$version in
            inner1) rows=$first ;;
            inner2) rows=$second ;;
            *) rows=${!join} ;;
            esac
            count gives_in_version "$version" "${join}_join" "$rows"
        done
    done
    for version in 1 2; do
        count shown_gives "$version" 'match seen known' "$second"
        count shown_gives "$version" 'cogroup seen pairs' "$first"
    done
done <<'END'
1,A\n|1,5\n|1,A,5\n|1,A,1,5\n|1,A\n||1,A,5\n|1,A,5\n
,A\n|1,5\n|,A,\n|,,1,5\n,A,,\n||,A\n||
1,A\n|,5\n|1,A,\n|,,,5\n1,A,,\n||1,A\n||
,A\n|,5\n|,A,\n|,,,5\n,A,,\n||,A\n|,A,5\n|
,A\n||,A,\n|,A,,\n||,A\n||
|,5\n||,,,5\n||||
,A\n,B\n1,C\n2,D\n|,5\n,6\n1,7\n1,7\n3,8\n|,A,\n,B,\n1,C,7\n1,C,7\n2,D,\n|,,,5\n,,,6\n,,3,8\n,A,,\n,B,,\n1,C,1,7\n1,C,1,7\n2,D,,\n|1,C\n|,A\n,B\n2,D\n|,A,5\n,A,6\n,B,5\n,B,6\n1,C,7\n1,C,7\n|1,C,7\n1,C,7\n
END

# By two key fields: a Match that asks for Null itself, a CoGroup that gives all pairs of a group, a Cross that asks for equal values, and an outer join. The first
# gives in either version what a Match gives in version 2, the next two what it gives in version 1.
cat >"$scratch/asked" <<'END'
function f match
  v0 = get left 1
  v0 = isnull v0
  v1 = get left 2
  v1 = isnull v1
  v0 = or v0 v1
  if v0
  else
    r0 = copy join
    emit r0
  end
end
match m f l r by 1 2 = 11 12
END
cat >"$scratch/paired" <<'END'
function f cogroup 2
  each x1 of left
    each x2 of right
      r0 = copy x1
      v0 = get x2 10
      set r0 10 v0
      emit r0
    end
  end
end
cogroup m f l r by 1 2 = 11 12
END
cat >"$scratch/crossed" <<'END'
function f cross
  v0 = get left 1
  v1 = get right 11
  v0 = eq v0 v1
  v1 = get left 2
  v2 = get right 12
  v1 = eq v1 v2
  v0 = and v0 v1
  if v0
    r0 = copy join
    emit r0
  end
end
cross m f l r
END
cat >"$scratch/outer" <<'END'
function f cogroup 2
  v0 = int 0
  v1 = key 0
  v1 = isnull v1
  v2 = key 1
  v2 = isnull v2
  v1 = or v1 v2
  v1 = not v1
  each x1 of right
    v0 = max v0 v1
  end
  each x1 of left
    if v0
      each x2 of right
        r0 = copy x1
        v2 = get x2 10
        set r0 10 v2
        emit r0
      end
    else
      r0 = copy x1
      emit r0
    end
  end
end
cogroup m f l r by 1 2 = 11 12
END
cp "$scratch/left2.csv" "$scratch/l.csv"
cp "$scratch/right2.csv" "$scratch/r.csv"
join_gives() { # version, operator
    { keyed_sources "$1" int 2 && cat "$scratch/$2" && echo 'sink m 0 10'; } >"$scratch/joined.pact"
    writes_wanted joined.pact
}
# Each row has the operator, which rows of awk's it gives in either version, and how many these are.
while read -r name operator as rows; do
    worked_out "$operator" "$as"
    count are_wanted "$rows"
    for version in 1 2; do count join_gives "$version" "$name"; done
done <<'END'
asked match 2 6
paired match 1 16
crossed match 1 16
outer outer 2 14
END

# ---- How many records a Match gives

for version in 1 2; do
    worked_out match "$version"
    keyed_match "$version" int 2 >"$scratch/keyed.pact"
    printf 'l out 13\nr out 13\nm in 13 13 out %d\n' "$(wc -l <"$scratch/wanted")" >"$scratch/counts"
    (cd "$scratch" && "$pact" run keyed.pact --counts >out 2>err)
    count cmp "$scratch/out" "$scratch/wanted"
    count cmp "$scratch/err" "$scratch/counts"
done
