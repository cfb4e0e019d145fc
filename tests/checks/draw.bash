# What ../draw makes of plans and of counts. expected/NAME.dot is the drawing of expected/NAME.plan.

# Whether it has this status, and writes these files' bytes on its streams: status, standard output, standard error,
# standard input, and its words.
draws() {
    keep_command draw "${@:5}"
    ../draw "${@:5}" <"$4" >"$scratch/out" 2>"$scratch/err"
    came_to_files $? "$1" "$2" "$3"
}
# Whether it refuses a text, in which escapes stand for bytes, with this line and nothing on standard output: the line,
# the text, and its words.
draws_not() {
    printf '%b' "$2" >"$scratch/in"
    printf 'draw: %s\n' "$1" >"$scratch/line"
    draws 1 /dev/null "$scratch/line" "$scratch/in" "${@:3}"
}

for told in expected/*.dot; do
    [ "$told" = expected/shop.counts.dot ] || count draws 0 "$told" /dev/null "${told%.dot}.plan"
done
shop=$(<expected/shop.plan)

# ---- Every plan

# Names that mean something in plans or in DOT, numbers that awk can't count with, and what no small program has.
cat >"$scratch/odd.plan" <<'END'
plans 18446744073709551615 limit
chosen 999 layout 6560 cost 18446744073709551615
swap cogroup by 0 1 = 2 3 ship sink estimate 18446744073709551615
  upper reduce by 0 1 ship partition 1 0 estimate 18446744073709551614
    node map ship forward estimate 3
      edge source ship forward estimate 3
  lower cross ship partition 2 3 estimate 0
    sink source ship broadcast estimate 0
    graph source ship forward estimate 1
swap 1 map-cogroup-left-up at upper
  upper reads {0,1,10,63} writes {} control {} touched {0,1} emit 0..many anchor none
  lower reads {0} writes {63} control {63} touched {} emit many..many anchor both
swap 2 rotate at lower
  upper reads {} writes {} control {} touched {} emit 0..0 anchor left
  lower reads {} writes {} control {} touched {} emit 12..1000 anchor right
END
: >"$scratch/all.dot"
plans=0
for told in expected/*.plan "$scratch/odd.plan"; do
    plans=$((plans + 1))
    count draws 0 "$scratch/out" /dev/null "$told"
    cat "$scratch/out" >>"$scratch/all.dot"
    # Each source and operator has an arrow and a box, and the sink has a box.
    operators=$(grep -c ' ship .* estimate ' "$told")
    count test "$(grep -c ' -> ' "$scratch/out")" = "$operators"
    count test "$(grep '^  "[^"]*" \[label=' "$scratch/out" | grep -vc '^  "Exchanges"')" = $((operators + 1))
done
if have dot 'whether graphviz reads what is drawn'; then
    count test "$(dot -Tcanon "$scratch/all.dot" 2>"$scratch/err" | grep -c '^digraph ')" = "$plans"
fi

# ---- Counts

"$pact" run shop.pact --counts >/dev/null 2>"$scratch/shop.counts"
count draws 0 expected/shop.counts.dot /dev/null expected/shop.plan --counts "$scratch/shop.counts"
# The launcher may have told of a build before them, and a file may have any name.
mkdir "$scratch/counts_of"
for name in a=b -; do
    { echo 'pact: built' && cat "$scratch/shop.counts"; } >"$scratch/counts_of/$name"
    (here=$PWD && cd "$scratch/counts_of" && "$here/../draw" --counts "$name" <"$here/expected/shop.plan" >../out 2>../err)
    count cmp expected/shop.counts.dot "$scratch/out"
done
count draws 0 expected/shop.counts.dot /dev/null expected/shop.plan "--counts=$scratch/counts_of/a=b"

# Of a run with partial groups it stands on a reduce's arrow how many came along it.
{ cat "$scratch/shop.counts" && echo 'r partials 3'; } >"$scratch/partials.counts"
sed '/"j" -> "r"/s/counted [0-9]*\\l/&\&#160;partials 3\\l/' expected/shop.counts.dot >"$scratch/partials.dot"
count test "$(grep -c 'partials 3' "$scratch/partials.dot")" = 1
count draws 0 "$scratch/partials.dot" /dev/null expected/shop.plan --counts "$scratch/partials.counts"

# Of a run with pruning it stands on an arrow what is kept of the records that are shipped along it.
{ cat "$scratch/shop.counts" && printf 'o keeps {4,5}\nd keeps {}\nr partials 3\n'; } >"$scratch/keeps.counts"
sed '/"o" -> "j"/s/counted [0-9]*\\l/&\&#160;keeps {4,5}\\l/; /"d" -> "j"/s/counted [0-9]*\\l/&\&#160;keeps {}\\l/' "$scratch/partials.dot" >"$scratch/keeps.dot"
count test "$(grep -c 'keeps {' "$scratch/keeps.dot")" = 2
count draws 0 "$scratch/keeps.dot" /dev/null expected/shop.plan --counts "$scratch/keeps.counts"

# Each row has what sed does to the counts, and the line that is told.
while IFS='|' read -r change told; do
    sed "$change" "$scratch/shop.counts" >"$scratch/counts"
    count draws_not "$told" "$shop\n" --counts "$scratch/counts"
done <<'END'
s/^d in 2/d in 3/|the counts are of another plan: d took 3, and is given 2
s/^j in 1 4/j in 4 1/|the counts are of another plan: j took 4 1, and is given 1 4
s/^d in 2/d/|the counts are of another plan: d took nothing, and is given 2
s/^o out/x out/|the counts name x, which is not in the plan
/^r/d|the counts lack r
d|the counts lack r
p|the counts name c twice
$a o partials 3|the counts name partials of o, which is no reduce of the plan
$a x partials 3|the counts name partials of x, which is no reduce of the plan
$a r partials 3\nr partials 3|the counts name partials of r twice
$a c keeps {0,1}|the counts name what is kept of c, which the plan does not ship
$a r keeps {1}|the counts name what is kept of r, which the plan does not ship
$a x keeps {0}|the counts name what is kept of x, which the plan does not ship
$a o keeps {4,5}\no keeps {4,5}|the counts name what is kept of o twice
$a o keeps {4,}|line 6 of the counts is no line of counts
$a o keeps 4|line 6 of the counts is no line of counts
3s/ out.*//|line 3 of the counts is no line of counts
$s/$/ /|line 5 of the counts is no line of counts
END
count draws_not "cannot read $scratch/none" "$shop\n" --counts "$scratch/none"
count draws_not "cannot read $scratch" "$shop\n" --counts "$scratch"

# ---- What is refused

# Each row has what sed does to the plan of shop.pact, and the line that is told.
while IFS='|' read -r change told; do
    count draws_not "$told" "$(sed "$change" expected/shop.plan)\n"
done <<'END'
1d|line 1 of standard input is no line of a plan
1s/2/two/|line 1 of standard input is no line of a plan
1s/$/\\r/|line 1 of standard input is no line of a plan
2s/cost .*/cost/|line 2 of standard input is no line of a plan
3s/^/  /|line 3 of standard input is no line of a plan
3s/sink/forward/|line 3 of standard input is no line of a plan
4s/forward/sink/|line 4 of standard input is no line of a plan
4s/^ //|line 4 of standard input is no line of a plan
4s/^  //|line 4 of standard input is no line of a plan
4s/match/join/|line 4 of standard input is no line of a plan
4s/ = 4//|line 4 of standard input is no line of a plan
4s/j/J/|line 4 of standard input is no line of a plan
4s/4$/-4/|line 4 of standard input is no line of a plan
5s/^/  /|line 5 of standard input is no line of a plan
6s/^    //|line 6 of standard input is no line of a plan
6s/ c / d /|line 6 of standard input is no line of a plan
7s/ o / c /|line 7 of standard input is no line of a plan
7{h;d};$G|line 10 of standard input is no line of a plan
7s/^    /      /|line 7 of standard input is no line of a plan
7s/^    /        /|line 7 of standard input is no line of a plan
7s/^  //|line 7 of standard input is no line of a plan
7d|the plan lacks an input of j
5,6d;8,$d|the plan lacks an input of j
4,$d|the plan lacks an input of r
8s/1/2/|line 8 of standard input is no line of a plan
8s/at d/at x/|line 8 of standard input is no line of a plan
8s/at d/at c/|line 8 of standard input is no line of a plan
9d|line 9 of standard input is no line of a plan
9s/ control {2}//|line 9 of standard input is no line of a plan
9s/{}/{,}/|line 9 of standard input is no line of a plan
10s/none/some/|line 10 of standard input is no line of a plan
10d|standard input ends inside a plan
2,$d|standard input ends inside a plan
3,$d|standard input ends inside a plan
$p|line 11 of standard input is no line of a plan
END
# An input of an operator whose place another one has by then taken.
count draws_not 'line 8 of standard input is no line of a plan' 'plans 1 complete
chosen 0 layout 0 cost 9
a cross ship sink estimate 1
  b map ship forward estimate 1
    c cross ship forward estimate 1
      d source ship forward estimate 1
  e map ship broadcast estimate 1
      f source ship broadcast estimate 1
'
count draws_not 'standard input holds no plan' ''
count draws_not 'line 1 of standard input is no line of a plan' "$(<expected/push.sets)\n"
count draws_not 'line 1 of standard input is no line of a plan' '\0\xFF'
../draw <expected/shop.plan >/dev/full 2>"$scratch/err"
count test $? = 1
count test "$(<"$scratch/err")" = 'draw: cannot write'

echo 'usage: draw [--svg] [--counts FILE]' >"$scratch/usage"
while IFS= read -r words; do
    # shellcheck disable=SC2086
    count draws 2 /dev/null "$scratch/usage" expected/shop.plan $words
done <<'END'
shop.plan
--help
--dot
--svg --svg
--svg=yes
--counts
--counts=
--svg --counts
--counts sum.pact --counts sum.pact
--counts sum.pact shop.plan
END

# ---- SVG

echo 'draw: --svg needs graphviz, whose command dot is not on the PATH' >"$scratch/line"
mkdir "$scratch/no_commands"
PATH=$scratch/no_commands "$BASH" ../draw --svg <expected/shop.plan >"$scratch/out" 2>"$scratch/err"
count test $? = 1
count cmp "$scratch/out" /dev/null
count cmp "$scratch/err" "$scratch/line"

# The texts of an SVG, whatever fonts and whichever graphviz placed them.
texts_of() {
    sed -n 's/.*<text[^>]*>\(.*\)<\/text>.*/\1/p' "$1" | sort
}
# Whether a drawing in docs/ is the one of a plan, made as docs/optimizer.md says: its name, and the words of `plan`.
stands_in_docs() {
    "$pact" plan "${@:2}" | ../draw --svg >"$scratch/out" 2>"$scratch/err" && [ ! -s "$scratch/err" ] &&
        is_text 'the texts of the drawing' "$(texts_of "$scratch/out")" "$(texts_of "../docs/$1")" && [ -n "$(texts_of "../docs/$1")" ]
}
if have dot 'the pictures in docs/'; then
    count stands_in_docs shop-before.svg shop.pact --plans 1
    count stands_in_docs shop-after.svg shop.pact
    count draws_not 'standard input holds no plan' '' --svg
    ../draw --svg <"$scratch/odd.plan" >"$scratch/out" 2>"$scratch/err"
    count test $? = 0
    # It is an SVG from end to end, and holds no comment.
    count test "$(head -c 5 "$scratch/out")$(tail -n 1 "$scratch/out")" = '<?xml</svg>'
    count test "$(grep -c '<!--' "$scratch/out")" = 0
fi
