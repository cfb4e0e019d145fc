# What programs write of given rows, and what is refused, in which order.

# ---- Programs that run

cp filter.pact sum.pact push.pact "$scratch"
# A sum that has no value where it is no number of 64 bits may depend on the order of a group, which for few rows is that of the file.
sed 's/addw/add/' sum.pact >"$scratch/exact_sum.pact"
# What `emit` hands out is what the record holds then.
cat >"$scratch/emits.pact" <<'END'
pact 1
fields 3
source s s.csv int:0 int:1
function swap map
  v0 = get in 0
  v1 = get in 1
  set r0 0 v1
  emit r0
  set r0 1 v0
  emit r0
  r0 = new
  emit r0
end
map m swap s
sink m 0 1
END
# Texts are sorted by their bytes, behind Null.
cat >"$scratch/names_first.pact" <<'END'
pact 1
fields 3
source s s.csv int:0 text:1
function keep map
  r0 = copy in
  emit r0
end
map m keep s
sink m 1 0
END
# Loops, both bodies of a branch, and texts.
cat >"$scratch/loops.pact" <<'END'
pact 1
fields 3
source s s.csv text:0 int:1
function say map
  r0 = copy in
  v0 = get in 0
  v1 = text ", \"x\""
  v2 = int 0
  v3 = int 1
  repeat 2
    v0 = cat v0 v1
    repeat 3
      v2 = add v2 v3
    end
  end
  set r0 0 v0
  set r0 2 v2
  v4 = get in 1
  if v4
    emit r0
  else
    v5 = len v0
    r1 = new
    set r1 1 v5
    emit r1
    emit r0
  end
end
map m say s
sink m 2 0 1
END
# Two Maps, one over the other, in a spelling that isn't the canonical one.
printf '# every row four times\npact 1\n\nfields\t4 # two more than there are\nsource s s.csv int:0 int:1\nsink b 1\nmap b two a\nmap a two s\nfunction two map\nr0 = copy in\nemit r0 # once\n    emit r0\nend\n' >"$scratch/chain.pact"

# Each row has the program, the bytes of s.csv, and the rows that are written.
while IFS='|' read -r program bytes rows; do
    printf '%b' "$bytes" >"$scratch/s.csv"
    # one thread takes the rows in the file's order
    count gives 0 "$rows" '' run "$program.pact" --workers 1
done <<'END'
emits|1,5\n,-3\n|,\n,\n-3,\n-3,\n5,\n5,1\n
chain|1,5\n2,-3\n|-3\n-3\n-3\n-3\n5\n5\n5\n5\n
filter||
loops|cd,0\nab,1\n,7\n|,,12\n6,,7\n6,"ab, ""x"", ""x""",1\n6,"cd, ""x"", ""x""",0\n
names_first|3,b\n1,b\n10,\n2,\n5,9\n-1,10\n2,"x,y"\n|,2\n,10\n10,-1\n9,5\nb,1\nb,3\n"x,y",2\n
sum||
sum|1,9223372036854775807\n2,3\n1,1\n1,-1\n2,4\n|1,9223372036854775807\n2,7\n
exact_sum|1,9223372036854775807\n1,1\n1,-1\n|1,\n
exact_sum|1,9223372036854775807\n1,-1\n1,1\n|1,9223372036854775807\n
END

# A program of the operators on standard input, over two sources with a number, a text and a number each, of which the first two are the keys.
over_two_sources() {
    printf 'pact 1\nfields 8\nsource l l.csv int:0 text:1 int:2\nsource r r.csv int:3 text:4 int:5\n'
    cat
}
over_two_sources >"$scratch/match.pact" <<'END'
function both match
  r0 = copy join
  emit r0
end
match m both l r by 0 1 = 3 4
sink m 2 5
END
over_two_sources >"$scratch/cross.pact" <<'END'
function both cross
  v0 = get left 2
  v1 = get right 5
  v2 = sub v0 v1
  r0 = copy left
  set r0 6 v2
  emit r0
end
cross x both l r
sink x 2 6
END
# The key, and the sum and the number of its records.
over_two_sources >"$scratch/reduce.pact" <<'END'
function sum reduce 2
  v0 = int 0
  v2 = int 0
  v3 = int 1
  each x1 of group
    v1 = get x1 2
    v0 = addw v0 v1
    v2 = add v2 v3
  end
  r0 = new
  v1 = key 0
  set r0 0 v1
  v1 = key 1
  set r0 1 v1
  set r0 6 v0
  set r0 7 v2
  emit r0
end
function over cross
  r0 = copy left
  emit r0
end
reduce g sum l by 0 1
cross x over g r
sink x 0 1 6 7
END
# The key, and the numbers of its records on either side.
over_two_sources >"$scratch/cogroup.pact" <<'END'
function count cogroup 2
  v3 = int 1
  v1 = int 0
  each x1 of left
    v1 = add v1 v3
  end
  v2 = int 0
  each x1 of right
    v2 = add v2 v3
  end
  r0 = new
  v0 = key 0
  set r0 0 v0
  v0 = key 1
  set r0 1 v0
  set r0 6 v1
  set r0 7 v2
  emit r0
end
cogroup g count l r by 0 1 = 3 4
sink g 0 1 6 7
END

# Each row has the program, the bytes of l.csv and of r.csv, and the rows that are written.
while IFS='|' read -r program left right rows; do
    printf '%b' "$left" >"$scratch/l.csv"
    printf '%b' "$right" >"$scratch/r.csv"
    count gives 0 "$rows" '' run "$program.pact"
done <<'END'
match|1,a,10\n1,a,10\n1,b,11\n,a,12\n,,13\n|1,a,20\n1,a,21\n2,b,22\n,,23\n,a,24\n|10,20\n10,20\n10,21\n10,21\n12,24\n13,23\n
match|1,a,10\n1,a,10\n1,b,11\n,a,12\n,,13\n||
match||1,a,20\n1,a,21\n2,b,22\n,,23\n,a,24\n|
cross|1,a,10\n1,a,10\n2,b,30\n|7,c,20\n1,a,19\n|10,-10\n10,-10\n10,-9\n10,-9\n30,10\n30,11\n
cross|1,a,10\n1,a,10\n2,b,30\n||
cross||7,c,20\n1,a,19\n|
reduce|1,a,10\n2,a,1\n1,a,10\n1,b,4\n,a,5\n1,a,3\n,a,6\n|0,z,0\n|,a,11,2\n1,a,23,3\n1,b,4,1\n2,a,1,1\n
reduce||0,z,0\n|
cogroup|1,a,0\n2,a,0\n1,a,0\n,,0\n|1,a,0\n3,a,0\n,,0\n3,a,0\n,,0\n|,,1,2\n1,a,2,1\n2,a,1,0\n3,a,0,2\n
cogroup||1,a,0\n3,a,0\n,,0\n3,a,0\n,,0\n|,,0,2\n1,a,0,1\n3,a,0,2\n
cogroup|1,a,0\n2,a,0\n1,a,0\n,,0\n||,,1,0\n1,a,2,0\n2,a,1,0\n
cogroup|||
END

# ---- What the commands write of one program

# Its Map keeps one key, so it may stand below the Reduce: as written 4 + 1 records are read and 4 shipped, which is 9; the other way round 4 + 2 and 2, which is 8.
printf '1,5\n2,-3\n1,7\n2,4\n' >"$scratch/h.csv"
chosen='plans 2 complete
chosen 1 layout 0 cost 8
r reduce by 0 ship sink estimate 1
  m map ship partition 0 estimate 2
    s source ship forward estimate 4
swap 1 map-reduce at m
  upper reads {0} writes {} control {0} touched {0} emit 0..1 anchor none
  lower reads {0,1} writes {1,2} control {} touched {0,1,2} emit 1..1 anchor none
'
as_written='plans 1 limit
chosen 0 layout 0 cost 9
m map ship sink estimate 1
  r reduce by 0 ship forward estimate 1
    s source ship partition 0 estimate 4
'
count gives 0 "$chosen" '' plan push.pact
count gives 0 "$as_written" '' plan push.pact --plans 1
count gives 0 "$(cat certificates/push.good.json)\n" '' cert push.pact
count gives 0 '1,12\n' '' run push.pact
count gives 0 '1,12\n' 's out 4\nr in 2 out 1\nm in 4 out 2\n' run push.pact --counts

# ---- What is refused

rm -f "$scratch/none.pact"
for command in run plan cert sets; do
    count gives 3 '' 'cannot read none.pact\n' "$command" none.pact
done

# A program as long as it may be is read.
head -c 1048576 /dev/zero | tr '\0' '#' >"$scratch/longest.pact"
count gives 5 '' 'longest.pact:1: text fault 12\n' run longest.pact

# What is no program is told before any source is opened. Each row has the program, the status, and what is told.
rm -f "$scratch/s.csv"
while IFS='|' read -r program status told; do
    printf '%b' "$program" >"$scratch/refused.pact"
    for command in run sets; do
        count gives "$status" '' "$told\n" "$command" refused.pact
    done
done <<'END'
|5|refused.pact:1: text fault 12
pact 9\n|5|refused.pact:1: text fault 12
pact 1\nfields 4\nfunction f map\nv0 = foo v1\nend\n|5|refused.pact:4: text fault 9
pact 1\nfields 4\nfunction f map\n\n|5|refused.pact:4: text fault 10
pact 1\nfields 4\nfunction f map\nv0 = int 1\nset r0 4 v0\nend\n|6|function f: V3 at statement 1
pact 1\nfields 4\n|6|program: P9
pact 1\nfields 4\nsink x 0\n|6|x: P1
pact 1\nfields 1\nsource s s.csv int:0\n|6|program: P9
pact 1\nfields 2\nsource s s.csv int:2\nsink s 0\n|6|s: P10
END

# A program whose first source `d` has field 0, with a Map `m` of it, and whose second source `e` has this field; behind them an operator, so many functions more, and so many sinks.
with_broken_rules() {
    printf 'pact 1\nfields 8\nfunction f map\n  set r0 4 v0\nend\nfunction g match\n  set r0 6 v0\nend\nfunction h cross\n  set r0 5 v0\nend\n'
    printf 'source d d.csv text:0\nmap m f d\nsource e d.csv text:%d\n%s\n' "$1" "$2"
    local number
    for ((number = 1; number <= $3; number++)); do
        printf 'function more%d map\nend\n' "$number"
    done
    for ((number = 1; number <= $4; number++)); do
        echo 'sink j 0'
    done
}

# In each program two rules or more are broken, and the first of them is told; 64 functions are not too many. Each row has what the generator takes, and what is told.
while IFS='|' read -r field operator functions sinks told; do
    with_broken_rules "$field" "$operator" "$functions" "$sinks" >"$scratch/rules.pact"
    count gives 6 '' "$told\n" run rules.pact
done <<'END'
1|match d g m n by 0 = 1|0|0|d: P1
1|match d g m e by 0 = 1|0|0|d: P2
1|match j g m e by 0 = 1|62|0|program: P9
1|match j g m e by 0 = 1|62|2|program: P9
1|match j g m d by 0 = 1|62|1|more62: P8
1|match j h m d by 0 = 1|61|1|d: P7
1|match j h m e by 0 = 1 1|0|1|j: P3
8|match j g m e by 0 = 8 8|0|1|j: P4
8|match j g m e by 7 = 8|0|1|e: P10
4|match j g m e by 7 = 4|0|1|j: P5
4|match j g m e by 0 = 4|0|1|j: P6
END

# Of rows, what is told is the first that is bad. Each row has the bytes of s.csv, and what is told.
while IFS='|' read -r bytes told; do
    printf '%b' "$bytes" >"$scratch/s.csv"
    count gives 7 '' "$told\n" run sum.pact
done <<'END'
1,5\nx,-3\n|source s: row 2 column 1: why 2
1,5\n2\n|source s: row 2 column 0: why 1
END

# Of two sources, what is told is of the first that fails. Each row has the bytes of l.csv, those of r.csv or `none` where it isn't there, the status, and what is told.
while IFS='|' read -r left right status told; do
    printf '%b' "$left" >"$scratch/l.csv"
    rm -f "$scratch/r.csv"
    [ "$right" = none ] || printf '%b' "$right" >"$scratch/r.csv"
    count gives "$status" '' "$told\n" run match.pact
done <<'END'
1,a,10\n|1,a,x\n|7|source r: row 1 column 3: why 2
1,a,x\n|1,a,x\n|7|source l: row 1 column 3: why 2
1,a,10\n|none|3|cannot read r.csv
1,a,x\n|none|7|source l: row 1 column 3: why 2
END
