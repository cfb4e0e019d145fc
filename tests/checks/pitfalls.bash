# What docs/idioms.md says of programs that no rule refuses and that seldom do what was meant.

printf '1,5\n1,3\n' >"$scratch/s.csv"

# A program with this function and this operator, over a source with a key and a number.
make_pitfall() {
    printf 'pact 1\nfields 4\nsource s s.csv int:0 int:1\nfunction f %b\nend\n%b\n' "$1" "$2" >"$scratch/pitfall.pact"
}

# Each row has the function, its operator and the sink, and the rows that are written.
while IFS='|' read -r function operator rows; do
    make_pitfall "$function" "$operator"
    count gives 0 "$rows" '' run pitfall.pact
done <<'END'
reduce 1\neach x1 of group\nv1 = get x1 1\nv0 = min v0 v1\nend\nset r0 1 v0\nemit r0|reduce r f s by 0\nsink r 1|""\n
reduce 1\nv0 = get first 1\neach x1 of group\nv1 = get x1 1\nv0 = min v0 v1\nend\nset r0 1 v0\nemit r0|reduce r f s by 0\nsink r 1|3\n
reduce 1\neach x1 of group\nv1 = get x1 1\nv0 = max v0 v1\nend\nset r0 1 v0\nemit r0|reduce r f s by 0\nsink r 1|5\n
map\nv1 = get in 1\nv2 = add v0 v1\nset r0 2 v2\nv2 = lt v0 v1\nset r0 3 v2\nif v0\nelse\nemit r0\nend|map m f s\nsink m 2 3|,1\n,1\n
map\nv0 = text "a"\nv1 = get in 1\nv2 = add v0 v1\nset r0 2 v2\nv2 = addw v0 v1\nset r0 3 v2\nemit r0|map m f s\nsink m 2 3|,3\n,5\n
map\nv0 = int 9223372036854775807\nv1 = int 1\nv2 = addw v0 v1\nset r0 2 v2\nv2 = add v0 v1\nset r0 3 v2\nemit r0|map m f s\nsink m 2 3|-9223372036854775808,\n-9223372036854775808,\n
map\nr0 = copy in\nemit r0|map m f s\nsink m 1 2|3,\n5,\n
map\nr0 = copy in|map m f s\nsink m 0 1|
map\nv0 = int 7\nset r0 2 v0\nemit r0|map m f s\nsink m 0 1 2|,,7\n,,7\n
END
make_pitfall 'map\nr0 = copy in' 'map m f s\nsink m 0'
count gives 0 'm map reads {} writes {} control {} touched {} emit 0..0 anchor none order yes\n' '' sets pitfall.pact

# Null is less than every other value and equal to itself: a filter keeps empty cells and a join pairs them, unless `isnull` is asked.
printf '1,\n2,-3\n3,4\n' >"$scratch/s.csv"
while IFS='|' read -r function operator rows; do
    make_pitfall "$function" "$operator"
    count gives 0 "$rows" '' run pitfall.pact
done <<'END'
map\nv0 = get in 1\nv1 = int 0\nv2 = lt v0 v1\nif v2\nr0 = copy in\nemit r0\nend|map m f s\nsink m 0 1|1,\n2,-3\n
map\nv0 = get in 1\nv1 = int 0\nv2 = lt v0 v1\nv3 = isnull v0\nv3 = not v3\nv2 = and v2 v3\nif v2\nr0 = copy in\nemit r0\nend|map m f s\nsink m 0 1|2,-3\n
map\nv0 = get in 1\nv1 = int 0\nv2 = lt v1 v0\nif v2\nr0 = copy in\nemit r0\nend|map m f s\nsink m 0 1|3,4\n
cross\nv0 = get left 1\nv1 = get right 3\nv2 = lt v0 v1\nif v2\nr0 = copy join\nemit r0\nend|source t s.csv int:2 int:3\ncross m f s t\nsink m 1 3|,-3\n,4\n-3,4\n
cross\nv0 = get left 1\nv1 = get right 3\nv2 = eq v0 v1\nif v2\nr0 = copy join\nemit r0\nend|source t s.csv int:2 int:3\ncross m f s t\nsink m 1 3|,\n-3,-3\n4,4\n
END
printf '1,5\n1,3\n' >"$scratch/s.csv"

# A text isn't a number, and none of their digits counts.
printf '01,2\n1,3\n' >"$scratch/t.csv"
while IFS='|' read -r left right rows; do
    printf 'pact 1\nfields 4\nsource s s.csv %s:0 int:1\nsource t t.csv %s:2 int:3\nfunction f match\nr0 = copy join\nemit r0\nend\nmatch m f s t by 0 = 2\nsink m 1 3\n' \
        "$left" "$right" >"$scratch/pitfall.pact"
    count gives 0 "$rows" '' run pitfall.pact
done <<'END'
int|text|
int|int|3,2\n3,3\n5,2\n5,3\n
text|text|3,3\n5,3\n
END

# Records without a key all match each other in version 1, and none in version 2.
printf ',5\n,3\n' >"$scratch/s.csv"
printf ',2\n,4\n' >"$scratch/t.csv"
while IFS='|' read -r version rows; do
    printf 'pact %d\nfields 4\nsource s s.csv int:0 int:1\nsource t t.csv int:2 int:3\nfunction f match\nr0 = copy join\nemit r0\nend\nmatch m f s t by 0 = 2\nsink m 1 3\n' \
        "$version" >"$scratch/pitfall.pact"
    count gives 0 "$rows" '' run pitfall.pact
done <<'END'
1|3,2\n3,4\n5,2\n5,4\n
2|
END

mkdir -p "$scratch/elsewhere"
mv "$scratch/t.csv" "$scratch/elsewhere"
mv "$scratch/pitfall.pact" "$scratch/elsewhere"
count gives 3 '' 'cannot read t.csv\n' run elsewhere/pitfall.pact
