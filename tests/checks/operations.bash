# What the operations give.

echo 1 >"$scratch/s.csv"
# A program that writes what an operation gives of these literals, whether that is Null, and its length where it is a text.
operation() {
    printf 'pact 1\nfields 3\nsource s s.csv int:0\nfunction apply map\n'
    printf '  v0 = %s\n' "$2"
    if [ -n "$3" ]; then
        printf '  v1 = %s\n  v2 = %s v0 v1\n' "$3" "$1"
    else
        printf '  v2 = %s v0\n' "$1"
    fi
    printf '  v3 = isnull v2\n  v4 = len v2\n  r0 = new\n  set r0 0 v2\n  set r0 1 v3\n  set r0 2 v4\n  emit r0\nend\nmap m apply s\nsink m 0 1 2\n'
}

# Each row has the operation, one literal or two, and the row that is written: of Null ",1,", of a number "N,0,", and of a text "TEXT,0,BYTES".
while IFS='|' read -r name left right row; do
    operation "$name" "$left" "$right" >"$scratch/operation.pact"
    count gives 0 "$row\n" '' run operation.pact
done <<'END'
add|int 2|int 3|5,0,
add|int 9223372036854775807|int 1|,1,
add|int -9223372036854775808|int -1|,1,
add|int -9223372036854775808|int 9223372036854775807|-1,0,
add|null|int 1|,1,
add|int 1|text "1"|,1,
sub|int 2|int 5|-3,0,
sub|int -9223372036854775808|int 1|,1,
sub|int 0|int -9223372036854775808|,1,
sub|int -1|int -9223372036854775808|9223372036854775807,0,
sub|text ""|int 1|,1,
mul|int -6|int -7|42,0,
mul|int -9223372036854775808|int -1|,1,
mul|int 4294967296|int 2147483648|,1,
mul|int 4294967296|int -2147483648|-9223372036854775808,0,
mul|null|int 0|,1,
addw|int 9223372036854775807|int 1|-9223372036854775808,0,
addw|int -9223372036854775808|int -9223372036854775808|0,0,
addw|null|text "a"|0,0,
addw|text "5"|int 2|2,0,
div|int -7|int 2|-3,0,
div|int 7|int -2|-3,0,
div|int -7|int -2|3,0,
div|int 7|int 0|,1,
div|int -9223372036854775808|int -1|,1,
div|int -9223372036854775808|int 1|-9223372036854775808,0,
div|int 2|null|,1,
rem|int -7|int 2|-1,0,
rem|int 7|int -2|1,0,
rem|int 7|int 0|,1,
rem|int -9223372036854775808|int -1|,1,
rem|int -9223372036854775808|int 3|-2,0,
rem|int 4|text "2"|,1,
min|int -9223372036854775808|null|,1,
min|int 9223372036854775807|text ""|9223372036854775807,0,
min|text "b"|text "ab"|ab,0,2
max|null|int -9223372036854775808|-9223372036854775808,0,
max|text "z"|text "é"|é,0,2
max|text "a"|text "ab"|ab,0,2
lt|int 2|int 2|0,0,
lt|int -9223372036854775808|int 9223372036854775807|1,0,
lt|null|int -9223372036854775808|1,0,
lt|int 9223372036854775807|text ""|1,0,
lt|text "a"|text "ab"|1,0,
lt|text "Z"|text "a"|1,0,
le|int 2|int 2|1,0,
le|int 3|int 2|0,0,
le|null|null|1,0,
eq|int 2|int -2|0,0,
eq|null|null|1,0,
eq|null|int 0|0,0,
eq|int 1|text "1"|0,0,
eq|text "a"|text "a"|1,0,
and|int -1|int 2|1,0,
and|int 1|int 0|0,0,
and|int 1|text "1"|0,0,
or|int 0|int -3|1,0,
or|int 5|text "a"|1,0,
or|null|text "a"|0,0,
not|int 0||1,0,
not|int -9223372036854775808||0,0,
not|null||1,0,
not|text "a"||1,0,
isnull|null||1,0,
isnull|text ""||0,0,
len|null||,1,
len|int 5||,1,
len|text "aé€"||6,0,
cat|text "é"|text "€"|é€,0,5
cat|text ""|text ""|,0,0
cat|text "a"|null|,1,
cat|int 1|int 2|,1,
END

# A text that is joined of two has at most 4,096 bytes.
letters() {
    printf '%*s' "$1" '' | tr ' ' 'a'
}
while IFS='|' read -r left right length; do
    operation cat "text \"$(letters "$left")\"" "text \"$(letters "$right")\"" >"$scratch/operation.pact"
    if [ -n "$length" ]; then
        count gives 0 "$(letters "$length"),0,$length\n" '' run operation.pact
    else
        count gives 0 ',1,\n' '' run operation.pact
    fi
done <<'END'
2048|2048|4096
2048|2049|
4096|0|4096
1|4096|
END
