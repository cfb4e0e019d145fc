# Fields whose number a register holds: what is read and set, faults of the text, what is refused, what is found, and the order test.

registers=$scratch/registers
mkdir "$registers"
cp s.csv "$registers"
printf '10,11,12,13\n' >"$registers/whole.csv"
printf '10,13\n' >"$registers/left.csv"
printf '11,10\n' >"$registers/right.csv"

# Whether a command there has this status and writes these texts, in which escapes stand for bytes: status, standard output, standard error, words.
answers() {
    keep_command pact "${@:4}"
    (cd "$registers" && "$pact" "${@:4}" >"$scratch/out" 2>"$scratch/err")
    came_to $? "$1" "$2" "$3"
}

# A program of version 2 with one operator: its number of fields, its kind, its statements with "; " between them, and the sink's fields. A Map and a
# Reduce have the fields 0 to 3 below them, and each other kind 0 and 3 on the left, 1 and 2 on the right; the keys are 0, and 0 = 2.
by_register() {
    local operator="$2 m f s" function=$2 sources='source s whole.csv int:0 int:1 int:2 int:3'
    case $2 in
    match | cross | cogroup) sources=$'source s left.csv int:0 int:3\nsource t right.csv int:1 int:2' operator+=' t' ;;
    esac
    case $2 in
    reduce) operator+=' by 0' function+=' 1' ;;
    match) operator+=' by 0 = 2' ;;
    cogroup) operator+=' by 0 = 2' function+=' 1' ;;
    esac
    printf 'pact 2\nfields %s\n%s\nfunction f %s\n%s\nend\n%s\nsink m %s\n' "$1" "$sources" "$function" "${3//; /$'\n'}" "$operator" "$4" >"$registers/m.pact"
}

# ---- Numbers of fields that come from a column

# Each row has the statements of a Map over s.csv, the sink's fields, the rows, and what is found.
while IFS='|' read -r statements sink rows found; do
    printf 'pact 2\nfields 4\nsource s s.csv int:0 int:1\nfunction f map\n%s\nend\nmap m f s\nsink m %s\n' "${statements//; /$'\n'}" "$sink" >"$registers/m.pact"
    count answers 0 "$rows" '' run m.pact
    count answers 0 "m map $found emit 1..1 anchor none order yes\n" '' sets m.pact
done <<'END'
r0 = copy in; v0 = get in 0; v1 = get in @v0; set r0 3 v1; emit r0|0 3|1,5\n1,7\n2,\n|reads {0,1} writes {3} control {} touched {0,1,3}
r0 = copy in; v0 = get in 0; v1 = int 9; set r0 @v0 v1; emit r0|0 1 2|1,9,\n1,9,\n2,-3,9\n|reads {0,1} writes {0,1,2,3} control {} touched {0,1,2,3}
r0 = copy in; v0 = int 200; v1 = int 9; set r0 @v0 v1; emit r0|0 1 2|1,5,\n1,7,\n2,-3,\n|reads {0,1} writes {0,1,2,3} control {} touched {0,1,2,3}
END

# ---- Each record, by what the register holds

# What it holds, and the number of the field that this is, of four: none, or the first, the second, the last.
held=('null' 'text "1"' 'int -1' 'int 0' 'int 1' 'int 3' 'int 4' 'int 9223372036854775807')
numbers=(- - - 0 1 3 - -)

# Whether the program is refused in version 1, at its first line that takes a field from a register.
is_of_version_2() {
    local line
    line=$(grep -n -m 1 '@' "$registers/m.pact") || return 1
    sed 's/^pact 2$/pact 1/' "$registers/m.pact" >"$registers/first.pact"
    answers 5 '' "first.pact:${line%%:*}: text fault 7\n" run first.pact
}

# Each row has the kind, the statements before, the record, the ends of loops, and the record's values by field. What is read is written with whether it is
# Null. Then a copy of the record has another value in that field, or is as it was.
while IFS='|' read -r kind before record ends values; do
    IFS=, read -ra value_of <<<"$values,"
    for place in "${!held[@]}"; do
        number=${numbers[place]}
        value=
        changed=("${value_of[@]}")
        [ "$number" = - ] || { value=${value_of[number]} && changed[number]=7; }
        by_register 4 "$kind" "${before}v0 = ${held[place]}; v1 = get $record @v0; v2 = isnull v1; r0 = new; set r0 0 v1; set r0 1 v2; emit r0$ends" '0 1'
        missing=1
        [ -z "$value" ] || missing=0
        count answers 0 "$value,$missing\n" '' run m.pact
        [ "$place" != 0 ] || count is_of_version_2
        by_register 4 "$kind" "${before}v0 = ${held[place]}; v1 = int 7; r0 = copy $record; set r0 @v0 v1; emit r0$ends" '0 1 2 3'
        count answers 0 "${changed[0]},${changed[1]},${changed[2]},${changed[3]}\n" '' run m.pact
        [ "$place" != 0 ] || count is_of_version_2
    done
done <<'END'
map||in||10,11,12,13
match||left||10,,,13
match||right||,11,10,
match||join||10,11,10,13
cross||left||10,,,13
cross||right||,11,10,
cross||join||10,11,10,13
reduce||first||10,11,12,13
reduce|each x1 of group; |x1|; end|10,11,12,13
reduce|each x1 of group; each x2 of group; |x1|; end; end|10,11,12,13
cogroup|each x1 of left; |x1|; end|10,,,13
cogroup|each x1 of right; |x1|; end|,11,10,
cogroup|each x1 of left; each x2 of right; |x2|; end; end|,11,10,
map|r1 = copy in; |r1||10,11,12,13
map|r1 = new; |r1||,,,
cross||r1||,,,
match|r1 = copy right; |r1||,11,10,
reduce|r1 = copy first; v5 = int 20; set r1 3 v5; |r1||10,11,12,20
cogroup|each x1 of left; r1 = copy x1; end; |r1||10,,,13
END

# The last field of a record of 128, and the first number that is none.
while IFS='|' read -r number rows; do
    {
        printf 'pact 2\nfields 128\nsource s s.csv int:0 int:127\nfunction f map\nv0 = int %s\nv1 = get in @v0\nr0 = copy in\n' "$number"
        printf 'set r0 100 v1\nv2 = int 9\nset r0 @v0 v2\nemit r0\nend\nmap m f s\nsink m 0 100 127\n'
    } >"$registers/m.pact"
    count answers 0 "$rows" '' run m.pact
done <<'END'
0|9,1,5\n9,1,7\n9,2,-3\n
100|1,9,5\n1,9,7\n2,9,-3\n
127|1,5,9\n1,7,9\n2,-3,9\n
128|1,,5\n1,,7\n2,,-3\n
END

# The register may be the target, or hold the value too; a field becomes Null; numbers are reckoned, or are a key; what was emitted stays. Each row has the
# kind, the statements, the sink's fields, and the rows.
while IFS='|' read -r kind statements sink rows; do
    by_register 4 "$kind" "$statements" "$sink"
    count answers 0 "$rows" '' run m.pact
done <<'END'
map|v0 = int 2; v0 = get in @v0; r0 = new; set r0 0 v0; emit r0|0|12\n
map|v0 = int 3; r0 = copy in; set r0 @v0 v0; emit r0|0 1 2 3|10,11,12,3\n
map|v0 = int 3; r0 = copy in; set r0 @v0 v9; emit r0|0 1 2 3|10,11,12,\n
map|v0 = get in 0; v1 = int 8; v0 = sub v0 v1; v1 = get in @v0; r0 = new; set r0 @v0 v1; emit r0|0 1 2 3|,,12,\n
map|v0 = int 0; v2 = int 1; r0 = copy in; repeat 3; emit r0; set r0 @v0 v9; v0 = addw v0 v2; end|0 1 2 3|,,12,13\n,11,12,13\n10,11,12,13\n
map|v0 = int 0; v2 = int 1; repeat 6; v1 = get in @v0; v3 = addw v3 v1; v0 = addw v0 v2; end; set r0 0 v3; emit r0|0|46\n
reduce|v0 = key 0; v1 = int 9; v0 = sub v0 v1; each x1 of group; v1 = get x1 @v0; set r0 @v1 v1; set r0 @v0 v1; emit r0; end|0 1 2 3|,11,,\n
END

# ---- Faults of the text

# Whether this line, in the fifth place of a program of a version, has this fault; with 0 it is none, and the program is taken: version, line, fault.
has_fault() {
    printf 'pact %s\nfields 4\nsource s s.csv int:0 int:1\nfunction f map\n%s\nend\nmap m f s\nsink m 0\n' "$1" "$2" >"$registers/m.pact"
    if [ "$3" = 0 ]; then
        (cd "$registers" && "$pact" sets m.pact >"$scratch/out" 2>"$scratch/err")
        is_status $? 0 && [ -s "$scratch/out" ] && is_file 'standard error' "$scratch/err" /dev/null
    else
        answers 5 '' "m.pact:5: text fault $3\n" sets m.pact
    fi
}
# Each row has the word where a field is due, its fault in version 2, and in version 1.
while read -r word second first; do
    for line in "v1 = get in $word" "set r0 $word v1"; do
        count has_fault 2 "$line" "$second"
        count has_fault 1 "$line" "$first"
    done
done <<'END'
@v0 0 7
@v31 0 7
@ 8 7
@v 8 7
@v300 7 7
@v256 7 7
@v00 7 7
@v01 7 7
@v99999999999999999999 7 7
@r0 8 7
@x1 8 7
@in 8 7
@1 8 7
@-1 8 7
@V0 8 7
@v0x 8 7
@v-1 8 7
@@v0 8 7
@"a" 8 7
@"v0" 8 7
@#v0 8 7
v1 7 7
v1@ 7 7
"@v0" 7 7
256 7 7
3 0 0
END
# Words around that one, and other places of statements: each row has the line, its fault in version 2, and in version 1.
while IFS='|' read -r line second first; do
    count has_fault 2 "$line" "$second"
    count has_fault 1 "$line" "$first"
done <<'END'
v1 = get in @v0# a comment|0|7
v1 = get in @v0 v2|5|7
v1 = get in @ v0|8|7
set r0 @ v0 v1|8|7
v1 = get @v0|8|8
v1 = get @v0 0|8|8
v1 = get r300 @v|7|7
v300 = get in @v|7|7
r0 = get in @v|8|8
set r0 @v0|4|7
set r0 @v0 v1 v2|5|7
set r0 @v0 @v1|8|7
set r0 @v0 1|8|7
set @v0 1 v1|8|8
set in @v300 v1|8|8
set r300 @v v1|7|7
v1 = key @v0|7|7
v1 = int @v0|7|7
v1 = mov @v0|8|8
v1 = not @v0|8|8
r0 = copy @r1|8|8
@v0 = int 1|3|3
if @v0|8|8
repeat @v0|7|7
emit @r0|8|8
END
# No declaration has such a word: each row has one at the third place, and its fault in either version.
while IFS='|' read -r line fault; do
    for version in 1 2; do
        printf 'pact %s\nfields 4\n%s\n' "$version" "$line" >"$registers/m.pact"
        count answers 5 '' "m.pact:3: text fault $fault\n" sets m.pact
    done
done <<'END'
sink m @v0|7
source s s.csv int:@v0|7
source s s.csv @v0|8
reduce m f s by @v0|7
match m f s t by 0 = @v0|7
function f reduce @v0|7
END

# ---- Rules

# Each row has the kind, the statements, the rule that is broken, and the statement that breaks it.
while IFS='|' read -r kind statements rule statement; do
    by_register 4 "$kind" "$statements" 0
    count answers 6 '' "function f: V$rule at statement $statement\n" sets m.pact
done <<'END'
map|v0 = get in @v32|1|0
map|v0 = null; v1 = get in @v255|1|1
map|v0 = null; set r0 @v32 v0|1|1
map|set r0 @v0 v32|1|0
map|set r8 @v0 v0|1|0
map|v0 = get r8 @v0|1|0
map|v32 = get in @v0|1|0
map|v0 = get left @v0; v1 = get in @v32|1|1
map|v0 = get in 4; v1 = get left @v0|2|1
match|v0 = get in @v0|2|0
cross|v0 = get first @v0|2|0
reduce|v0 = get join @v0|2|0
reduce|each x1 of group; end; v0 = get x1 @v0|2|1
cogroup|v0 = get left @v0|2|0
cogroup|each x1 of left; v0 = get x2 @v0; end|2|1
map|v0 = get in @v0; set r0 4 v0|3|1
reduce|v0 = key 0; v1 = get first @v0; v0 = key 1|4|2
END
# No rule looks at what a register holds.
by_register 4 map 'v0 = int 200; v1 = get in @v0; set r0 @v0 v1; v0 = int -1; v1 = get in @v0; set r0 @v0 v1' 0
count answers 0 '' '' run m.pact

# A function that sets a field by its number has every field as an attribute above it, and one that reads so has none for that. Each row has its
# statements, the operators, the status, and what is told.
is_told_of() { # status, line
    (cd "$registers" && "$pact" sets m.pact >"$scratch/out" 2>"$scratch/err")
    is_status $? "$1" && is_text 'standard error' "$(<"$scratch/err")" "$2"
}
while IFS='|' read -r statements operators status told; do
    {
        printf 'pact 2\nfields 6\nsource s left.csv int:0 int:1\nsource t right.csv int:2 int:3\nfunction f map\n%s\nend\n' "${statements//; /$'\n'}"
        printf 'function %s\nend\n' 'g reduce 1' 'h match' 'c cross' 'k cogroup 1'
        printf '%s\n' "${operators//; /$'\n'}"
    } >"$registers/m.pact"
    count is_told_of "$status" "$told"
done <<'END'
set r0 @v0 v1|map m f s; cross x c m t; sink x 0|6|x: P6
set r0 @v0 v1|map m f t; cross x c s m; sink x 0|6|x: P6
set r0 @v0 v1|map m f s; match x h m t by 0 = 2; sink x 0|6|x: P6
set r0 @v0 v1|map m f s; cogroup x k m t by 0 = 2; sink x 0|6|x: P6
set r0 @v0 v1|map m f s; reduce r g m by 0; cross x c r t; sink x 0|6|x: P6
if v0; set r0 @v0 v1; end|map m f s; cross x c m t; sink x 0|6|x: P6
if v0; else; repeat 2; set r0 @v0 v1; end; end|map m f s; cross x c m t; sink x 0|6|x: P6
v1 = get in @v0|map m f s; cross x c m t; sink x 0|0|
set r0 4 v1|map m f s; cross x c m t; sink x 0|0|
set r0 @v0 v1|cross x c s t; map m f x; reduce r g m by 5; sink r 0|0|
set r0 @v0 v1|cross x c s t; map m f x; reduce r g m by 6; sink r 0|6|r: P5
v1 = get in @v0|cross x c s t; map m f x; reduce r g m by 5; sink r 0|6|r: P5
END

# ---- What is found

# A program as above, with six fields, of which a Map and a Reduce have 0 and 1 below them, and each other kind these on the left, 2 and 3 on the right.
found_by_register() {
    by_register 6 "$1" "$2" 0
    sed -i 's/^source s .*/source s s.csv int:0 int:1/; s/^source t .*/source t s.csv int:2 int:3/' "$registers/m.pact"
}
# Each row has the kind, the statements, and what is found, worked out by hand from the rules in docs/analysis.md and docs/order.md.
while IFS='|' read -r kind statements found; do
    found_by_register "$kind" "$statements"
    count answers 0 "m $kind $found\n" '' sets m.pact
done <<'END'
map|v0 = get in 0; v1 = get in @v0; r0 = copy in; set r0 3 v1; emit r0|reads {0,1} writes {3} control {} touched {0,1,3} emit 1..1 anchor none order yes
map|v0 = int 1; v1 = get in @v0; r0 = copy in; set r0 1 v1; emit r0|reads {0,1} writes {1} control {} touched {0,1} emit 1..1 anchor none order yes
map|v0 = get in 0; r0 = copy in; set r0 @v0 v9; emit r0|reads {0,1} writes {0,1,2,3,4,5} control {} touched {0,1,2,3,4,5} emit 1..1 anchor none order yes
map|r0 = new; v0 = get in 0; set r0 @v0 v0; emit r0|reads {0} writes {0,1,2,3,4,5} control {} touched {0,1,2,3,4,5} emit 1..1 anchor none order yes
map|r0 = new; v0 = get in 1; set r0 @v9 v0; emit r0|reads {1} writes {0,1,2,3,4,5} control {} touched {0,1,2,3,4,5} emit 1..1 anchor none order yes
map|r0 = new; v0 = get in 1; set r0 @v0 v9; emit r0|reads {1} writes {0,1,2,3,4,5} control {} touched {0,1,2,3,4,5} emit 1..1 anchor none order yes
map|r0 = copy in; v1 = int 5; set r0 1 v1; v0 = get in 0; set r0 @v0 v1; emit r0|reads {0} writes {0,1,2,3,4,5} control {} touched {0,1,2,3,4,5} emit 1..1 anchor none order yes
map|r0 = copy in; v1 = int 5; set r0 1 v1; v2 = get r0 @v9; r1 = copy in; set r1 4 v2; emit r1|reads {0} writes {4} control {} touched {0,1,4} emit 1..1 anchor none order yes
map|r0 = copy in; v1 = get in 1; set r0 0 v1; v2 = get r0 @v9; r1 = copy in; set r1 4 v2; emit r1|reads {1} writes {4} control {} touched {0,1,4} emit 1..1 anchor none order yes
map|r0 = new; v0 = get in 0; v1 = get r0 @v0; r1 = copy in; set r1 4 v1; emit r1|reads {0} writes {4} control {} touched {0,4} emit 1..1 anchor none order yes
map|v0 = get in 0; v1 = get in @v0; if v1; r0 = copy in; emit r0; end|reads {0,1} writes {} control {0,1} touched {0,1} emit 0..1 anchor none order yes
map|v0 = get in 0; v1 = get in @v0; r0 = copy in; emit r0|reads {} writes {} control {} touched {} emit 1..1 anchor none order yes
map|set r1 @v0 v1; r0 = copy in; emit r0|reads {} writes {} control {} touched {0,1,2,3,4,5} emit 1..1 anchor none order yes
map|if v9; set r1 @v0 v1; end|reads {} writes {} control {} touched {0,1,2,3,4,5} emit 0..0 anchor none order yes
map|r0 = copy in; v1 = get in 1; set r0 @v9 v9; set r0 1 v1; emit r0|reads {0,1} writes {0,2,3,4,5} control {} touched {0,1,2,3,4,5} emit 1..1 anchor none order yes
map|r0 = copy in; v0 = get in 0; if v0; set r0 @v0 v0; end; emit r0|reads {0,1,2,3,4,5} writes {0,1,2,3,4,5} control {0} touched {0,1,2,3,4,5} emit 1..1 anchor none order yes
map|r0 = copy in; set r0 @v9 v9; v1 = get r0 4; r1 = copy in; set r1 4 v1; emit r1|reads {0,1} writes {4} control {} touched {0,1,2,3,4,5} emit 1..1 anchor none order yes
map|r0 = new; set r0 @v9 v9; v1 = get r0 @v9; r1 = copy in; set r1 4 v1; emit r1|reads {} writes {4} control {} touched {0,1,2,3,4,5} emit 1..1 anchor none order yes
map|r1 = new; repeat 2; v2 = get r1 @v9; r1 = copy in; end; r0 = copy in; set r0 3 v2; emit r0|reads {0,1} writes {3} control {} touched {0,1,3} emit 1..1 anchor none order yes
match|v0 = get left 0; v1 = get right @v0; r0 = copy join; set r0 4 v1; emit r0|reads {0,2,3} writes {4} control {} touched {0,2,3,4} emit 1..1 anchor none order yes
match|v1 = get left @v9; r0 = copy join; set r0 4 v1; emit r0|reads {0,1,2} writes {4} control {} touched {0,1,2,4} emit 1..1 anchor none order yes
match|v1 = get join @v9; r0 = copy join; set r0 4 v1; emit r0|reads {0,1,2,3} writes {4} control {} touched {0,1,2,3,4} emit 1..1 anchor none order yes
match|r0 = copy left; set r0 @v9 v9; emit r0|reads {0,1,2} writes {0,1,2,3,4,5} control {} touched {0,1,2,3,4,5} emit 1..1 anchor none order yes
match|r0 = copy right; v1 = get r0 @v9; r1 = copy join; set r1 4 v1; emit r1|reads {0,2,3} writes {4} control {} touched {0,2,3,4} emit 1..1 anchor none order yes
cross|r0 = new; set r0 @v9 v9; emit r0|reads {} writes {0,1,2,3,4,5} control {} touched {0,1,2,3,4,5} emit 1..1 anchor none order yes
cross|v0 = get right 3; v1 = get left @v0; r0 = copy join; set r0 5 v1; emit r0|reads {0,1,3} writes {5} control {} touched {0,1,3,5} emit 1..1 anchor none order yes
cross|v0 = get left 3; v1 = get left @v0; r0 = copy join; set r0 5 v1; emit r0|reads {0,1} writes {5} control {} touched {0,1,5} emit 1..1 anchor none order yes
cross|v0 = get left 1; v1 = get right @v0; if v1; r0 = copy join; emit r0; end|reads {1,2,3} writes {} control {1,2,3} touched {1,2,3} emit 0..1 anchor none order yes
cross|r0 = copy right; v0 = get left 0; set r0 @v0 v0; emit r0|reads {0,2,3} writes {0,1,2,3,4,5} control {} touched {0,1,2,3,4,5} emit 1..1 anchor none order yes
reduce|v0 = key 0; v1 = get first @v0; r0 = copy first; set r0 3 v1; emit r0|reads {0,1} writes {3} control {} touched {0,1,3} emit 1..1 anchor none order no
reduce|each x1 of group; v1 = get x1 @v9; v0 = addw v0 v1; end; r0 = new; v2 = key 0; set r0 0 v2; set r0 2 v0; emit r0|reads {0,1} writes {1,2} control {} touched {0,1,2} emit 1..1 anchor none order yes
reduce|each x1 of group; r0 = copy x1; v0 = key 0; set r0 @v0 v0; emit r0; end|reads {0,1} writes {0,1,2,3,4,5} control {} touched {0,1,2,3,4,5} emit 1..many anchor none order yes
reduce|r0 = new; v1 = get r0 @v9; each x1 of group; r1 = copy x1; set r1 3 v1; emit r1; end|reads {0} writes {3} control {} touched {0,3} emit 1..many anchor none order yes
reduce|r0 = new; v0 = key 0; set r0 0 v0; v1 = get r0 @v9; if v1; each x1 of group; end; end|reads {0} writes {} control {0} touched {0} emit 0..0 anchor none order yes
cogroup|each x1 of left; v0 = get x1 0; each x2 of right; v1 = get x2 @v0; r0 = copy x1; set r0 4 v1; emit r0; end; end|reads {0,2,3} writes {4} control {} touched {0,2,3,4} emit 0..many anchor left order yes
cogroup|each x1 of left; v1 = get x1 @v9; r0 = copy x1; set r0 4 v1; emit r0; end|reads {0,1,2} writes {4} control {} touched {0,1,2,4} emit 0..many anchor left order yes
cogroup|each x1 of right; r0 = copy x1; v0 = get x1 3; set r0 @v0 v9; emit r0; end|reads {0,1,2,3} writes {0,1,2,3,4,5} control {} touched {0,1,2,3,4,5} emit 0..many anchor right order yes
cogroup|v0 = key 0; r0 = new; v1 = get r0 @v0; if v1; end|reads {0,2} writes {} control {0,2} touched {0,2} emit 0..0 anchor both order yes
cogroup|each x1 of left; r0 = copy x1; end; v1 = get r0 @v9; each x1 of left; r1 = copy x1; set r1 4 v1; emit r1; end|reads {0,1,2,3,4,5} writes {4} control {} touched {0,1,2,3,4,5} emit 0..many anchor left order no
cogroup|r0 = new; set r0 @v9 v9; emit r0|reads {0,1,2,3,4,5} writes {0,1,2,3,4,5} control {} touched {0,1,2,3,4,5} emit 1..1 anchor none order yes
END

# ---- The order test

# Each row has whether a Reduce passes, what its loop has behind `v1 = get x1 1`, and what stands behind the loop, before v0 is emitted.
is_ordered() { # yes or no
    (cd "$registers" && "$pact" sets m.pact >"$scratch/out" 2>"$scratch/err") && is_file 'standard error' "$scratch/err" /dev/null &&
        [[ $(<"$scratch/out") = "m reduce "*" order $1" ]]
}
while IFS='|' read -r answer statements behind; do
    found_by_register reduce "each x1 of group; v1 = get x1 1; $statements; end; ${behind:+$behind; }r6 = new; set r6 2 v0; emit r6"
    count is_ordered "$answer"
done <<'END'
yes|v0 = addw v0 v1|
no|v0 = addw v0 v1; v2 = get x1 @v0|
no|v0 = addw v0 v1; r0 = copy x1; set r0 @v0 v1|
no|v0 = max v0 v1; repeat 2; if v1; v2 = get x1 @v0; end; end|
yes|v0 = addw v0 v1; v2 = get x1 @v1|
yes|v2 = get x1 @v1; v0 = addw v0 v2|
yes|v0 = addw v0 v1|v0 = get r0 @v0
yes|v0 = addw v0 v1|set r0 @v0 v0; emit r0
no|v0 = get x1 @v1|
no|v0 = get x1 @v0|
no|v3 = get x1 @v2; v2 = get x1 0; v0 = addw v0 v3|
yes|v2 = get x1 0; v3 = get x1 @v2; v0 = addw v0 v3|
no|v2 = get x1 0; v0 = addw v0 v2|v3 = get r0 @v2
no|v2 = get x1 @v1; v0 = addw v0 v2|set r0 @v2 v3; emit r0
yes|v2 = get x1 @v1; v0 = addw v0 v2|v2 = null; set r0 @v2 v3; emit r0
no|v2 = get first @v1; v0 = addw v0 v2|
no|v2 = get r0 @v1; r0 = copy x1; v0 = addw v0 v2|
yes|r0 = copy x1; v2 = get r0 @v1; v0 = addw v0 v2|
no|set r0 @v1 v1; emit r0|
no|set r0 @v1 v1|
yes|r0 = new; set r0 @v1 v1; emit r0|
no|r0 = new; set r0 @v1 v1|emit r0
no|r0 = copy x1; set r0 @v2 v1; emit r0; v2 = mov v1|
yes|r0 = copy x1; v2 = mov v1; set r0 @v2 v1; emit r0|
no|if v1; v2 = get x1 0; end; v3 = get x1 @v2; v0 = addw v0 v3|
END
