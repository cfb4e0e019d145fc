# The two versions of a program's text: what each allows, that a program of the first says the same in the second but for Null in a key of a Match
# (`nulls`), and whose certificate is whose.

tried=0
# Counts whether a case passes, and besides that it was tried, so that no part of this passes for having no case.
try() { tried=$((tried + 1)); count "$@"; }
# Whether so many were tried since this was asked last.
were_tried() {
    local number=$tried
    tried=0
    [ "$number" = "$1" ]
}

# ---- The first two lines

# Each row has a text, and the line and the fault that are told.
while IFS='|' read -r text line fault; do
    printf '%b' "$text" >"$scratch/text.pact"
    try gives 5 '' "text.pact:$line: text fault $fault\n" sets text.pact
done <<'END_OF_ROWS'
pact 3\nfields 4\n|1|12
pact 0\nfields 4\n|1|12
pact 02\nfields 4\n|1|12
pact\nfields 4\n|1|12
pact two\nfields 4\n|1|12
pact 2 2\nfields 4\n|1|12
pact 1 2\nfields 4\n|1|12
pact "2"\nfields 4\n|1|12
pact -2\nfields 4\n|1|12
pact +2\nfields 4\n|1|12
pact 2.0\nfields 4\n|1|12
pact 22\nfields 4\n|1|12
pact 258\nfields 4\n|1|12
pact 4294967298\nfields 4\n|1|12
pact2\nfields 4\n|1|12
Pact 2\nfields 4\n|1|12
2\nfields 4\n|1|12
fields 128\npact 2\n|1|12
pact 3 "a\n|1|2
pact 3 \xFF\n|1|1
pact 2|1|12
pact 2\n\n# more\n|3|12
pact 2\npact 2\n|2|12
pact 2\nfield 4\n|2|12
pact 2\nfields\n|2|4
pact 2\nfields 0\n|2|7
pact 2\nfields 0128\n|2|7
pact 2\nfields "128"\n|2|7
pact 2\nfields 129 1\n|2|7
pact 2\nfields 128 1\n|2|5
END_OF_ROWS
count were_tried 30

# Words between other blanks, with a comment behind them and another line end, in either version.
nothing='reads {} writes {} control {} touched {} emit 0..0 anchor none order yes'
for version in 1 2; do
    printf '\r\n \t# a version\npact\t %d # behind it\r\n\n fields\t64#all\r\nsource s s.csv int:63\nfunction f map\nend\nmap m f s\nsink m 63' \
        "$version" >"$scratch/text.pact"
    try gives 0 "m map $nothing\n" '' sets text.pact
done
count were_tried 2

# ---- Fields, columns and fields of the sink

# A list's words behind their prefix: A-B stands for all from A to B, and N@A for N times A.
listed() {
    local prefix=$1 word number
    for word in "${@:2}"; do
        case $word in
        *-*) for ((number = ${word%-*}; number <= ${word#*-}; number++)); do printf ' %s%d' "$prefix" "$number"; done ;;
        *@*) for ((number = 0; number < ${word%@*}; number++)); do printf ' %s%s' "$prefix" "${word#*@}"; done ;;
        *) printf ' %s%s' "$prefix" "$word" ;;
        esac
    done
}

# A program of this version: the number of fields, those of the columns, a statement, the fields of the sink.
limits_program() {
    # shellcheck disable=SC2046,SC2086
    printf 'pact %s\nfields %s\nsource s s.csv%s\nfunction f map\n%s\nend\nmap m f s\nsink m%s\n' "$1" "$2" "$(listed int: $3)" "$4" "$(listed '' $5)"
}

# Whether such a program is taken (`ok`), or refused: by a text fault in the line, a rule of functions at its statement, or a rule of programs by name.
comes_out() {
    limits_program "${@:2}" >"$scratch/limits.pact"
    case $1 in
    ok) gives 0 "m map $nothing\n" '' sets limits.pact ;;
    V*) gives 6 '' "function f: $1 at statement 0\n" sets limits.pact ;;
    *P*) gives 6 '' "$1\n" sets limits.pact ;;
    *) gives 5 '' "limits.pact:${1% *}: text fault ${1#* }\n" sets limits.pact ;;
    esac
}

# Whether the same is said where a statement that names a field stands in the function: of one that is taken, what it touches.
names_field() {
    limits_program "$2" "$3" 0 "$4" 0 >"$scratch/limits.pact"
    case $1 in
    ok) gives 0 "m map ${nothing/touched \{\}/"touched $5"}\n" '' sets limits.pact ;;
    *) gives 6 '' "function f: $1 at statement 0\n" sets limits.pact ;;
    esac
}

# Each row has the version and a number N, and how a program comes out that declares N fields; whose source has N columns; whose sink has N fields, each
# once and all of one field; and, of as many fields as it can have up to N, one that names field N - 1, and one that names field N.
while IFS='|' read -r version number declared columns different same below at; do
    limit=$((version == 1 ? 64 : 128))
    fields=$((number < limit ? number : limit))
    try comes_out "$declared" "$version" "$number" 0 '' 0
    try comes_out "$columns" "$version" "$limit" "0-$((number - 1))" '' 0
    try comes_out "$different" "$version" "$limit" 0 '' "0-$((number - 1))"
    try comes_out "$same" "$version" 1 0 '' "$number@0"
    try names_field "$below" "$version" "$fields" "v0 = get in $((number - 1))" '{}'
    try names_field "$at" "$version" "$fields" "v0 = get in $number" ''
    try names_field "$below" "$version" "$fields" "set r0 $((number - 1)) v0" "{$((number - 1))}"
    try names_field "$at" "$version" "$fields" "set r0 $number v0" ''
done <<'END_OF_ROWS'
1|64|ok|ok|ok|ok|ok|V3
1|65|2 7|3 5|8 5|8 5|V3|V3
1|127|2 7|3 5|8 5|8 5|V3|V3
1|128|2 7|3 5|8 5|8 5|V3|V3
1|129|2 7|3 5|8 5|8 5|V3|V3
2|64|ok|ok|ok|ok|ok|V3
2|65|ok|ok|ok|ok|ok|V3
2|127|ok|ok|ok|ok|ok|V3
2|128|ok|ok|ok|ok|ok|V3
2|129|2 7|3 5|8 5|8 5|V3|V3
END_OF_ROWS
count were_tried 80

# How many columns and fields of the sink there may be is decided by the version, and which by the number of fields. Each row has the version, the number
# of fields, those of the columns, those of the sink, and how the program comes out.
while IFS='|' read -r version fields columns sink outcome; do
    try comes_out "$outcome" "$version" "$fields" "$columns" '' "$sink"
done <<'END_OF_ROWS'
1|64|0-64|0|3 5
1|64|0-63 255|0|3 5
1|64|0-63 256|0|3 7
1|64|64@0|0|s: P10
1|64|64|0|s: P10
1|64|0|0-63 255|8 5
1|64|0|0-63 256|8 7
1|64|0|0-63 x|8 7
1|64|0|64|m: P10
1|2|0 1|64@1|ok
1|2|0 1|65@1|8 5
2|64|0-64|0|s: P10
2|64|0-127|0|s: P10
2|64|0-128|0|3 5
2|65|0-64|0-64|ok
2|128|0-127 255|0|3 5
2|128|0-127 256|0|3 7
2|128|0-127 x|0|3 7
2|128|128@0|0|s: P10
2|128|128|0|s: P10
2|128|127 0|127|ok
2|128|0|0-127 255|8 5
2|128|0|0-127 256|8 7
2|128|0|0-127 x|8 7
2|128|0|64|ok
2|128|0|128|m: P10
2|128|0|255|m: P10
2|128|0|256|8 7
2|2|0 1|128@1|ok
2|2|0 1|129@1|8 5
2|2|0 1|2|m: P10
END_OF_ROWS
count were_tried 31
limits_program 2 128 '0-127' '' 0 | sed 's/^source .*/& float:4/' >"$scratch/limits.pact"
count gives 5 '' 'limits.pact:3: text fault 8\n' sets limits.pact

# A field above 255 is none of a text in either version, and a key is an attribute in both.
while IFS='|' read -r version keys status told; do
    printf 'pact %s\nfields %d\nsource s s.csv int:0 int:63\nfunction f reduce 1\nv0 = key 0\nset r0 %d v0\nend\nreduce m f s by %s\nsink m 0\n' \
        "$version" $((64 * version)) $((64 * version - 1)) "$keys" >"$scratch/limits.pact"
    try gives "$status" '' "$told\n" sets limits.pact
done <<'END_OF_ROWS'
1|64|6|m: P5
1|255|6|m: P5
1|256|5|limits.pact:8: text fault 7
2|64|6|m: P5
2|127|6|m: P5
2|128|6|m: P5
2|256|5|limits.pact:8: text fault 7
END_OF_ROWS
count were_tried 7

# Rows of so many columns, cut to all of their fields from the last one to the first.
numbers_of_rows() {
    awk -v columns="$1" -v back="$2" 'BEGIN {
        for (row = 1; row <= 3; row++)
            for (k = 0; k < columns; k++) printf "%d%s", row * 1000 + (back ? columns - 1 - k : k), k < columns - 1 ? "," : "\n"
    }'
}
for columns in 64 65 127 128; do
    limits_program 2 "$columns" "0-$((columns - 1))" $'r0 = copy in\nemit r0' '' >"$scratch/limits.pact"
    sed -i "s/^sink m\$/sink m $(seq -s ' ' $((columns - 1)) -1 0)/" "$scratch/limits.pact"
    numbers_of_rows "$columns" 0 >"$scratch/s.csv"
    try gives 0 "$(numbers_of_rows "$columns" 1)\n" '' run limits.pact
    # a value too few, one too many, and one that is none in the last column
    sed '2s/,[^,]*$//' <(numbers_of_rows "$columns" 0) >"$scratch/s.csv"
    try gives 7 '' 'source s: row 2 column 0: why 1\n' run limits.pact
    sed '3s/$/,1/' <(numbers_of_rows "$columns" 0) >"$scratch/s.csv"
    try gives 7 '' 'source s: row 3 column 0: why 1\n' run limits.pact
    sed '1s/$/x/' <(numbers_of_rows "$columns" 0) >"$scratch/s.csv"
    try gives 7 '' "source s: row 1 column $columns: why 2\n" run limits.pact
done
count were_tried 16

# All fields in one set: a CoGroup that is anchored on neither side.
for fields in 65 128; do
    printf 'pact 2\nfields %d\nsource s s.csv int:0\nsource t t.csv int:%d\nfunction new cogroup 1\n  r0 = new\n  emit r0\nend\ncogroup g new s t by 0 = %d\nsink g 0\n' \
        "$fields" $((fields - 1)) $((fields - 1)) >"$scratch/neither.pact"
    all=$(seq -s , 0 $((fields - 1)))
    try gives 0 "g cogroup reads {$all} writes {$all} control {} touched {$all} emit 1..1 anchor none order yes\n" '' sets neither.pact
done
count were_tried 2

# ---- One program in both versions

# Puts other numbers in place of the fields of a program's text, under a version and a number of fields, by pairs FROM:TO.
renumbered() {
    awk -v version="$1" -v fields="$2" -v pairs="$3" '
        BEGIN { size = split(pairs, list, " "); for (i = 1; i <= size; i++) { split(list[i], pair, ":"); to[pair[1]] = pair[2] } }
        function other(number) { return number in to ? to[number] : number }
        {
            code = $0
            sub(/#.*/, "", code)
            n = split(code, word, " ")
            first = n ? word[1] : ""
            if (first == "pact") word[2] = version
            else if (first == "fields") word[2] = fields
            else if (first == "source") for (k = 4; k <= n; k++) { split(word[k], pair, ":"); word[k] = pair[1] ":" other(pair[2]) }
            else if (first == "sink") for (k = 3; k <= n; k++) word[k] = other(word[k])
            else if (first == "reduce" || first == "match" || first == "cogroup") for (k = 5; k <= n; k++) word[k] = other(word[k])
            else if (first == "set") word[3] = other(word[3])
            else if (word[2] == "=" && word[3] == "get") word[5] = other(word[5])
            else { print; next }
            line = first
            for (k = 2; k <= n; k++) line = line " " word[k]
            print line
        }'
}

# The same in what `sets`, `plan`, `cert` and `check` write, and in a certificate. A number of a set that has no pair is left out.
told_renumbered() {
    awk -v pairs="$1" '
        BEGIN { size = split(pairs, list, " "); for (i = 1; i <= size; i++) { split(list[i], pair, ":"); to[pair[1]] = pair[2] } }
        function set_of(list,    parts, count, i, out) {
            count = split(list, parts, ",")
            for (i = 1; i <= count; i++) if (parts[i] in to) out = out "," to[parts[i]]
            return substr(out, 2)
        }
        function all_sets(text,    out) {
            while (match(text, /[{[][0-9,]+[]}]/)) {
                out = out substr(text, 1, RSTART) set_of(substr(text, RSTART + 1, RLENGTH - 2)) substr(text, RSTART + RLENGTH - 1, 1)
                text = substr(text, RSTART + RLENGTH)
            }
            return out text
        }
        # the keys of an operator and of a ship
        function keys_of(text,    word, count, i, out, among) {
            count = split(text, word, / /)
            for (i = 1; i <= count; i++) {
                if (word[i] == "by" || word[i] == "partition") among = 1
                else if (word[i] == "ship" || word[i] == "estimate") among = 0
                else if (among && word[i] != "=") word[i] = to[word[i]]
                out = out " " word[i]
            }
            return substr(out, 2)
        }
        {
            line = all_sets($0)
            if (line ~ / ship /) line = keys_of(line)
            else if (line ~ / C4 .* [0-9]+$/) { count = split(line, word, " "); sub(/[0-9]+$/, to[word[count]], line) }
            print line
        }'
}

# The pairs the other way round.
turned() { sed -E 's/([0-9]+):([0-9]+)/\2:\1/g' <<<"$1"; }

# What a program of a folder comes to by each command: its status, and the bytes on both streams. By four workers only where there is one answer.
told_by_all() {
    (
        cd "$1" || exit 1
        for command in 'sets' 'plan' 'cert' 'run --counts --workers 1' 'run --counts --local sort'; do
            [ "$command" != 'run --counts --local sort' ] || ! grep -q 'order no$' "$2.sets" || continue
            # shellcheck disable=SC2086
            "$pact" $command "$2" >"$2.${command%% *}" 2>told.err
            echo "$command: $?"
            cat "$2.${command%% *}" told.err
        done
    )
}

# Whether two files are the same but for the version of a certificate.
are_the_same() {
    local file
    for file in "$1" "$2"; do sed 's/"version":[12]}$/"version"}/' "$file" >"$file.unversioned"; done
    is_file "${2##*/}" "$2.unversioned" "$1.unversioned"
}

# Whether two files differ.
differ() { ! cmp -s "$1" "$2"; }

# Whether `check` accepts a certificate, and whether it refuses it for its version: the program, the certificate, the stated version and the program's.
is_accepted() { gives 0 'accepted\n' '' check "$1" "$2"; }
is_of_another() { gives 9 '' "certificate refused: C6\nstated $3\nfound $4\n" check "$1" "$2"; }

# The pairs that move the fields of a program up, so that the last one is field 127.
moved_up() { awk '$1 == "fields" { for (k = 128 - $2; k < 256; k++) printf "%d:%d ", k - 128 + $2, k; exit }' "$1"; }

# Each program of version 1, as it is in version 2, and there with its fields moved up. The commands say the same, and each certificate is of its version.
for folder in one two high low; do
    mkdir -p "$scratch/$folder"
    cp -- *.csv "$scratch/$folder"
done
programs=0
certified=0
for program in *.pact; do
    sed 's/^pact 1$/pact 2/' "$program" >"$scratch/two/$program"
    ! cmp -s "$program" "$scratch/two/$program" || continue
    programs=$((programs + 1))
    moved=$(moved_up "$program")
    cp "$program" "$scratch/one/$program"
    renumbered 2 128 "$moved" <"$program" >"$scratch/high/$program"
    for folder in one two high; do told_by_all "$scratch/$folder" "$program" >"$scratch/told.$folder"; done
    told_renumbered "$(turned "$moved")" <"$scratch/told.high" >"$scratch/told.low"
    if [ "$program" = null.pact ]; then
        # its Match meets Null in its keys, so that its rows are others, and nothing else is
        try differ "$scratch/told.one" "$scratch/told.two"
        for folder in one two low; do sed -i '/^run /,$d' "$scratch/told.$folder"; done
    fi
    try grep -q '^sets: [0-9]' "$scratch/told.one"
    try are_the_same "$scratch/told.one" "$scratch/told.two"
    try are_the_same "$scratch/told.one" "$scratch/told.low"
    [ -s "$scratch/one/$program.cert" ] || continue
    certified=$((certified + 1))
    try is_accepted "two/$program" "two/$program.cert"
    try is_accepted "high/$program" "high/$program.cert"
    try is_of_another "two/$program" "one/$program.cert" 1 2
    try is_of_another "one/$program" "two/$program.cert" 2 1
done
count were_tried $((1 + 3 * programs + 4 * certified))
count test "$certified" -ge 37
# the others are refused, and all are here but those of version 2
count test $((programs - certified)) = "$(find expected -name '*.status' | wc -l)"
count test $((programs + $(grep -lx 'pact 2' -- *.pact | wc -l))) = "$(find . -maxdepth 1 -name '*.pact' | wc -l)"

# One of them to see that its fields were moved: what is found of it, and its certificate.
count gives 0 'r reduce reads {124,125} writes {125,126} control {} touched {124,125,126} emit 1..1 anchor none order yes
m map reads {124} writes {} control {124} touched {124} emit 0..1 anchor none order yes\n' '' sets high/push.pact
tr -d '\n' >"$scratch/push.json" <<'END_OF_TEXT'
{"plan":"r(m(s))","steps":[{"at":"m",
"lower":{"anchor":"none","control":[],"hi":1,"lo":1,"reads":[124,125],"touched":[124,125,126],"writes":[125,126]},"rule":"map-reduce",
"upper":{"anchor":"none","control":[124],"hi":1,"lo":0,"reads":[124],"touched":[124],"writes":[]}}],"version":2}
END_OF_TEXT
echo >>"$scratch/push.json"
count cmp "$scratch/push.json" "$scratch/high/push.pact.cert"

# The other way: programs of version 2 that name few fields, with these numbered from 0 on in version 1. Each row has a program, and the fields in their order.
while IFS='|' read -r program named; do
    pairs=''
    fields=0
    for field in $named; do
        pairs+="$field:$fields "
        fields=$((fields + 1))
    done
    cp "$program" "$scratch/two/$program"
    renumbered 1 "$fields" "$pairs" <"$program" >"$scratch/one/$program"
    for folder in one two; do told_by_all "$scratch/$folder" "$program" >"$scratch/told.$folder"; done
    told_renumbered "$(turned "$pairs")" <"$scratch/told.one" >"$scratch/told.low"
    try grep -q '^run --counts --local sort: 0' "$scratch/told.two"
    try are_the_same "$scratch/told.two" "$scratch/told.low"
    try is_accepted "two/$program" "two/$program.cert"
    try is_of_another "two/$program" "one/$program.cert" 1 2
    try is_of_another "one/$program" "two/$program.cert" 2 1
    # in version 1 it isn't one
    sed 's/^pact 2$/pact 1/' "$program" >"$scratch/low/$program"
    line=$(grep -n '^fields ' "$program")
    for command in run sets plan cert; do try gives 5 '' "low/$program:${line%%:*}: text fault 7\n" "$command" "low/$program"; done
done <<'END_OF_ROWS'
wide.pact|0 100 127
discount.pact|1 2 3 63 64 65 66 100 120 126 127
END_OF_ROWS
count were_tried 18

# Five kinds of operators over fields on either side of the 64th: whichever of the plans that exchanges lead to is chosen, its rows are the same on one worker
# and on four, its certificate is accepted, and it is the plan that is chosen in version 1.
listed_plans=$(head -n 1 expected/discount.plan)
listed_plans=${listed_plans//[^0-9]/}
pairs='1:0 2:1 3:2 63:3 64:4 65:5 66:6 100:7 120:8 126:9 127:10'
for ((plans = 1; plans <= listed_plans; plans++)); do
    for workers in 1 4; do
        "$pact" cert discount.pact --plans "$plans" --workers "$workers" >"$scratch/chosen.$plans.$workers.json"
        try is_accepted two/discount.pact "chosen.$plans.$workers.json"
        try writes 0 expected/discount.stdout /dev/null run discount.pact --plans "$plans" --workers "$workers" --batch 2
        (cd "$scratch/one" && "$pact" plan discount.pact --plans "$plans" --workers "$workers") | told_renumbered "$(turned "$pairs")" >"$scratch/told.low"
        try writes 0 "$scratch/told.low" /dev/null plan discount.pact --plans "$plans" --workers "$workers"
    done
done
count were_tried $((6 * listed_plans))
count writes 0 certificates/discount.good.json /dev/null cert discount.pact
count test "$listed_plans" = 18
count test "$(sha256sum "$scratch"/chosen.*.json | cut -d ' ' -f 1 | sort -u | wc -l)" -ge 6

# ---- Certificates

# Each certificate of version 1, for its program in either version, and with the other version in it: that is told before whatever else is wrong. With its
# program's version it is as good or bad as before, also with the fields moved up.
certificates=0
for certificate in certificates/*.json; do
    grep -q '"version": *1' "$certificate" || continue
    certificates=$((certificates + 1))
    name=$(basename "$certificate" .json)
    program=${name%%.*}.pact
    tr -d ' \n' <"$certificate" >"$scratch/first.json"
    sed 's/"version":1/"version":2/' "$scratch/first.json" >"$scratch/second.json"
    moved=$(moved_up "$program")
    told_renumbered "$moved" <"$scratch/second.json" >"$scratch/moved.json"
    try is_of_another "two/$program" first.json 1 2
    try is_of_another "one/$program" second.json 2 1
    told=expected/certificates/$name.stderr
    if [ -f "$told" ]; then
        try writes 9 /dev/null "$told" check "$scratch/two/$program" "$scratch/second.json"
        told_renumbered "$moved" <"$told" >"$scratch/told.moved"
        try writes 9 /dev/null "$scratch/told.moved" check "$scratch/high/$program" "$scratch/moved.json"
    else
        try is_accepted "two/$program" second.json
        try is_accepted "high/$program" moved.json
    fi
done
count were_tried $((4 * certificates))
count test "$certificates" -ge 11
count test "$(cat expected/certificates/*.stderr | grep -o 'C[1-6]' | sort -u | tr -d '\n')" = C1C2C3C4C5C6
# the field that is told of one of them, which is field 2 of seven
sed 's/"version":1/"version":2/' certificates/shop.c4.json | told_renumbered "$(moved_up shop.pact)" >"$scratch/moved.json"
count gives 9 '' 'certificate refused: step 1: C4 side 123\n' check high/shop.pact moved.json

# Where there is no step: the line of the plan as written, another one, and none. Each row has the plan line, and what is told of it in the program's version.
while IFS='|' read -r plan told; do
    for version in 1 2; do
        printf '{"plan":"%s","steps":[],"version":%d}' "$plan" "$version" >"$scratch/no_step.json"
        folder=one other=two
        [ "$version" = 1 ] || folder=two other=one
        if [ "$told" = accepted ]; then
            try is_accepted "$folder/push.pact" no_step.json
        else
            try gives 9 '' "$told\n" check "$folder/push.pact" no_step.json
        fi
        try is_of_another "$other/push.pact" no_step.json "$version" $((3 - version))
    done
done <<'END_OF_ROWS'
m(r(s))|accepted
r(m(s))|certificate refused: C5\nstated r(m(s))\nfound m(r(s))
|certificate refused: C5\nstated \nfound m(r(s))
END_OF_ROWS
count were_tried 12
count is_of_another two/filter.pact first.json 1 2   # another program's

# What stands for the version and is none.
none='certificate refused: not a certificate\n'
while IFS= read -r change; do
    sed "$change" certificates/push.good.json >"$scratch/changed.json"
    ! cmp -s "$scratch/changed.json" certificates/push.good.json || continue
    for folder in one two; do try gives 9 '' "$none" check "$folder/push.pact" changed.json; done
done <<'END_OF_ROWS'
s/,"version":1//
s/"version":1/"version":0/
s/"version":1/"version":3/
s/"version":1/"version":-1/
s/"version":1/"version":-2/
s/"version":1/"version":2.0/
s/"version":1/"version":2e0/
s/"version":1/"version":02/
s/"version":1/"version":"1"/
s/"version":1/"version":"2"/
s/"version":1/"version":"pact 2"/
s/"version":1/"version":null/
s/"version":1/"version":true/
s/"version":1/"version":[2]/
s/"version":1/"version":{}/
s/"version":1/"version":22/
s/"version":1/"version":258/
s/"version":1/"version":4294967298/
s/"version":1/"version":18446744073709551618/
s/"version":1/"version":2,"version":3/
s/"version":1/"version":1e999,"version":2/
s/"version":1/"versions":2/
END_OF_ROWS
count were_tried 44
# of a key that comes twice the last one counts
sed 's/"version":1/"version":3,"version":2/' certificates/push.good.json >"$scratch/changed.json"
count is_accepted two/push.pact changed.json
count is_of_another one/push.pact changed.json 2 1
sed 's/"version":1/"version":2,"version":1/' certificates/push.good.json >"$scratch/changed.json"
count is_accepted one/push.pact changed.json
count is_of_another two/push.pact changed.json 1 2

# A field of a stated set is below 64 in version 1 and below 128 in version 2. Whether a list is refused in a set of an operator, for the shape (`none`), which
# comes before the version, or by C3 and in a program of the other version by C6: the certificate's version, the list, the set, and the operator.
found_lower='reads {0,1} writes {1,2} control {} touched {0,1,2} emit 1..1 anchor none'
found_upper='reads {0} writes {} control {0} touched {0} emit 0..1 anchor none'
# shellcheck disable=SC2001
is_stated() {
    local outcome=$1 version=$2 list=$3 key=$4 operator=$5 folder=one other=two number=1 lower=$found_lower upper=$found_upper
    [ "$version" = 1 ] || folder=two other=one
    [ "$operator" = lower ] || number=2
    sed "s/\"$key\":\[[0-9,]*\]/\"$key\":[$list]/$number; s/\"version\":1/\"version\":$version/" certificates/push.good.json >"$scratch/stated.json"
    if [ "$outcome" = none ]; then
        gives 9 '' "$none" check "$folder/push.pact" stated.json && gives 9 '' "$none" check "$other/push.pact" stated.json
        return
    fi
    if [ "$operator" = lower ]; then
        lower=$(sed "s/$key {[0-9,]*}/$key {$list}/" <<<"$lower")
    else
        upper=$(sed "s/$key {[0-9,]*}/$key {$list}/" <<<"$upper")
    fi
    gives 9 '' "certificate refused: step 1: C3\nstated upper $upper\nstated lower $lower\nfound upper $found_upper\nfound lower $found_lower\n" \
        check "$folder/push.pact" stated.json && is_of_another "$other/push.pact" stated.json "$version" $((3 - version))
}
while IFS='|' read -r version list outcome; do
    for key in control reads touched writes; do
        for operator in lower upper; do try is_stated "$outcome" "$version" "$list" "$key" "$operator"; done
    done
done <<'END_OF_ROWS'
1|63|told
1|64|none
1|127|none
2|64|told
2|127|told
2|128|none
END_OF_ROWS
count were_tried 48
all_of_127=$(seq -s , 0 126)
while IFS='|' read -r version list outcome; do
    try is_stated "$outcome" "$version" "$list" touched lower
done <<END_OF_ROWS
1|0,62,63|told
1|0,63,64|none
1|128|none
2|63|told
2|0,63,64,126,127|told
2|$all_of_127|told
2|$all_of_127,127|told
2|$all_of_127,127,128|none
2|127,126|none
2|64,64|none
2|127,0|none
2|191|none
2|255|none
2|256|none
2|4294967296|none
END_OF_ROWS
count were_tried 15

# Stated and found: three Maps that write the fields 127, 64 and 63, of which the upper one moves down twice.
{
    printf 'pact 2\nfields 128\nsource s s.csv int:0\n'
    for field in 127 64 63; do printf 'function f%d map\n  r0 = copy in\n  set r0 %d v0\n  emit r0\nend\n' "$field" "$field"; done
    printf 'map c f63 s\nmap b f64 c\nmap a f127 b\nsink a 63 64 127\n'
} >"$scratch/tops.pact"
writer() { printf '{"anchor":"none","control":[],"hi":1,"lo":1,"reads":[],"touched":[%d],"writes":[%d]}' "$1" "$1"; }
printf '{"plan":"b(c(a(s)))","steps":[{"at":"a","lower":%s,"rule":"map-map","upper":%s},{"at":"a","lower":%s,"rule":"map-map","upper":%s}],"version":2}' \
    "$(writer 64)" "$(writer 127)" "$(writer 63)" "$(writer 127)" >"$scratch/tops.json"
count is_accepted tops.pact tops.json
# where two of them write field 127 they may not be exchanged, and that one is told
sed 's/ 64 v0/ 127 v0/; s/ 63 64 127$/ 63 127/' "$scratch/tops.pact" >"$scratch/conflict.pact"
sed 's/\[64\]/[127]/g' "$scratch/tops.json" >"$scratch/conflict.json"
count gives 9 '' 'certificate refused: step 1: C4 conflict write-write 127\n' check conflict.pact conflict.json
