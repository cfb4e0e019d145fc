# Each case of docs/faults.md: what `pact` prints, that `explain` explains it, and that what the page says to write instead isn't refused so.

explains=${PACT_EXPLAIN:-$PWD/../release/pact_explain}
faults=$scratch/faults
mkdir -p "$faults/sub"

# Of each row of its tables: where the lines stand, what is told, what is written, what instead, and for which part of it. Of what is written the last words
# between backticks count, of what stands instead the first, and two with `for` between them say that one takes the place of the other. A case that has
# none is made by its words.
awk -v FS=' [|] ' '
    function last_code(cell,    parts, count) { count = split(cell, parts, "`"); return count < 3 ? "" : parts[count % 2 ? count - 1 : count - 2] }
    /^```/ { fenced = !fenced }
    fenced || !/^\| / { next }
    { sub(/^\| /, ""); sub(/ \|$/, "") }
    $NF == "Instead" { where = $1; sub(/: `.*/, "", where); told = last_code($1); next }
    {
        written = last_code($1)
        if (written == "") written = "the words: " $1
        split($2, parts, "`")
        instead = parts[2]
        replaced = $2 ~ /^`[^`]*` for `[^`]*`$/ ? parts[4] : ""
        print where "\t" told "\t" written "\t" instead "\t" replaced
    }' ../docs/faults.md >"$scratch/fault_cases"

# So many lines of these words.
lines_repeated() {
    awk -v times="$1" -v words="$2" 'BEGIN { for (i = 1; i <= times; i++) print words }'
}

# What a case without lines has for its words.
made_by_words() {
    case $1 in
    'nine ifs, one in the other') lines_repeated 9 'if v0' && lines_repeated 9 end ;;
    '1,001 statements') lines_repeated 1001 'emit r0' ;;
    '17 maps in a row')
        awk 'BEGIN { before = "s"; for (i = 1; i <= 17; i++) { print "map m" i " f " before; before = "m" i } print "cross x c m17 t\nsink x 0" }'
        ;;
    'a text of 4,097 bytes') printf '1,' && printf '%4097s' '' | tr ' ' a ;;
    'a program of 1,048,577 bytes') head -c 1048577 /dev/zero | tr '\0' '#' ;;
    *) return 1 ;;
    esac
}

# The lines of a case, with the bytes that its signs stand for.
lines_of_case() {
    local lines=$1
    if [[ $lines == 'the words: '* ]]; then
        made_by_words "${lines#the words: }"
        return
    fi
    lines=${lines// \/ /$'\n'}
    lines=${lines//\\r/$'\r'}
    lines=${lines//\\xE9/$'\xE9'}
    printf '%s\n' "${lines//\\xEF\\xBB\\xBF/$'\xEF\xBB\xBF'}"
}

# The program, or the rows of the program, that a case makes at its place.
make_case() {
    local kind operator='map m f s' sources='source s s.csv int:0 int:1'
    if [[ $1 == *' of version 2' ]]; then
        make_case "${1% of version 2}" "$2" && sed -i 's/^pact 1$/pact 2/' "$faults/m.pact"
        return
    fi
    case $1 in
    'In a '*)
        kind=${1#In a }
        case $kind in
        reduce) kind='reduce 1' operator='reduce m f s by 0' ;;
        match) operator=$'source t t.csv int:2 int:3\nmatch m f s t by 0 = 2' ;;
        cogroup) kind='cogroup 1' operator=$'source t t.csv int:2 int:3\ncogroup m f s t by 0 = 2' ;;
        esac
        printf 'pact 1\nfields 4\n%s\nfunction f %s\n%s\nend\n%s\nsink m 0 1\n' "$sources" "$kind" "$(lines_of_case "$2")" "$operator" >"$faults/m.pact"
        ;;
    'As declarations')
        printf 'pact 1\nfields 8\n%s\nsource t t.csv int:2 int:3\n%s\n' "$sources" "$(lines_of_case "$2")" >"$faults/m.pact"
        printf 'function %s\nend\n' 'f map' 'g reduce 1' 'h match' 'c cross' 'k cogroup 1' >>"$faults/m.pact"
        ;;
    'As a text') lines_of_case "$2" >"$faults/m.pact" ;;
    "At a text's end") printf 'pact 1\nfields 4\n%s\n' "$(lines_of_case "$2")" >"$faults/m.pact" ;;
    'As rows' | 'As a command')
        printf 'pact 1\nfields 2\nsource s s.csv int:0 text:1\nfunction f map\nr0 = copy in\nemit r0\nend\nmap m f s\nsink m 0 1\n' >"$faults/m.pact"
        sed 's/s\.csv/t.csv/' "$faults/m.pact" >"$faults/sub/n.pact"
        printf '{"plan":"m(s)","steps":[],"version":1}' >"$faults/m.json"
        echo 1,a >"$faults/s.csv"
        echo 1,a >"$faults/sub/t.csv"
        [ "$1" != 'As rows' ] || lines_of_case "$2" >"$faults/s.csv"
        [[ $2 != 'the words: a program '* ]] || lines_of_case "$2" >"$faults/m.pact"
        ;;
    "In \`examples/\`") ;;
    *) return 1 ;;
    esac
}

# Runs a case at its place by a program, and ends with its status; what it writes on its streams is kept: the program, the place and the words.
run_case() {
    local started=$1 words=sets
    shift
    case $1 in
    'As rows') words=run ;;
    'As a command' | "In \`examples/\`")
        words='pact run m.pact'
        [[ $2 != 'pact '* && $2 != 'cd '* ]] || words=$2
        (
            [ "$1" != 'As a command' ] || cd "$faults" || exit 1
            # shellcheck disable=SC2317
            pact() { "$started" "$@"; }
            eval "$words"
        ) >"$scratch/out" 2>"$scratch/err"
        return
        ;;
    esac
    (cd "$faults" && "$started" "$words" m.pact >"$scratch/out" 2>"$scratch/err")
}

# Whether a case is refused with this line, which a certificate's refusal may have more lines behind.
is_told() {
    make_case "$1" "$3" && ! run_case "$pact" "$1" "$3" || return 1
    is_file 'standard output' "$scratch/out" /dev/null && is_text 'the first line on standard error' "$(head -n 1 "$scratch/err")" "$2" || return 1
    [[ $2 == *'C3' || $2 == *'C5' || $2 == *'C6' ]] || [ "$(wc -l <"$scratch/err")" -eq 1 ]
}

# Whether the program that explains has the status of `pact` for a case, and begins with all that `pact` prints. For a fault of a text, the place, the line
# and marks follow.
is_explained() {
    local status place
    make_case "$1" "$3" || return 1
    run_case "$pact" "$1" "$3"
    status=$?
    mv "$scratch/err" "$scratch/printed"
    run_case "$explains" "$1" "$3"
    is_status $? "$status" && is_file 'standard error' "$scratch/err" /dev/null || return 1
    head -c "$(wc -c <"$scratch/printed")" "$scratch/out" >"$scratch/begun"
    is_file "the first lines of the explanation" "$scratch/begun" "$scratch/printed" || return 1
    [[ $2 == *': text fault '* ]] || return 0
    { read -r && read -r place && read -r && IFS= read -r; } <"$scratch/out" || return 1
    [[ $place =~ ^"${2%%: *}":[0-9]+$ && $REPLY =~ ^\ {4}[[:blank:]]*\^+$ ]]
}

# Whether what stands instead isn't refused so: a text may yet break a rule, since it is a part of a program.
is_mended() {
    local status instead=$4
    if [ -n "$5" ]; then
        [[ $3 == *"$5"* ]] || return 1
        instead=${3/"$5"/$4}
    fi
    make_case "$1" "$instead" || return 1
    run_case "$pact" "$1" "$instead"
    status=$?
    if [[ $2 == *': text fault '* ]]; then
        [ "$status" = 0 ] || [ "$status" = 6 ]
    else
        [ "$status" = 0 ]
    fi
}

while IFS='|' read -r where told written instead replaced; do
    count is_told "$where" "$told" "$written"
    # Nothing is run, so `explain` can't know that standard output is full.
    [ "$told" = 'cannot write' ] || count is_explained "$where" "$told" "$written"
    [ -z "$instead" ] || count is_mended "$where" "$told" "$written" "$instead" "$replaced"
done < <(tr '\t' '|' <"$scratch/fault_cases")

# Every refusal that there is has a section of its own.
has_section() {
    grep -qxF "### $1" ../docs/faults.md
}
for number in {1..12}; do count has_section "Text fault $number"; done
for number in {1..8}; do count has_section "V$number"; done
for number in {1..11}; do count has_section "P$number"; done
for number in {1..4}; do count has_section "Row fault $number"; done
for number in {1..9} 127; do count has_section "Status $number"; done
for number in {1..6}; do count has_section "Certificate fault C$number"; done
count has_section 'Certificate: the shape'

# The commands and options of status 2 are those of docs/commands.md.
while IFS= read -r line; do
    case $line in
    *': no value') row="| \`${line%%:*}\` | none |" ;;
    --*)
        row="| \`${line%% *}\` | ${line#*: } |"
        row=${row/, by default / | }
        ;;
    *) row="| \`$line\` |" ;;
    esac
    count grep -qF "$row" ../docs/commands.md
done < <(awk '/^### / { inside = $0 == "### Status 2" } /^```/ { fenced = !fenced; next } inside && fenced' ../docs/faults.md)
