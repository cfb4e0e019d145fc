# The examples of statements that docs/language.md shows: a body of a map over one row, and the rows that are written.

statement_program() {
    printf 'pact 2\nfields 4\nsource s row.csv int:0 text:1\nfunction f map\n'
    printf '%s\n' "${1// \/ /$'\n'}"
    printf 'end\nmap m f s\nsink m 0 1 2 3\n'
}
examples_of_statements() {
    awk '/^##/ { inside = $0 == "### Examples of statements" } inside && /^\| [`t]/' ../docs/language.md
}
gives_shown_rows() { # body, row, rows
    statement_program "$1" >"$scratch/statement.pact"
    printf '%s\n' "$2" >"$scratch/row.csv"
    printf '%s' "$3" >"$scratch/rows"
    (cd "$scratch" && "$pact" run statement.pact >out 2>err)
    came_to_files $? 0 "$scratch/rows" /dev/null
}
body=
examples=0
while IFS='|' read -r _ new row rows _; do
    new=${new# } new=${new% } row=${row//[\` ]/} rows=${rows# } rows=${rows% }
    if [ "$new" != 'the same' ]; then body=${new#\`} body=${body%\`}; fi
    wanted=
    if [ "$rows" != none ]; then wanted=$(sed 's/` and `/\n/g; s/`//g' <<<"$rows")$'\n'; fi
    count gives_shown_rows "$body" "$row" "$wanted"
    examples=$((examples + 1))
done < <(examples_of_statements)
count test "$examples" -ge 16
