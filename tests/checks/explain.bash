# What `explain` says of a refusal: the place, the marked word, what is wrong, and what may be there instead.

explain=$PWD/../explain
export PACT_EXPLAIN=${PACT_EXPLAIN:-$PWD/../release/pact_explain}
mistakes=$scratch/mistakes
mkdir -p "$mistakes"

# A program, or rows, with these lines (escapes stand for bytes) at their place: all of the text, a function's from line 5 on, declarations from line 5 on, or
# the rows of a number and a text.
make_told() {
    rm -rf "$mistakes"
    mkdir -p "$mistakes"
    case $1 in
    text) printf '%b' "$2" >"$mistakes/m.pact" ;;
    map) printf 'pact 1\nfields 4\nsource s s.csv int:0 int:1\nfunction f map\n%b\nend\nmap m f s\nsink m 0 1\n' "$2" >"$mistakes/m.pact" ;;
    map2) printf 'pact 2\nfields 4\nsource s s.csv int:0 int:1\nfunction f map\n%b\nend\nmap m f s\nsink m 0 1\n' "$2" >"$mistakes/m.pact" ;;
    reduce) printf 'pact 1\nfields 4\nsource s s.csv int:0 int:1\nfunction f reduce 1\n%b\nend\nreduce m f s by 0\nsink m 0 1\n' "$2" >"$mistakes/m.pact" ;;
    texts) printf 'pact 1\nfields 4\nsource s s.csv text:0 int:1\nfunction f map\n%b\nend\nmap m f s\nsink m 0 1\n' "$2" >"$mistakes/m.pact" ;;
    match) printf 'pact 1\nfields 4\nsource s s.csv int:0 int:1\nsource t t.csv int:2 int:3\nfunction f match\n%b\nend\nmatch m f s t by 0 = 2\nsink m 0 1\n' "$2" >"$mistakes/m.pact" ;;
    cogroup) printf 'pact 1\nfields 4\nsource s s.csv int:0 int:1\nsource t t.csv int:2 int:3\nfunction f cogroup 1\n%b\nend\ncogroup m f s t by 0 = 2\nsink m 0 1\n' "$2" >"$mistakes/m.pact" ;;
    cross) printf 'pact 1\nfields 4\nsource s s.csv int:0\nsource t t.csv int:1\nfunction f cross\n%b\nend\ncross m f s t\nsink m 0 1\n' "$2" >"$mistakes/m.pact" ;;
    program)
        printf 'pact 1\nfields 8\nsource s s.csv int:0 int:1\nsource t t.csv int:2 int:3\n%b\n' "$2" >"$mistakes/m.pact"
        printf 'function %s\nend\n' 'f map' 'g reduce 1' 'h match' 'c cross' 'k cogroup 1' >>"$mistakes/m.pact"
        ;;
    words)
        printf 'pact 1\nfields 2\nsource s s.csv text:0 text:1\nfunction f map\nr0 = copy in\nemit r0\nend\nmap m f s\nsink m 0 1\n' >"$mistakes/m.pact"
        printf '%b' "$2" >"$mistakes/s.csv"
        ;;
    rows)
        printf 'pact 1\nfields 2\nsource s s.csv int:0 text:1\nfunction f map\nend\nmap m f s\nsink m 0\n' >"$mistakes/m.pact"
        printf '%b' "$2" >"$mistakes/s.csv"
        ;;
    esac
}

# Whether the text is one of the lines that were said, or the beginning of one.
is_said() {
    [[ $said == *$'\n'"$1"* ]] || other_text 'the lines of the explanation' "$said" "$1"
}

# The word over the marks of the place that was said first.
marked_word() {
    awk -v place="$1" '
        seen && ++after == 1 { line = $0 }
        seen && after == 2 { if (match($0, /\^+/)) print substr(line, RSTART, RLENGTH); exit }
        $0 == place { seen = 1 }' <<<"$said"
}

# Whether `explain` with these words of pact says first what pact prints on standard error, with the same status.
foretells() {
    local status
    (cd "$mistakes" && "$pact" "$@" >/dev/null 2>"$scratch/err")
    status=$?
    said=$'\n'$(cd "$mistakes" && "$explain" "$@")
    is_status $? "$status" && { [[ $said == $'\n'"$(<"$scratch/err")"* ]] || other_text 'the lines of the explanation' "$said" "$(<"$scratch/err")"; }
}

# Whether pact tells this line of a program, and explain says it first, then the place, the line with marks under this word, and these words.
explains() {
    make_told "$1" "$2"
    foretells run m.pact && is_said "$3" && is_said "$4" && is_text 'the marked word' "$(marked_word "$4")" "$5" && is_said "$6" &&
        is_said 'docs/faults.md, "'
}

# Each row has the place, the lines there, what is told of them, where that is, the word that is marked, and a line or the beginning of one that is said.
while IFS='|' read -r where lines refusal place word words; do
    count explains "$where" "$lines" "$refusal" "$place" "$word" "$words"
done <<'END'
map|# caf\xE9|m.pact:5: text fault 1|m.pact:5:6|\xE9|save the file as UTF-8
map|emit r0\rend|m.pact:5: text fault 1|m.pact:5:8||a carriage return is allowed only at the end of a line
map|v0 = null\nv1 = text "C:\\data"|m.pact:6: text fault 2|m.pact:6:11|"C:\data"|unknown escape after a backslash: the escapes are \\ \" \n \r \t, and a backslash is written \\
map|v0 = text "a|m.pact:5: text fault 2|m.pact:5:11|"a|the literal isn't closed: its closing " is missing
map|v0 = text "a"b|m.pact:5: text fault 2|m.pact:5:11|"a"b|a blank, # or the line's end must follow the closing "; a " inside a literal is written \"
map|return r0|m.pact:5: text fault 3|m.pact:5:1|return|expected: set, emit, if, end, repeat, each, a value register (v0 to v31) or a record register (r0 to r7)
map|  if v0\n    repeat 2\n    end|m.pact:9: text fault 3|m.pact:9:1|map|a function is still open here: an end is missing above
map|  if v0\n    repeat 2\n    end|m.pact:9: text fault 3|m.pact:9:1|map|the end on line 8 closes the if on line 5, but isn't indented like it
map|if v0\n  if v1\n    if v2\n    end|m.pact:10: text fault 3|m.pact:10:1|map|a function is still open here: an end is missing above
program|filter m f s|m.pact:5: text fault 3|m.pact:5:1|filter|expected: source, function, map, match, cross, reduce, cogroup or sink
program|function a map\nif v0\nend\nend\nemit r0|m.pact:9: text fault 3|m.pact:9:1|emit|the end on line 8 closes the function on line 5
map|v0 = get in|m.pact:5: text fault 4|m.pact:5:12||expected: a field (0 to 3)
program|source u u.csv|m.pact:5: text fault 4|m.pact:5:15||such a line is written: source NAME FILE COLUMN ..
program|match j h s t by 0|m.pact:5: text fault 4|m.pact:5:19||expected: = or a field (0 to 7)
map|if v0 > v1|m.pact:5: text fault 5|m.pact:5:7|>|an if takes one register; compare on a line before it, such as: v2 = lt v0 v1
map|if v0\nend if|m.pact:6: text fault 5|m.pact:6:5|if|expected: the line's end
program|source U u.csv int:4|m.pact:5: text fault 6|m.pact:5:8|U|cure: source u u.csv int:4
program|source u "u.csv" int:4|m.pact:5: text fault 6|m.pact:5:10|"u.csv"|expected: a file name (letters, digits and . _ - /, at most 200 in all)
map|v0 = int 5.0|m.pact:5: text fault 7|m.pact:5:10|5.0|expected: a whole number (-9223372036854775808 to 9223372036854775807)
map|v0 = int 9223372036854775808|m.pact:5: text fault 7|m.pact:5:10|9223372036854775808|expected: a whole number (-9223372036854775808 to 9223372036854775807)
map|v256 = null|m.pact:5: text fault 7|m.pact:5:1|v256|expected: set, emit, if, end, repeat, each, a value register (v0 to v31) or a record register (r0 to r7)
program|reduce r g s by 0, 1|m.pact:5: text fault 7|m.pact:5:17|0,|cure: reduce r g s by 0 1
text|pact 1\nfields 65\n|m.pact:2: text fault 7|m.pact:2:8|65|expected: a number of fields (1 to 64, or with `pact 2` 1 to 128)
text|pact 2\nfields 129\n|m.pact:2: text fault 7|m.pact:2:8|129|expected: a number, 1 to 128
map|v0 = copy in|m.pact:5: text fault 8|m.pact:5:6|copy|such a line is written: rD = copy REC
map|v0 = add v0 1|m.pact:5: text fault 8|m.pact:5:13|1|expected: a value register (v0 to v31)
map|v0 = lt v0 -10|m.pact:5: text fault 8|m.pact:5:12|-10|if a constant is meant, put it in a register on a line before: v5 = int 10
map|set r0 1 5|m.pact:5: text fault 8|m.pact:5:10|5|if a constant is meant, put it in a register on a line before: v5 = int 10
map|set r0, 1, v0|m.pact:5: text fault 8|m.pact:5:5|r0,|words are separated by blanks, not by commas or semicolons
map|v0 = in 0|m.pact:5: text fault 9|m.pact:5:6|in|to read a field of a record, use get: vD = get REC N
map|v0 = text 'a'|m.pact:5: text fault 8|m.pact:5:11|'a'|expected: a literal between " and "
reduce|each x1 in group\nend|m.pact:5: text fault 8|m.pact:5:9|in|expected: of
map|v0 = get in @v1|m.pact:5: text fault 7|m.pact:5:13|@v1|an @ is allowed only right before a value register, where a field is expected, and only with `pact 2`
map2|v0 = get in v1|m.pact:5: text fault 7|m.pact:5:13|v1|such a line is written: vD = get REC N, or with `pact 2` vD = get REC @vA
map2|set r0 @v256 v1|m.pact:5: text fault 7|m.pact:5:8|@v256|such a line is written: set rD N vA, or with `pact 2` set rD @vA vB
map2|set r0 @r1 v1|m.pact:5: text fault 8|m.pact:5:8|@r1|expected: a field (0 to 3) or a value register right after the @ (@v0 to @v31)
map2|v0 = get in @ v1|m.pact:5: text fault 8|m.pact:5:13|@|expected: a field (0 to 3) or a value register right after the @ (@v0 to @v31)
map2|set r0 1 @v0|m.pact:5: text fault 8|m.pact:5:10|@v0|an @ is allowed only right before a value register, where a field is expected, and only with `pact 2`
map2|v0 = get in @v1 v2|m.pact:5: text fault 5|m.pact:5:17|v2|cure: v0 = get in @v1
map|\tv0 = 5 # five|m.pact:5: text fault 9|m.pact:5:7|5|cure: v0 = int 5 # five
program|function a filter|m.pact:5: text fault 9|m.pact:5:12|filter|a function that filters is a map
map|if v0\nemit r0|m.pact:8: text fault 3|m.pact:8:1|map|the end on line 7 closes the if on line 5
map|v0 = gt v1 v2|m.pact:5: text fault 9|m.pact:5:6|gt|for greater than, use lt with the operands swapped
map|v0 = "a b"|m.pact:5: text fault 9|m.pact:5:6|"a b"|cure: v0 = text "a b"
map|emit in|m.pact:5: text fault 8|m.pact:5:6|in|this record can't be changed or emitted, but a copy of it can: r0 = copy REC
cross|emit join|m.pact:6: text fault 8|m.pact:6:6|join|this record can't be changed or emitted, but a copy of it can: r0 = copy REC
reduce|each x1 of group\nemit x1|m.pact:6: text fault 8|m.pact:6:6|x1|this record can't be changed or emitted, but a copy of it can: r0 = copy REC
map|if v0\nelse if v1|m.pact:6: text fault 5|m.pact:6:6|if|write the if on a line of its own inside the else, with its own end
map|r0 2 = v1|m.pact:5: text fault 8|m.pact:5:4|2|such a line is written: vD = FORM .. or rD = FORM ..; the table "Statements" in docs/language.md has the forms
map|set r0 v1 2|m.pact:5: text fault 7|m.pact:5:8|v1|expected: a field (0 to 3)
map2|set 2 r0 v1|m.pact:5: text fault 8|m.pact:5:5|2|cure: set r0 2 v1
map|set v1 2 r0|m.pact:5: text fault 8|m.pact:5:5|v1|cure: set r0 2 v1
map|emit r0 -- done|m.pact:5: text fault 5|m.pact:5:9|--|a comment begins with #
map|v0 = get in 1 //amount|m.pact:5: text fault 5|m.pact:5:15|//amount|a comment begins with #
program|source u u.csv int:4 // more|m.pact:5: text fault 8|m.pact:5:22|//|expected: a column (int:N or text:N with a field N) or the line's end
map|Emit r0|m.pact:5: text fault 3|m.pact:5:1|Emit|cure: emit r0
text|pact 1\nfields 4\nfunction a map\nif v0\nrepeat 2\nend\n# the end\n|m.pact:7: text fault 10|m.pact:7:10||still open here: line 3, function a map
text|pact 1\nfields 4\nfunction a map|m.pact:3: text fault 10|m.pact:3:15||still open here: line 3, function a map
map|if v0\nrepeat 2\nelse|m.pact:7: text fault 10|m.pact:7:1|else|still open here: line 6, repeat 2
map|if v0\nelse\nelse|m.pact:7: text fault 10|m.pact:7:1|else|cure: delete the line
map|end|m.pact:6: text fault 10|m.pact:6:1|end|the end on line 5 closes the function on line 4
reduce|each x1 of group\neach x1 of group|m.pact:6: text fault 11|m.pact:6:6|x1|still open here: line 5, each x1 of group
reduce|if v0\neach x1 of group\neach x2 of group\nif v1\nelse\nend\neach x2 of group|m.pact:11: text fault 11|m.pact:11:6|x2|still open here: line 7, each x2 of group
text|# no version\n\nfields 4\n|m.pact:3: text fault 12|m.pact:3:1|fields|a program begins with the line `pact 1` or `pact 2`, and then the line `fields F`
text|pact 3\nfields 4\n|m.pact:1: text fault 12|m.pact:1:6|3|expected: a number, 1 to 2
text|pact 2|m.pact:1: text fault 12|m.pact:1:7||the text ends here
text|pact 2\nfields 100\nsource s s.csv int:99\nfunction f map\nv0 = get in 99\nset r0 100 v0\nend\nmap m f s\nsink m 0|function f: V3 at statement 1|m.pact:6:8|100|field 100: records have 100 fields (line 2), numbered 0 to 99
text|pact 2\nfields 100\nsource s s.csv int:99\nsink s 100|s: P10|m.pact:4:8|100|field 100: records have 100 fields (line 2), numbered 0 to 99
text||m.pact:1: text fault 12|m.pact:1:1||the file is empty
text|\xEF\xBB\xBFpact 1\n|m.pact:1: text fault 12|m.pact:1:1|﻿pa|the file begins with a byte-order mark: save it without one
text|pact 1\n# more\n|m.pact:2: text fault 12|m.pact:2:7||the text ends here
map|v0 = null\nv32 = null|function f: V1 at statement 1|m.pact:6:1|v32|v32: value registers are v0 to v31
map2|v0 = null\nset r0 @v32 v0|function f: V1 at statement 1|m.pact:6:8|@v32|@v32: value registers are v0 to v31
map2|set r0 @v0 v1\nset r0 4 v1|function f: V3 at statement 1|m.pact:6:8|4|field 4: records have 4 fields (line 2), numbered 0 to 3
map|r8 = new|function f: V1 at statement 0|m.pact:5:1|r8|r8: record registers are r0 to r7
map|if v0\n\n# one\nelse\nv0 = get left 0\nend|function f: V2 at statement 1|m.pact:9:10|left|left: a function of kind map has the record in and no list
reduce|each x1 of group\nend\nr0 = copy x1|function f: V2 at statement 1|m.pact:7:11|x1|x1: this line isn't inside an each of that name
cross|v0 = key 0|function f: V2 at statement 0|m.pact:6:6|key|key: a function of kind cross has no key; only reduce and cogroup have one
map|v0 = text "a # b"\r\n\r\nset r0 4 v0\r|function f: V3 at statement 1|m.pact:7:8|4|field 4: records have 4 fields (line 2), numbered 0 to 3
reduce|v0 = key 1|function f: V4 at statement 0|m.pact:5:10|1|position 1: the function is written for 1 key; positions count from 0
map|if v0\nif v0\nif v0\nif v0\nif v0\nif v0\nif v0\nif v0\nif v0\nend\nend\nend\nend\nend\nend\nend\nend\nend|function f: V5 at statement 8|m.pact:13:1|if|it is nested in: if on line 5, if on line 6, if on line 7, if on line 8, if on line 9, if on line 10, if on line 11, if on line 12
reduce|repeat 2\neach x1 of group\nrepeat 2\nif v0\nrepeat 2\nend\nend\nend\nend\nend|function f: V6 at statement 4|m.pact:9:1|repeat|it is nested in: repeat on line 5, each on line 6, repeat on line 7, if on line 8
map|repeat 1000\nrepeat 101\nend\nend|function f: V8 at statement 1|m.pact:6:8|101|1000 turns around it, times 101, come to 101000: the most is 100000
program|cross x cc s t\nsink x 0|x: P1|m.pact:5:9|cc|no function is called cc; there are: f g h c k
program|cross x c s t\nsink out 0|out: P1|m.pact:6:6|out|no source or operator is called out; there are: s t x
program|function f map\nend\ncross x c s t\nsink x 0|f: P2|m.pact:5:10|f|line 9 also declares the name f; rename one of the two
program|cross x f s t\nsink x 0|x: P3|m.pact:5:9|f|function f (line 7) has the kind map, and this operator is a cross; functions of that kind: c
program|reduce r g s by 0 1\ncross x c r t\nsink x 0|r: P4|m.pact:5:17|0 1|function g (line 10) is written for 1 key, and the list after by has 2
program|match j h s t by 2 = 0\nsink j 0|j: P5|m.pact:5:18|2|field 2 isn't an attribute of the input s; its attributes are: 0 1
text|pact 2\nfields 4\nsource s s.csv int:0 int:1\nsource t t.csv int:2\nfunction a map\nset r0 @v0 v1\nend\nfunction c cross\nend\nmap m a s\ncross x c m t\nsink x 0\n|x: P6|m.pact:11:11|m t|the inputs m and t have these fields in common: 2
program|function a map\nset r0 2 v0\nend\nmap m a s\ncross x c m t\nsink x 0|x: P6|m.pact:9:11|m t|the inputs m and t have these fields in common: 2
program|sink s 0|t: P7|m.pact:4:8|t|t isn't an input of an operator or of the sink
program|map m f s\ncross x c s t\nsink x 0|s: P7|m.pact:3:8|s|s is an input 2 times, on lines 5, 6
program|map m f s\ncross x c s t\nsink x 0|s: P7|m.pact:3:8|s|to read a source twice, declare it twice, each time with other fields; an operator's result can be used only once
program|cross x c s t\nsink x 0\nsink x 1|program: P9|m.pact:7:1|sink x 1|the program has 2 sinks, on lines 6, 7
program|cross x c s t|program: P9|m.pact:14:21||the program has no sink; add one, such as: sink x 0
program|source u s.csv int:0\ncross x c s u\ncross y c x t\nsink y 0|s: P10|m.pact:3:16|int:0|field 0 also belongs to a column on line 5; give each column a field of its own
program|cross x c s t\nsink x 8|x: P10|m.pact:6:8|8|field 8: records have 8 fields (line 2), numbered 0 to 7
rows|1,a\n\n\n2\n|source s: row 2 column 0: why 1|s.csv:4:1|2|it has 1 field, and the source has 2 columns
rows|1;a\n|source s: row 1 column 0: why 1|s.csv:1:1|1;a|fields are separated by commas only, not by semicolons
rows|1,a\n"2,b\n3,c\n|source s: row 2 column 0: why 1|s.csv:2:1|"2,b|the quote on line 2 is never closed
rows|1,a,\n|source s: row 1 column 0: why 1|s.csv:1:1|1,a,|the comma at the row's end begins one more field; delete it
rows|1,a\n2,b,"x\n,y"\n\n3,"c""\n,",z\n|source s: row 2 column 0: why 1|s.csv:2:1|2,b,"x|cure: give the source 3 columns (int:N or text:N), since row 3 has that many fields too
rows|1,a,x\r2,b\r3,c,x|source s: row 1 column 0: why 1|s.csv:1:1|1,a,x|it has 3 fields, and the source has 2 columns
rows|1\n2\n|source s: row 1 column 0: why 1|s.csv:1:1|1|cure: give the source 1 column (int:N or text:N), since row 2 has that many fields too
rows|1,a\n2,Doe, Ann\n|source s: row 2 column 0: why 1|s.csv:2:1|2,Doe, Ann|a comma inside a field needs double quotes around the field
rows|id,name\n1,a\n|source s: row 1 column 1: why 2|s.csv:1:1|id|this looks like a header row: a source's file has none, so delete the line
rows|1,"a\nb"\r\n\r\n2,"c ""d"", e"\r\n5.0,f\r\n|source s: row 3 column 1: why 2|s.csv:5:1|5.0|column 1 is int:0, and this value isn't a number: it has a decimal point; write it in cents, such as 1999 for 19.99
rows|"a\n1",b\n|source s: row 1 column 1: why 2|s.csv:1:1|"a|column 1 is int:0, and this value isn't a number: it has a unit or other characters beside the number; write only the number
rows|1,a\n2024-01-05,b\n|source s: row 2 column 1: why 2|s.csv:2:1|2024-01-05|column 1 is int:0, and this value isn't a number: it looks like a date; read the column as text:N, or write the date as one number, such as 20240105
rows|1 ,a\n|source s: row 1 column 1: why 2|s.csv:1:1|1 |column 1 is int:0, and this value isn't a number: it has a blank before or after it; delete the blank
rows|NULL,a\n|source s: row 1 column 1: why 2|s.csv:1:1|NULL|column 1 is int:0, and this value isn't a number: leave it empty if the value isn't known
rows|9223372036854775808,a\n|source s: row 1 column 1: why 2|s.csv:1:1|9223372036854775808|column 1 is int:0, and this value isn't a number: it is outside -9223372036854775808 to 9223372036854775807
rows|1,a\r2,b\rx,c\r|source s: row 3 column 1: why 2|s.csv:3:1|x|column 1 is int:0, and this value isn't a number: it is a word; read the column as text:N if it holds words
rows|1,"a\rb\r\nc"\nx,d\n|source s: row 2 column 1: why 2|s.csv:4:1|x|row 2 begins on line 4
rows|\xEF\xBB\xBF1,a\n"x"1,b\n|source s: row 2 column 1: why 2|s.csv:2:1|"x"1|column 1 is int:0, and this value isn't a number: it has a unit or other characters beside the number; write only the number
rows|1,a\n2.5,b\n3.5,c\n"1,000",d\n|source s: row 2 column 1: why 2|s.csv:2:1|2.5|in column 1, 2 values aren't numbers (first on line 2): it has a decimal point
rows|1,a\n2.5,b\n3.5,c\n"1,000",d\n|source s: row 2 column 1: why 2|s.csv:2:1|2.5|in column 1, 1 value isn't a number (line 4): write its digits without separators
rows|1,a\n2,caf\xE9\n|source s: row 2 column 2: why 3|s.csv:2:3|caf\xE9|byte 4 of the field, \xE9, isn't valid UTF-8: save the file as UTF-8
END

# The source's own number of columns may be wrong, but only if the next row has that number of fields too.
# Each row has the rows of a file whose first one has too many or too few fields, and yes or no.
while IFS='|' read -r lines answer; do
    make_told rows "$lines"
    count foretells run m.pact
    if [ "$answer" = yes ]; then count is_said 'cure: give the source'; else count test "${said/cure: give the source/}" = "$said"; fi
    count is_said 'it has '
done <<'END'
1,a,x\n2,b,y\n|yes
1,a,x\n2,b\n3\n|no
1,a,x\n2,"b,y"\n|no
1,a,x\n"2","b",y|yes
1;a\n2;b\n|no
1\ta\n2\tb\n|no
1,a,\n2,b,\n|yes
END

# A list of one field more than its version allows.
while IFS='|' read -r version most; do
    for line in "source s s.csv$(seq -s '' -f ' int:%g' 0 "$most")" "sink s$(seq -s '' -f ' %g' 0 "$most")"; do
        last=${line##* }
        count explains text "pact $version\\nfields $most\\n$line\\n" 'm.pact:3: text fault 5' "m.pact:3:$((${#line} - ${#last} + 1))" "$last" "a ${line%% *} has at most 64"
    done
done <<'END'
1|64
2|128
END

# The words of the command line. Each row has the words, the word that is marked, and a line or the beginning of one that is said.
make_told rows '1,a\n'
: >"$mistakes/m.json"
while IFS='|' read -r words word line; do
    read -ra list <<<"$words"
    count foretells "${list[@]}"
    count test "$(marked_word 'usage: pact COMMAND ARGUMENTS')" = "$word"
    count is_said "$line"
done <<'END'
rum m.pact|rum|cure: pact run m.pact
run||the operand PROGRAM is missing
run m.pact s.csv|s.csv|cure: pact run m.pact
--counts run m.pact|--counts|cure: pact run --counts m.pact
run m.pact --workers 17|17|expected: a whole number without commas, 1 to 16
run m.pact --workers=0|--workers=0|cure: pact run m.pact --workers 1
run m.pact --local tree|tree|expected: hash or sort
run m.pact --batch||the value of --batch is missing
run m.pact --combne|--combne|cure: pact run m.pact --combine
plan m.pact --batch 4|--batch|the command plan has no option --batch
run m.pact -c|-c|cure: pact run m.pact --counts
run m.pact --prune --prune|--prune|the option --prune is given twice
run m.pact --help|--help|for help, read docs/commands.md
check m.pact||the operand CERT is missing
gen 1||the operand ROWS is missing
gen 1 1,000|1,000|cure: pact gen 1 1000
gen 1 2,000,000|2,000,000|cure: pact gen 1 1000000
drill 1 1000001|1000001|cure: pact drill 1 1000000
iterate m.pact 3||the operand ROUNDS is missing
iterate m.pact s 0|0|cure: pact iterate m.pact s 1
iterate m.pact s 3 --counts|--counts|the command iterate has no option --counts
plan m.pact --prune|--prune|cure: pact plan m.pact
END

# No number is offered instead of a word.
for words in 'run m.pact --workers two' 'gen 1 many'; do
    read -ra list <<<"$words"
    count foretells "${list[@]}"
    count test "${said/cure:/}" = "$said"
done

# Words that aren't UTF-8 are no command.
count foretells run $'\xFF'
count is_said "the word (not UTF-8) isn't a command"

said=$'\n'$(cd "$mistakes" && "$PACT_EXPLAIN" m.pact)
count is_said 'cure: pact run m.pact'

# Without a fault it says so.
make_told rows '1,a\n2,b\n'
for words in 'run m.pact' 'plan m.pact' 'cert m.pact' 'sets m.pact' 'iterate m.pact s 2' 'gen 1 3' 'drill 1 3'; do
    read -ra list <<<"$words"
    said=$'\n'$(cd "$mistakes" && "$explain" "${list[@]}")
    count test $? = 0
    count is_said 'no fault found'
done
count foretells iterate m.pact t 2
count is_said 'no source is called t; there are: s'
count foretells check m.pact m.pact
count is_said 'docs/faults.md, "Certificate: the shape"'

# ---- warnings

# The warnings among the lines of an explanation, each on a line: its place and its sentence, or its place and that it has no cure.
list_warnings() {
    awk '
        /^warning: / { if (place != "") print place " no cure"; place = substr($0, 10); sentence = ""; next }
        place == "" || /^    / { next }
        /^cure: / { print place " " sentence; place = ""; next }
        { sentence = $0 }
        END { if (place != "") print place " no cure" }'
}

# Whether `explain` with these words finds no fault and gives these warnings and no others: lines, with escapes, and the words. Each line is a
# warning's place and sentence, or the beginning of it.
warns() {
    local found line all
    said=$(cd "$mistakes" && "$explain" "${@:2}") && [[ $said == 'no fault found'* ]] || return 1
    all=$(list_warnings <<<"$said")
    mapfile -t found < <([ -z "$all" ] || printf '%s\n' "$all")
    while IFS= read -r line; do
        [ "${#found[@]}" -gt 0 ] && [[ ${found[0]} == "$line"* ]] || { other_text 'the warnings' "$all" "$(printf '%b' "$1")"; return 1; }
        found=("${found[@]:1}")
    done < <([ -z "$1" ] || printf '%b\n' "$1")
    [ "${#found[@]}" = 0 ] || other_text 'the warnings' "$all" "$(printf '%b' "$1")"
}

# The rows of a file of that number of rows, with one column or two.
number_rows() {
    awk -v rows="$1" -v columns="$2" 'BEGIN { for (row = 1; row <= rows; row++) print (columns == 1 ? row : row "," row) }'
}

# Each row has a place, the lines there, and their warnings; then lines that differ as little as possible, and their warnings, which are none or others.
while IFS='|' read -r where lines warnings neighbour others; do
    make_told "$where" "$lines"
    count warns "$warnings" sets m.pact
    make_told "$where" "$neighbour"
    count warns "$others" sets m.pact
done <<'END'
map|r0 = copy in\nv0 = get in 2\nset r0 1 v0\nemit r0|m.pact:6:1 field 2 is always Null: no source or operator below sets it|r0 = copy in\nv0 = get in 1\nset r0 1 v0\nemit r0
map|v0 = get in 0\nif v0\nv0 = get in 3\nend\nr0 = copy in\nset r0 0 v0\nemit r0|m.pact:7:1 field 3 is always Null: no|v0 = get in 0\nif v0\nv0 = get in 1\nend\nr0 = copy in\nset r0 0 v0\nemit r0
map2|r0 = copy in\nv0 = get in 2\nset r0 1 v0\nemit r0|m.pact:6:1 field 2 is always Null: no|r0 = copy in\nv0 = int 2\nv0 = get in @v0\nset r0 1 v0\nemit r0
match|r0 = copy join\nv0 = get left 3\nset r0 1 v0\nemit r0|m.pact:7:1 field 3 is always Null in the records of this input; the other input has it|r0 = copy join\nv0 = get right 3\nset r0 1 v0\nemit r0
match|r0 = copy join\nv0 = get left 3\nset r0 1 v0\nemit r0|m.pact:7:1 field 3 is always Null in the records of this input|r0 = copy join\nv0 = get join 3\nset r0 1 v0\nemit r0
cogroup|each x1 of left\neach x2 of right\nr0 = copy x1\nv0 = get x1 3\nset r0 1 v0\nemit r0\nend\nend|m.pact:9:1 field 3 is always Null in the records of this input|each x1 of left\neach x2 of right\nr0 = copy x1\nv0 = get x2 3\nset r0 1 v0\nemit r0\nend\nend
map|r0 = copy in\nset r0 1 v0\nemit r0|m.pact:6:1 v0 is always Null here: no earlier statement gives it another value|r0 = copy in\nv0 = null\nset r0 1 v0\nemit r0
map|v1 = get in 0\nr0 = copy in\nif v1\nv0 = int 1\nelse\nset r0 1 v0\nend\nemit r0|m.pact:10:1 v0 is always Null here: no|v1 = get in 0\nr0 = copy in\nif v1\nv0 = int 1\nelse\nend\nset r0 1 v0\nemit r0
map|r0 = copy in\nset r0 1 v0\nv0 = int 1\nemit r0|m.pact:6:1 v0 is always Null here: no|r0 = copy in\nrepeat 2\nset r0 1 v0\nv0 = int 1\nend\nemit r0
map2|r0 = copy in\nv1 = get in @v0\nset r0 1 v1\nemit r0|m.pact:6:1 v0 is always Null here: no|r0 = copy in\nv0 = int 0\nv1 = get in @v0\nset r0 1 v1\nemit r0
map|r1 = copy in\nemit r0\nemit r1|m.pact:6:1 r0 is read here, but no earlier statement assigns it|r1 = copy in\nr0 = new\nemit r0\nemit r1
map|v0 = get in 0\nr0 = copy in\nemit r0|m.pact:5:1 v0 is assigned, but never read|v0 = get in 0\nr0 = copy in\nset r0 1 v0\nemit r0
map|r0 = copy in\nr1 = copy in\nemit r0|m.pact:6:1 r1 is assigned, but never read|r0 = copy in\nr1 = copy in\nemit r1\nemit r0
reduce|v0 = int 0\neach x1 of group\nv1 = get x1 1\nv0 = addw v0 v1\nend\nr0 = new\nv1 = key 0\nset r0 0 v1\nset r0 1 v1\nemit r0|m.pact:5:1 v0 is assigned, but never read|v0 = int 0\neach x1 of group\nv1 = get x1 1\nv0 = addw v0 v1\nend\nr0 = new\nv1 = key 0\nset r0 0 v1\nset r0 1 v0\nemit r0
map|r0 = copy in\nemit r0\nr0 = new|m.pact:7:1 nothing is emitted after this statement, so it has no effect|r0 = copy in\nemit r0\nr0 = new\nemit r0
map|v0 = get in 0\nr0 = copy in\nif v0\nemit r0\nelse\nr0 = new\nend|m.pact:10:1 nothing is emitted after this statement|v0 = get in 0\nr0 = copy in\nif v0\nemit r0\nelse\nr0 = new\nend\nemit r0
map|r0 = copy in\nr1 = copy r0|m.pact:6:1 r1 is assigned, but never read\nm.pact:5:1 nothing is emitted after this statement|r0 = copy in\nr1 = copy r0\nemit r1
texts|r0 = copy in\nv0 = get in 0\nv1 = int 1\nv2 = add v0 v1\nset r0 1 v2\nemit r0|m.pact:8:1 an operand of this arithmetic is a text: field 0|r0 = copy in\nv0 = get in 1\nv1 = int 1\nv2 = add v0 v1\nset r0 1 v2\nemit r0
texts|r0 = copy in\nv0 = get in 1\nv1 = text "1"\nv2 = addw v0 v1\nset r0 1 v2\nemit r0|m.pact:8:1 an operand of this arithmetic is a text|r0 = copy in\nv0 = get in 1\nv1 = text "1"\nv2 = min v0 v1\nset r0 1 v2\nemit r0
texts|v0 = get in 0\nv1 = int 1\nv2 = eq v0 v1\nif v2\nr0 = copy in\nemit r0\nend|m.pact:7:1 a text is compared with a number, and each number comes before each text: field 0|v0 = get in 0\nv1 = text "1"\nv2 = eq v0 v1\nif v2\nr0 = copy in\nemit r0\nend
texts|v0 = text "1"\nv1 = get in 1\nv2 = eq v0 v1\nif v2\nr0 = copy in\nemit r0\nend|m.pact:7:1 a text is compared with a number, and each number comes before each text: field 1|v0 = get in 0\nv1 = get in 1\nv2 = eq v0 v1\nif v2\nr0 = copy in\nemit r0\nend
texts|v0 = get in 0\nv0 = len v0\nv1 = text "1"\nv2 = eq v0 v1\nif v2\nr0 = copy in\nemit r0\nend|m.pact:8:1 a text is compared with a number|v0 = get in 0\nv0 = len v0\nv1 = int 1\nv2 = eq v0 v1\nif v2\nr0 = copy in\nemit r0\nend
texts|r0 = copy in\nv0 = get in 1\nv1 = text "!"\nv2 = cat v0 v1\nset r0 0 v2\nemit r0|m.pact:8:1 this operation takes texts only, and an operand is a number: field 1|r0 = copy in\nv0 = get in 0\nv1 = text "!"\nv2 = cat v0 v1\nset r0 0 v2\nemit r0
texts|r0 = copy in\nv0 = get in 0\nv1 = int 1\nv2 = cat v0 v1\nset r0 0 v2\nemit r0|m.pact:8:1 this operation takes texts only, and an operand is a number|r0 = copy in\nv0 = get in 0\nv1 = text "1"\nv2 = cat v0 v1\nset r0 0 v2\nemit r0
texts|r0 = copy in\nv0 = get in 0\nv1 = int 1\nif v0\nv2 = cat v0 v1\nset r0 0 v2\nend\nemit r0|m.pact:9:1 this operation takes texts only, and an operand is a number|r0 = copy in\nv0 = get in 0\nv1 = int 1\nif v0\nv1 = text "!"\nend\nv2 = cat v0 v1\nset r0 0 v2\nemit r0
texts|r0 = copy in\nv0 = get r0 0\nv1 = int 1\nv2 = add v0 v1\nset r0 1 v2\nemit r0|m.pact:8:1 an operand of this arithmetic is a text: field 0|r0 = copy in\nv0 = get r0 1\nv1 = int 1\nv2 = add v0 v1\nset r0 1 v2\nemit r0
reduce|v0 = key 0\nv1 = text "!"\nv2 = cat v0 v1\nr0 = new\nset r0 0 v2\nset r0 1 v2\nemit r0|m.pact:7:1 this operation takes texts only, and an operand is a number|v0 = key 0\nv1 = text "!"\nv2 = max v0 v1\nr0 = new\nset r0 0 v2\nset r0 1 v2\nemit r0
text|pact 1\nfields 4\nsource s s.csv int:0 int:1\nfunction f map\nv0 = get in 2\nv1 = int 1\nv0 = addw v0 v1\nr0 = copy in\nset r0 2 v0\nemit r0\nend\nmap a f s\nsink a 0 1 2|m.pact:5:1 field 2 is always Null|pact 1\nfields 4\nsource s s.csv int:0 int:1\nfunction f map\nv0 = get in 2\nv1 = int 1\nv0 = addw v0 v1\nr0 = copy in\nset r0 2 v0\nemit r0\nend\nmap a f s\nmap b f a\nsink b 0 1 2
text|pact 1\nfields 4\nsource s s.csv int:0 int:1\nfunction f map\nv0 = get in 3\nr0 = copy in\nset r0 1 v0\nemit r0\nend\nmap a f s\nmap b f a\nsink b 0 1|m.pact:5:1 field 3 is always Null|pact 1\nfields 4\nsource s s.csv int:0 int:1\nfunction f map\nv0 = get in 0\nr0 = copy in\nset r0 1 v0\nemit r0\nend\nmap a f s\nmap b f a\nsink b 0 1
texts|v0 = get in 0\nv1 = int 10\nv2 = lt v1 v0\nif v2\nr0 = copy in\nemit r0\nend|m.pact:7:1 a text is compared with a number|v0 = get in 0\nv1 = text "10"\nv2 = lt v1 v0\nif v2\nr0 = copy in\nemit r0\nend
texts|r0 = copy in\nv0 = get in 1\nv1 = len v0\nset r0 1 v1\nemit r0|m.pact:7:1 this operation takes texts only, and an operand is a number: field 1|r0 = copy in\nv0 = get in 0\nv1 = len v0\nset r0 1 v1\nemit r0
reduce|v0 = null\neach x1 of group\nv1 = get x1 1\nv0 = min v0 v1\nend\nr0 = new\nset r0 1 v0\nset r0 0 v0\nemit r0|m.pact:8:1 v0 is always Null here|v0 = null\neach x1 of group\nv1 = get x1 1\nv0 = max v0 v1\nend\nr0 = new\nset r0 1 v0\nset r0 0 v0\nemit r0
reduce|each x1 of group\nv1 = get x1 1\nv0 = min v0 v1\nend\nr0 = new\nset r0 1 v0\nset r0 0 v0\nemit r0|m.pact:7:1 v0 is always Null here|each x1 of group\nv1 = get x1 1\nv0 = max v0 v1\nend\nr0 = new\nset r0 1 v0\nset r0 0 v0\nemit r0
map|r0 = new\nv0 = get in 0\nset r0 0 v0\nemit r0|m.pact:11:1 field 1 is Null in every row: a function below the sink leaves it out|r0 = copy in\nv0 = get in 0\nset r0 0 v0\nemit r0
cogroup|each x1 of right\nr0 = copy x1\nv0 = int 1\nset r0 0 v0\nemit r0\nend|m.pact:14:1 field 1 is Null in every row: a function|each x1 of left\nr0 = copy x1\nv0 = int 1\nset r0 0 v0\nemit r0\nend
reduce|r0 = copy first\nemit r0|m.pact:5:1 the answer may differ from run to run: operator m|r0 = new\nv0 = key 0\nset r0 0 v0\nset r0 1 v0\nemit r0
reduce|v0 = int 0\neach x1 of group\nv1 = get x1 1\nv0 = add v0 v1\nend\nr0 = new\nset r0 0 v0\nset r0 1 v0\nemit r0|m.pact:8:1 the answer may differ|v0 = int 0\neach x1 of group\nv1 = get x1 1\nv0 = addw v0 v1\nend\nr0 = new\nset r0 0 v0\nset r0 1 v0\nemit r0
reduce|r0 = new\neach x1 of group\nv0 = get x1 1\nset r0 0 v0\nset r0 1 v0\nemit r0\nend|m.pact:8:1 the answer may differ|each x1 of group\nr0 = new\nv0 = get x1 1\nset r0 0 v0\nset r0 1 v0\nemit r0\nend
reduce|v0 = int 0\neach x1 of group\nv1 = get x1 1\nv0 = addw v0 v1\nr0 = copy x1\nset r0 1 v0\nemit r0\nend|m.pact:6:1 the answer may differ|v0 = int 0\neach x1 of group\nv1 = get x1 1\nv0 = addw v0 v1\nend\neach x1 of group\nr0 = copy x1\nset r0 1 v0\nemit r0\nend
reduce|each x1 of group\nr0 = copy x1\nend\neach x1 of group\nr1 = copy x1\nend\nemit r0\nemit r1|m.pact:14:1 the answer may differ|each x1 of group\nr0 = copy x1\nemit r0\nend\neach x1 of group\nr1 = copy x1\nemit r1\nend
cogroup|v0 = int 0\neach x1 of right\nv0 = int 1\nend\nr0 = new\nset r0 0 v0\nset r0 1 v0\nemit r0|m.pact:7:1 the answer may differ|v0 = int 0\nv1 = int 1\neach x1 of right\nv0 = max v0 v1\nend\nr0 = new\nset r0 0 v0\nset r0 1 v0\nemit r0
text|pact 1\nfields 4\nsource s s.csv int:0 int:1\nfunction f map\nr0 = copy in\nemit r0\nend\nmap m f s\nsink m 0 1 3|m.pact:9:1 field 3 is Null in every row: nothing sets it|pact 1\nfields 4\nsource s s.csv int:0 int:1\nfunction f map\nr0 = copy in\nset r0 3 v0\nemit r0\nend\nmap m f s\nsink m 0 1 3|m.pact:6:1 v0 is always Null here
text|pact 1\nfields 4\nsource s s.csv int:0 int:1\nfunction f map\nr0 = copy in\nemit r0\nend\nmap m f s\nsink m 0 3|m.pact:9:1 field 3 is Null in every row\nm.pact:3:1 field 1 is read from the file, but never used|pact 1\nfields 4\nsource s s.csv int:0 int:1\nfunction f map\nr0 = copy in\nemit r0\nend\nmap m f s\nsink m 0 1 3|m.pact:9:1 field 3 is Null in every row
text|pact 1\nfields 4\nsource s s.csv int:0 int:1\nfunction f map\nr0 = copy in\nemit r0\nend\nmap m f s\nsink m 0 3|m.pact:9:1 field 3 is Null in every row\nm.pact:3:1 field 1 is read from the file, but never used|pact 1\nfields 4\nsource s s.csv int:0 int:1\nfunction f map\nr0 = copy in\nemit r0\nend\nmap m f s\nsink m 0
text|pact 1\nfields 4\nsource s s.csv int:0 int:1\nfunction f map\nr0 = copy in\nemit r0\nend\nfunction g map\nr0 = copy in\nemit r0\nend\nmap m f s\nsink m 0 1|m.pact:8:1 no operator calls the function|pact 1\nfields 4\nsource s s.csv int:0 int:1\nfunction f map\nr0 = copy in\nemit r0\nend\nfunction g map\nr0 = copy in\nemit r0\nend\nmap n f s\nmap m g n\nsink m 0 1
END

# The same of files. Each row has the rows of a file of two columns of texts, their warning, and rows that differ as little as possible.
while IFS='|' read -r lines warnings neighbour; do
    make_told words "$lines"
    count warns "$warnings" run m.pact
    make_told words "$neighbour"
    count warns '' run m.pact
done <<'END'
a,"x\ny"\nb,c\n|s.csv:1 a quoted field of row 1 spans 2 lines|a,"x y"\nb,c\n
a,b\nc,"x\r\n\r\ny"|s.csv:2 a quoted field of row 2 spans 3 lines|a,b\r\n\r\nc,"x y"
a,b\nc,"x\ny,z\n|s.csv:2 a quote in row 2 is never closed|a,b\nc,x"\ny,z\n
city,rows\na,1\nb,2\n|s.csv:1 the first row may be a header|city,5\na,1\nb,2\n
"city","since"\na,2024-01-05\nb,2024-01-06\n|s.csv:1 the first row may be a header|"city","since"\na,2024-01-05\nb,never\n
\xEF\xBB\xBFcity,rows\na,1.5\nb,2\n|s.csv:1 the first row may be a header|\xEF\xBB\xBFcity,rows\na,b\nb,a\n
city,rows\na,1\nb,\nc,3\n|s.csv:1 the first row may be a header|tea,NULL\na,1\nb,\nc,3\n
city,gr\xC3\xB6\xC3\x9Fe\na,1\nb,2\n|s.csv:1 the first row may be a header|city,true\na,1\nb,2\n
date,price ($)\n2024-01-05,7\n|s.csv:1 the first row may be a header|date,price ($)\n,7\n2024-01-05,\n
city,Total [net]\na,1\nb,2\n|s.csv:1 the first row may be a header|city,Total [net]\na,1\nb,x\n
city, price\na, 1.5\nb, 2\n|s.csv:1 the first row may be a header|city, price\na, 1.5\nb, free\n
END

# The same of numbers of rows. Each row has a place, the lines there, how many rows s.csv and t.csv have, the warning, and other numbers of rows. Where
# no rows are read there is none.
while IFS='|' read -r where lines rows warning neighbour; do
    make_told "$where" "$lines"
    columns=2
    [ "$where" != cross ] || columns=1
    number_rows "${rows% *}" "$columns" >"$mistakes/s.csv"
    number_rows "${rows#* }" "$columns" >"$mistakes/t.csv"
    count warns "$warning" run m.pact
    count warns '' sets m.pact
    number_rows "${neighbour% *}" "$columns" >"$mistakes/s.csv"
    number_rows "${neighbour#* }" "$columns" >"$mistakes/t.csv"
    count warns '' run m.pact
done <<'END'
match|r0 = copy join\nemit r0|10000 9999|m.pact:9:1 the left input is the larger one|10000 10000
match|r0 = copy join\nemit r0|10000 5|m.pact:9:1 the left input is the larger one|9999 5
match|r0 = copy join\nemit r0|10000 5|m.pact:9:1 the left input is the larger one|5 10000
cross|r0 = copy join\nemit r0|10000 1000|m.pact:9:1 the cross pairs each record|9999 1000
cross|r0 = copy join\nemit r0|100 100000|m.pact:9:1 the cross pairs each record|100 99999
reduce|each x1 of group\nv0 = null\neach x2 of group\nv1 = get x2 1\nv0 = max v0 v1\nend\nr0 = copy x1\nset r0 1 v0\nemit r0\nend|10000 1|m.pact:7:1 this loop over a group is inside|9999 1
cogroup|each x1 of left\nv0 = null\neach x2 of left\nv1 = get x2 1\nv0 = max v0 v1\nend\nr0 = copy x1\nset r0 1 v0\nemit r0\nend|10000 5|m.pact:8:1 this loop over a group is inside|9999 5
cogroup|each x1 of left\nv0 = null\neach x2 of left\nv1 = get x2 1\nv0 = max v0 v1\nend\nr0 = copy x1\nset r0 1 v0\nemit r0\nend|10000 5|m.pact:8:1 this loop over a group is inside|5 10000
END

# A function that goes through a large group twice in a row isn't square.
make_told reduce 'v0 = null\neach x1 of group\nv1 = get x1 1\nv0 = max v0 v1\nend\neach x1 of group\nr0 = copy x1\nset r0 1 v0\nemit r0\nend'
number_rows 10000 2 >"$mistakes/s.csv"
count warns '' run m.pact

# One that makes the pairs of a CoGroup isn't either: it writes as many rows.
make_told cogroup 'each x1 of left\neach x2 of right\nr0 = copy x1\nv0 = get x2 3\nset r0 1 v0\nemit r0\nend\nend'
number_rows 10000 2 >"$mistakes/s.csv"
number_rows 10000 2 >"$mistakes/t.csv"
count warns '' run m.pact

# Of the programs here these warnings are right, and there are no others. `first` shows an answer that depends on the order, `cond` and `swap` show a field
# that stays Null, and the reader of the tutorial goes on to use the function.
cp -r shop "$scratch/shop"
(cd "$scratch/shop" && tail -n +2 customers.csv >customers_rows.csv && tail -n +2 orders.csv >decimal_rows.csv &&
    awk -F, -v OFS=, '$NF != "" { $NF = sprintf("%.0f", $NF * 100) } 1' decimal_rows.csv >orders_rows.csv)
warnings_of_programs() {
    local program
    for program in *.pact; do
        { "$explain" run "$program" || "$explain" sets "$program"; } | list_warnings
    done
}
{ warnings_of_programs; (cd "$scratch/shop" && warnings_of_programs); } >"$scratch/out"
# as many characters as the sentences below have
cut -c 1-56 "$scratch/out" >"$scratch/begun"
cat >"$scratch/expected" <<'END'
cond.pact:21:3 field 3 is always Null: no source or oper
first.pact:7:3 the answer may differ from run to run: op
swap.pact:12:1 field 2 is Null in every row: nothing set
german.pact:18:1 no operator calls the function
END
count cmp "$scratch/expected" "$scratch/begun"

# ---- a line that pact printed

# Whether the bytes of a file come out alone on standard output, with status 0, and only lines that are added on standard error; these are kept without their mark.
adds_to() {
    local line
    (cd "$mistakes" && "$explain" "${@:2}" <"$1" >"$scratch/out" 2>"$scratch/added") || return 1
    is_file 'standard output' "$scratch/out" "$mistakes/$1" || return 1
    said=$'\n'
    while IFS= read -r line; do
        [[ $line == 'explain: '* ]] || return 1
        said+=${line#explain: }$'\n'
    done <"$scratch/added"
}

# Whether of a line as the argument this is said.
says_of() {
    said=$'\n'$(cd "$mistakes" && "$explain" "$1" 2>&1 | sed 's/^explain: //') && is_said "$2"
}

# Refusals without a program, and the launcher's lines. Each row has the line and a beginning of one that is added.
rm -rf "$mistakes"
mkdir -p "$mistakes/sub"
echo 1 >"$mistakes/s.csv"
echo 1 >"$mistakes/sum.csv"
while IFS='|' read -r line words; do
    count says_of "$line" "$words"
done <<'END'
out of memory|`pact` ran out of memory.
out of memory|docs/faults.md, "Status 1"
usage: pact COMMAND ARGUMENTS|usage: pact run PROGRAM [--workers N] [--plans N] [--batch N] [--depth N] [--local WAY] [--prune] [--combine] [--counts]
usage: pact COMMAND ARGUMENTS|  --plans N: 1 to 1,000, by default 256
usage: pact COMMAND ARGUMENTS|docs/faults.md, "Status 2"
cannot read sub|there is no file sub that pact can read
cannot read S.csv|there is a file s.csv
cannot read sum|there is a file sum.csv
cannot read none|docs/faults.md, "Status 3"
cannot write|docs/faults.md, "Status 4"
m.pact is longer than 1048576 bytes|docs/faults.md, "Status 8"
sum.csv is longer than 67108864 bytes|at most 67108864 bytes are allowed
certificate refused: not a certificate|docs/faults.md, "Certificate: the shape"
certificate refused: step 12: C1|the fault is in step 12 of the certificate, counted from 1
certificate refused: step 1: C2|docs/faults.md, "Certificate fault C2"
certificate refused: step 1: C4 conflict write-write 5|field 5: both operators write it
certificate refused: step 1: C4 conflict read-write 5|field 5: the upper operator reads it, and the lower one writes it
certificate refused: step 1: C4 conflict write-read 5|field 5: the upper operator writes it, and the lower one reads it
certificate refused: step 1: C4 side 2|field 2: the operator that would move touches it
certificate refused: step 1: C4 not-anchored|the cogroup may emit a record
certificate refused: step 1: C4 match-key 1|field 1: it is a key of the match on the side that the reduce
certificate refused: step 1: C4 not-unique|the other side of the match may hold two records with the same key
certificate refused: step 1: C4 key-group|groups may change: a map must emit exactly one record
certificate refused: C5|docs/faults.md, "Certificate fault C5"
certificate refused: C6|docs/faults.md, "Certificate fault C6"
pact: the released program is of other sources, and the toolchain's command rt isn't on the PATH to build another|docs/faults.md, "Status 127"
pact: nothing can be built in /x; XDG_CACHE_HOME may name another place|docs/faults.md, "Status 127"
pact: text_lines failed (log: x)|docs/faults.md, "Status 127"
pact: the build failed|docs/faults.md, "Status 127"
pact: the released program is of other sources, so one is built|docs/faults.md, "While pact is built"
function f: V3 at statement 2|docs/faults.md, "V3"
function f: V7 at statement 1000|docs/faults.md, "V7"
m17: P8|docs/faults.md, "P8"
s.csv: P11|docs/faults.md, "P11"
source s: row 1 column 1: why 4|docs/faults.md, "Row fault 4"
none.pact:3: text fault 7|A number is expected, and this word isn't one or is out of range.
END

# The launcher's lines while it builds are answered once.
printf 'pact: each proof is checked, x\npact: 1 of 2 crates: a, 3 s\npact: 2 of 2 crates: b, 4 s\npact: built in 5 s\n' >"$mistakes/stream"
count adds_to stream
count is_said 'No fault: a source file of `pact` has changed, or'
count test "$(grep -c 'While pact is built' "$scratch/added")" = 1

# What a certificate's refusal states and finds is compared.
cp expected/certificates/push.c[356].stderr "$mistakes"
count adds_to push.c3.stderr
count is_said 'lower reads: the certificate states {0}, and `pact` finds {0,1}'
count test "$(grep -c 'certificate states' "$scratch/added")" = 1
count adds_to push.c5.stderr
count is_said 'the steps lead to the plan r(m(s)), and the certificate states m(r(s))'
count adds_to push.c6.stderr
count is_said 'the certificate is for a program that begins with pact 2, and this one begins with pact 1'

# Of what pact never tells nothing is said, in a folder where the names are.
make_told map 'set r0 4 v0'
# Whether nothing is added to these bytes.
adds_nothing() {
    printf '%b' "$1" >"$mistakes/stream"
    adds_to stream && [ ! -s "$scratch/added" ]
}
count adds_nothing ''
count adds_nothing '1,5'
count adds_nothing '\x00\xFF\x00\n\r\n'
cat >"$mistakes/stream" <<'END'

1,5
2,-3
1,5
accepted
 function f: V3 at statement 0
function f: V9 at statement 0
function F: V3 at statement 0
function f: V3 at statement
m: P12
m: P9
M: P5
m.pact:5: text fault 13
m.pact:x: text fault 3
source s: row 1 column 1: why 5
source s: row -1 column 1: why 2
m.pact is longer than 5 bytes
usage: other COMMAND
cannot read
Out of memory
certificate refused: step 1: C5
certificate refused: C4 side 2
pact: something else
s out 4
r in 2 out 1
END
count adds_to stream
count test ! -s "$scratch/added"

# Each program that has the fault is told; a program that is named is the only one.
cp "$mistakes/m.pact" "$mistakes/n.pact"
sed 's/set r0 4/set r0 3/' "$mistakes/m.pact" >"$mistakes/other.pact"
count says_of 'function f: V3 at statement 0' 'm.pact:5:8'
count is_said 'n.pact:5:8'
count test "${said/other.pact/}" = "$said"
echo 'function f: V3 at statement 0' >"$mistakes/stream"
count adds_to stream n.pact
count is_said 'n.pact:5:8'
count test "$(grep -c 'm.pact' "$scratch/added")" = 0
count adds_to stream other.pact
count is_said 'none of these programs has this fault now:'
count adds_to stream none.pact
count is_said '  none.pact'
mkdir "$mistakes/many"
for number in 1 2 3 4 5 6 7 8 9 10; do cp "$mistakes/other.pact" "$mistakes/many/$number.pact"; done
count adds_to stream many
count is_said '  and 2 more'
rm -r "$mistakes/many"
# a copy that fails
(cd "$mistakes" && "$explain" <stream >/dev/full 2>"$scratch/err")
count test "$?" != 0
count adds_to stream "$mistakes"
count is_said "$mistakes/m.pact:5:8"

# Run in another folder: the program is named with its folder, and its files are those beside it where they aren't here.
make_told rows '1,a\nx,b\n'
mkdir "$mistakes/sub"
mv "$mistakes/m.pact" "$mistakes/s.csv" "$mistakes/sub"
echo 'source s: row 2 column 1: why 2' >"$mistakes/stream"
count adds_to stream sub/m.pact
count is_said 's.csv:2:1'
count is_said 'sub/m.pact:3:10'
(cd "$mistakes" && "$pact" run sub/m.pact) >"$mistakes/stream" 2>&1
count adds_to stream sub/m.pact
count is_said 'sub/s.csv exists: run pact in the folder sub/, or write that name in the program'
printf 'pact 3\n' >"$mistakes/sub/m.pact"
echo 'm.pact:1: text fault 12' >"$mistakes/stream"
count adds_to stream sub
count is_said 'sub/m.pact:1:6'

# Several refusals, one twice, among rows; the last without a line's end.
make_told map 'set r0 4 v0'
printf '1,5\nfunction f: V3 at statement 0\nm: P1\n\nfunction f: V3 at statement 0\ncannot write' >"$mistakes/stream"
count adds_to stream
count test "$(grep -c '^explain: of the line ' "$scratch/added")" = 3
count test "$(grep -c '^explain: m.pact:5:8' "$scratch/added")" = 1

# A line of a megabyte is shown cut.
printf 'pact 1\nfields 4\n%s' "$(head -c 1000000 /dev/zero | tr '\0' 'x')" >"$mistakes/long.pact"
count foretells run long.pact
count test "${#said}" -lt 2000

# Without a word, and with the explainer's own words, the status is 0. The script takes no word for a filter.
ends_well() { "$@" >"$scratch/own_words" 2>&1 && [ -s "$scratch/own_words" ]; }
count ends_well "${PACT_EXPLAIN:-../release/pact_explain}"
count ends_well "$explain" --help
count ends_well "$explain" --faults
count ends_well "$explain" --line 'usage: pact COMMAND ARGUMENTS'

# The sentences of docs/faults.md are those of the program.
"$explain" --faults >"$scratch/faults_said"
awk '/^### / { if (head != "") print head "\n" text; head = substr($0, 5); text = ""; open = 1; next }
    /^(\||#|```)/ { open = 0 }
    open && $0 != "" { text = text (text == "" ? "" : " ") $0 }
    END { print head "\n" text }' ../docs/faults.md >"$scratch/faults_of_page"
while IFS= read -r head && IFS= read -r sentence; do
    of_page=$(grep -Fx -A 1 -- "$head" "$scratch/faults_of_page" | tail -n 1)
    count test "${of_page#"$sentence"}" != "$of_page"
done <"$scratch/faults_said"
# a head and a sentence for each fault of a text, rule and bad row at least
count test "$(wc -l <"$scratch/faults_said")" -ge 70

# What docs/faults.md shows of it.
awk '/^```/ { fences++; next } fences == 3' ../docs/faults.md >"$scratch/shown"
"$explain" run too_wide.pact >"$scratch/out"
count cmp "$scratch/shown" "$scratch/out"
