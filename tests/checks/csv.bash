# CSV text both ways: what a source's bytes say, and how rows are written.

# Three programs that write the rows of s.csv: two columns of numbers, of which the first is for field 2; the same with texts in the first; and one column.
while IFS='|' read -r name fields columns sink; do
    printf 'pact 1\nfields %s\nsource s s.csv %s\nfunction keep map\n  r0 = copy in\n  emit r0\nend\nmap m keep s\nsink m %s\n' \
        "$fields" "$columns" "$sink" >"$scratch/$name.pact"
done <<'END'
numbers|3|int:2 int:0|2 1 0
texts|3|text:2 int:0|2 1 0
one|1|int:0|0
END

# Each row has the program, the bytes of s.csv, and the rows that are written.
while IFS='|' read -r program bytes rows; do
    printf '%b' "$bytes" >"$scratch/s.csv"
    count gives 0 "$rows" '' run "$program.pact"
done <<'END'
numbers|1,2\n3,4\n|1,,2\n3,,4\n
numbers|1,2\r\n3,4\r\n|1,,2\n3,,4\n
numbers|1,2\n3,4|1,,2\n3,,4\n
numbers|\n\r\n1,2\n\n3,4\n\n|1,,2\n3,,4\n
numbers|\xEF\xBB\xBF1,2\n3,4\n|1,,2\n3,,4\n
numbers|"1",2\n3,"4"\n|1,,2\n3,,4\n
numbers|3,4\n1,2\n1,2\n|1,,2\n1,,2\n3,,4\n
numbers||
numbers|\n\r\n|
numbers|+5,-0\n|5,,0\n
numbers|007,-007\n|7,,-7\n
numbers|9223372036854775807,1\n|9223372036854775807,,1\n
numbers|1,-9223372036854775808\n|1,,-9223372036854775808\n
numbers|,7\n7,""\n,\n|,,\n,,7\n7,,\n
texts|two words,1\n|two words,,1\n
texts| x ,1\n| x ,,1\n
texts|007,1\n|007,,1\n
texts|"a,b ""c""\r\nd",1\r\n|"a,b ""c""\r\nd",,1\n
texts|"a\rb",1\n|"a\rb",,1\n
texts|\xC3\xA9,1\n|\xC3\xA9,,1\n
texts|,1\n"",1\n|,,1\n,,1\n
one|\n5\n|5\n
one|""\n5\n|""\n5\n
END

# The csv crate's definition decides what other readers tell apart: a CR alone ends a row; what follows a closing quote belongs to the field, and so does a quote that
# doesn't open it; a quote that isn't closed runs to the end of the text.
while IFS='|' read -r program bytes rows; do
    printf '%b' "$bytes" >"$scratch/s.csv"
    count gives 0 "$rows" '' run "$program.pact"
done <<'END'
numbers|1,2\r3,4\r|1,,2\n3,,4\n
numbers|1,2\r\r3,4\n|1,,2\n3,,4\n
numbers|1,"2|1,,2\n
texts|"a"b,1\n|ab,,1\n
texts|a"b"c,1\n|"a""b""c",,1\n
END

# Each row has the program, the bytes of s.csv, and the row, the column and the fault that are told.
while IFS='|' read -r program bytes row column why; do
    printf '%b' "$bytes" >"$scratch/s.csv"
    count gives 7 '' "source s: row $row column $column: why $why\n" run "$program.pact"
done <<'END'
numbers|1\n|1|0|1
numbers|1,2,3\n|1|0|1
numbers|1,2,\n|1|0|1
numbers|1,2\n3,4\n5\n|3|0|1
numbers|x\n|1|0|1
numbers|x,\xFF,z\n|1|0|1
one|1,2\n|1|0|1
texts|"a,1\nb,2\n|1|0|1
numbers|x,1\n|1|1|2
numbers|1, 2\n|1|2|2
numbers|1,+\n|1|2|2
numbers|1.0,2\n|1|1|2
numbers|9223372036854775808,1\n|1|1|2
numbers|1,-9223372036854775809\n|1|2|2
texts|text,x\n|1|2|2
texts|\xFF,1\n|1|1|3
texts|x\xC3,1\n|1|1|3
numbers|1,2\xFF\n|1|2|3
numbers|x,\xFF\n|1|1|2
texts|\xFF,x\n|1|1|3
numbers|1,2\n3,x\n5\n\xFF,1\n|2|2|2
numbers|1,2\n1,2,3\nx,1\n|2|0|1
numbers|\n\r\n1,2\n\nx,4\n|2|1|2
texts|"a\nb",2\nc,x\n|2|2|2
END

# A row of so many times these bytes and the number 1.
long_row() {
    awk -v letter="$(printf '%b' "$1")" -v times="$2" 'BEGIN { for (i = 0; i < times; i++) printf "%s", letter; print ",1" }' >"$scratch/s.csv"
}
# The longest texts are kept, here written as they are but for the field between.
for letter in 'a|4096' '\xC3\xA9|2048'; do
    long_row "${letter%|*}" "${letter#*|}"
    count gives 0 "$(sed 's/,1$/,,1/' "$scratch/s.csv")\n" '' run texts.pact
done
while IFS='|' read -r program letter times why; do
    long_row "$letter" "$times"
    count gives 7 '' "source s: row 1 column 1: why $why\n" run "$program.pact"
done <<'END'
texts|a|4097|4
texts|\xC3\xA9|2049|4
texts|\xFF|4097|3
numbers|1|4097|2
END
