# Lines, words and names of a program's text, its faults, and functions that aren't valid.

# Each row has a text, and the line and the fault that are told.
while IFS='|' read -r text line fault; do
    printf '%b' "$text" >"$scratch/text.pact"
    count gives 5 '' "text.pact:$line: text fault $fault\n" sets text.pact
done <<'END'
# nothing\n\n|2|12
|1|12
\npact 3\n|2|12
pact 1\n\nfields 65\n|3|7
END

# The same of a text whose first two lines are in order, so that these begin with the third.
while IFS='|' read -r lines line fault; do
    printf 'pact 1\nfields 9\n%b' "$lines" >"$scratch/text.pact"
    count gives 5 '' "text.pact:$line: text fault $fault\n" sets text.pact
done <<'END'
\r\nmap\rm f s\n|4|1
source s "a int:0\n|3|2
sink s 0\nfilter m f s\n|4|3
source s s.csv\n|3|4
sink s 0\n\ncross x f a b by 0 = 0\n|5|5
map M\n|3|6
function f reduce 9 9\nend\n|3|7
function f map\nr0 = int 1\nend\n|4|8
function f filter\nend\n|3|9
function f map\nrepeat 2\nelse\n|5|10
function f map\nif v0\nend\n\n|6|10
function f map\nif v0\nend\n# more\n|6|10
function f reduce 1\neach x2 of group\n|4|11
"a"b|3|2
"\\q \xFF|3|1
\t a"b \t"# \\\\ \\" \\n \\r \\t\t\xC3\xA9"# c "d|3|3
sink a"b 0|3|6
END

# A literal stands for these bytes; a comment may stand right behind it, and a carriage return before a line's end.
echo 1 >"$scratch/s.csv"
{
    printf 'pact 1\r\nfields 1\r\nsource s s.csv int:0\nfunction f map\r\n'
    printf '\t v0\t=  text \t"# \\\\ \\" \\n \\r \\t\t\xC3\xA9"# c "d\n'
    printf 'r0 = new\nset r0 0 v0\nemit r0\nend\r\nmap m f s\nsink m 0\r'
} >"$scratch/text.pact"
count gives 0 '"# \\ "" \n \r \t\t\xC3\xA9"\n' '' run text.pact

# A literal stands for 4,096 bytes at most, counted after the pairs.
longest_literal=$(printf '%4095s' '' | tr ' ' 'a')
printf 'pact 1\nfields 1\nsource s s.csv int:0\nfunction f map\nv0 = text "%s\\n"\nend\nmap m f s\nsink m 0\n' "$longest_literal" >"$scratch/text.pact"
count gives 0 'm map reads {} writes {} control {} touched {} emit 0..0 anchor none order yes\n' '' sets text.pact
printf 'pact 1\nfields 1\nsource s s.csv int:0\nfunction f map\nv0 = text "%s\\na"\nend\nmap m f s\nsink m 0\n' "$longest_literal" >"$scratch/text.pact"
count gives 5 '' 'text.pact:5: text fault 2\n' sets text.pact

# Names of a function and an operator.
while IFS= read -r name; do
    printf 'pact 1\nfields 1\nsource s s.csv int:0\nfunction %s map\nend\nmap %s %s s\nsink %s 0\n' "$name" "$name" "$name" "$name" >"$scratch/text.pact"
    count gives 0 "$name map reads {} writes {} control {} touched {} emit 0..0 anchor none order yes\n" '' sets text.pact
done <<'END'
z
m_1
a234567890123456789012345678901_
END
while IFS= read -r word; do
    for line in "source $word s.csv int:0" "function $word map" "map $word f s" "sink $word 0"; do
        printf 'pact 1\nfields 1\n%s\n' "$line" >"$scratch/text.pact"
        count gives 5 '' 'text.pact:3: text fault 6\n' sets text.pact
    done
done <<'END'
a234567890123456789012345678901_3
A
_a
1a
a-b
END

# Names of files, which `sets` doesn't open.
longest_name=$(printf '%200s' '' | tr ' ' '9')
for file in ../data/D-1_z.csv "$longest_name"; do
    printf 'pact 1\nfields 1\nsource s %s int:0\nfunction f map\nend\nmap m f s\nsink m 0\n' "$file" >"$scratch/text.pact"
    count gives 0 'm map reads {} writes {} control {} touched {} emit 0..0 anchor none order yes\n' '' sets text.pact
done
for file in "${longest_name}9" C:a $'\xC3\xA9'; do
    printf 'pact 1\nfields 1\nsource s %s int:0\n' "$file" >"$scratch/text.pact"
    count gives 5 '' 'text.pact:3: text fault 6\n' sets text.pact
done

# These lines so many times.
repeated() {
    local turn
    for ((turn = 0; turn < $1; turn++)); do
        printf '%s' "$2"
    done
}

# A text has 64 blocks inside each other, and no more; so many branches no valid function has.
for blocks in 64 65; do
    {
        printf 'pact 1\nfields 1\nsource s s.csv int:0\nfunction f map\nv0 = int 1\n'
        repeated "$blocks" $'if v0\n'
        repeated "$blocks" $'end\n'
        printf 'end\nmap m f s\nsink m 0\n'
    } >"$scratch/nested$blocks.pact"
done
count gives 6 '' 'function f: V5 at statement 9\n' sets nested64.pact
count gives 5 '' 'nested65.pact:70: text fault 10\n' sets nested65.pact

# Each row has the kind of a function of records with four fields, what follows its statements 0 to 3, the rule that is broken, and the statement that breaks it.
while IFS='|' read -r kind statements rule statement; do
    printf 'pact 1\nfields 4\nfunction f %s\nr7 = new\nif v0\nv30 = null\nelse\nv31 = null\nend\n%b\nend\n' "$kind" "$statements" >"$scratch/text.pact"
    count gives 6 '' "function f: V$rule at statement $statement\n" sets text.pact
done <<END
map|if v0\nv0 = null\nelse\nemit r8\nend|1|6
map|r0 = copy left|2|4
map|set r0 4 v0|3|4
map|v0 = get in 4|3|4
reduce 1|v0 = key 1|4|4
map|$(repeated 9 'if v0\n')v0 = null\n$(repeated 9 'else\nv0 = null\nend\n')|5|12
reduce 1|repeat 1\neach x1 of group\nrepeat 1\nrepeat 1\nend\nend\nend\nend|6|7
map|$(repeated 997 'emit r0\n')|7|1000
map|repeat 1000\nrepeat 101\nend\nend|8|5
END
