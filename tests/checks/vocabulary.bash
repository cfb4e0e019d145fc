# The fixed words of the language, as docs/language.md has them, are those that `text_marks` tries in place of a faulty word.

# The words of code spans and code blocks in the parts that define statements and declarations, without names, numbers and operands.
words_of_language() {
    awk '
        /^## (Statements|Declarations)$/ { wanted = 1; next }
        /^##/ { wanted = 0 }
        !wanted { next }
        /^```/ { fenced = !fenced; next }
        fenced { print; next }
        { count = split($0, parts, "`"); for (i = 2; i < count; i += 2) print parts[i] }' "$1" | tr -s ' ' '\n' | grep -xE '[a-z]+|='
}
words_tried() {
    grep -oE 'b"[^"]*"' "$1" | sed 's/^b"\(.*\)"$/\1/'
}
count test "$(words_of_language ../docs/language.md | sort -u)" = "$(words_tried ../crates/text_marks/src/vocabulary.rt | sort)"
