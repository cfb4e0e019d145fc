# The man page and the completions have each command with its options, as docs/commands.md lists them; the version is the same in all places; and
# each library that crates.txt names is listed with its licence.

manual=../docs/pact.1
completions=../completions/pact.bash

# A line `COMMAND OPTION OPTION ..` for each command.
commands_of_page() {
    awk -F'|' '/^## / { exit } /^\| `[a-z]+ [A-Z]/ {
        text = $2
        gsub(/[`\[\]]/, "", text)
        count = split(text, words, " ")
        line = words[1]
        for (i = 2; i <= count; i++) if (words[i] ~ /^--/) line = line " " words[i]
        print line
    }' ../docs/commands.md | sort
}
commands_of_manual() {
    sed -n '/^\.SH SYNOPSIS/,/^\.SH DESCRIPTION/p' "$manual" | tr -d '\\[]' | awk '
        /^\.B pact / { if (line != "") print line; line = $3 }
        / --/ { for (i = 1; i <= NF; i++) if ($i ~ /^--/) line = line " " $i }
        END { print line }' | sort
}
# What the completions offer behind each command.
commands_of_completions() (
    # shellcheck source=/dev/null
    . "$completions" || exit 1
    COMP_WORDS=(pact '') COMP_CWORD=1
    _pact
    for command in "${COMPREPLY[@]}"; do
        COMP_WORDS=(pact "$command" --) COMP_CWORD=2
        _pact
        echo "$command" "${COMPREPLY[@]}"
    done | sort
)
same_commands() {
    is_text 'the commands' "$("$1")" "$(commands_of_page)"
}
count test "$(commands_of_page | wc -l)" -eq 8
count same_commands commands_of_manual
count same_commands commands_of_completions

version=$(cat ../VERSION)
count grep -q "^\.TH PACT 1 \".*\" \"pact $version\"" "$manual"
count grep -q "^## $version " ../CHANGELOG.md

# `man` shows the page without a warning.
if have man 'how the manual page is shown' && have groff 'how the manual page is shown'; then
    shows_without_warning() { [ -z "$(LC_ALL=C.UTF-8 MANWIDTH=80 man --warnings -l "$manual" 2>&1 >/dev/null)" ]; }
    count shows_without_warning
fi

# Of each statement's crate, the libraries that aren't of this repository.
while read -r library; do
    count grep -q "^| \`$library\`" ../release/THIRD-PARTY.md
done < <(awk -F: '!/^#/ && NF > 1 { split($1, head, " "); own[head[1]]; names = names " " $2 }
    END { count = split(names, all, " "); for (i = 1; i <= count; i++) if (!(all[i] in own)) print all[i] }' ../crates.txt | sort -u)

# The released program is a file that tools for programs can read: packagers ask it for the libraries that it needs.
needs_the_c_library() { objdump -f ../release/pact_program >/dev/null 2>&1 && readelf -d ../release/pact_program | grep -q '(NEEDED).*\[libc\.so\.6\]'; }
if have objdump 'what the released program needs'; then
    count needs_the_c_library
fi

# What docs/installing.md shows puts the program, its page and its completions into a home of their own, and takes them away again.
shown_under() { # a heading: its first block of commands
    awk -v heading="## $1" '/^## / { inside = $0 == heading } /^```/ && shown { exit } shown; inside && /^```sh/ { shown = 1 }' ../docs/installing.md
}
home=$scratch/home
mkdir "$home"
follows() { [ -n "$(shown_under "$1")" ] && (cd .. && HOME=$home bash -e <(cd tests && shown_under "$1") >/dev/null 2>&1); }
is_installed() {
    cmp -s "$home/.local/bin/pact" ../release/pact_program && [ "$("$home/.local/bin/pact" gen 1 2 | wc -l)" = 2 ] &&
        cmp -s "$home/.local/share/man/man1/pact.1" "$manual" && cmp -s "$home/.local/share/bash-completion/completions/pact" "$completions" &&
        "$home/.local/bin/explain" 'function f: V3 at statement 2' 2>&1 </dev/null | grep -q '^explain: '
}
is_removed() { [ -z "$(find "$home" -type f -o -type l)" ]; }
count follows Install
count is_installed
count follows Remove
count is_removed
