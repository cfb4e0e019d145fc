# What the documents show: shell blocks that call `pact`, with what they write; links; and the crates in the ledger.

# The documents' folder for these blocks, which may write files: a copy of this folder, and the program beside it.
shown=$scratch/documents
mkdir "$shown"
cp -r . "$shown/examples"
printf '#!/usr/bin/env bash\nexec %q "$@"\n' "$pact" >"$shown/pact"
chmod +x "$shown/pact"

# Of each shell block with nothing between it and a block of another kind, a file NAME.LINE.sh and NAME.LINE.out, where NAME is the
# document and LINE that of the second block.
take_blocks() {
    awk -v to="$shown" '
        FNR == 1 { inside = 0; command = ""; document = FILENAME; sub(/.*\//, "", document) }
        /^```/ && inside {
            inside = 0
            if (kind == "sh") { command = text; next }
            if (command == "") next
            name = to "/" document "." opened
            printf "%s", command >(name ".sh")
            printf "%s", text >(name ".out")
            close(name ".sh")
            close(name ".out")
            command = ""
            next
        }
        /^```/ { inside = 1; opened = FNR; kind = substr($0, 4); text = ""; if (kind == "sh") command = ""; next }
        inside { text = text $0 "\n"; next }
        NF { command = "" }' "$@"
}
# Whether a block's commands write what stands behind it.
is_as_shown() {
    (cd "$shown/examples" && sed 's/^cd examples && //' "../$1.sh" | bash >"$scratch/out" 2>&1)
    is_file 'both streams' "$scratch/out" "$shown/$1.out"
}
take_blocks ../README.md ../docs/*.md
for block in "$shown"/*.sh; do
    # other scripts have checks of their own
    if ! grep -qvE '^(cd examples && )?(\.\./pact|split|sed) ' "$block" && ! grep -q '|' "$block"; then
        count is_as_shown "$(basename "$block" .sh)"
    fi
done

# The documents' links, each with its document; those to other hosts are left alone.
links_of() {
    awk '{
        rest = $0
        while (match(rest, /\]\([^)]*\)/)) {
            target = substr(rest, RSTART + 2, RLENGTH - 3)
            if (target !~ /:\/\//) print FILENAME, target
            rest = substr(rest, RSTART + RLENGTH)
        }
    }' "$@"
}
# Whether a heading of a document has this anchor: its words in small letters, with nothing else but `-` and `_`, and a `-` for each blank.
has_anchor() {
    awk -v wanted="$2" '
        /^```/ { inside = !inside }
        !inside && /^#+ / {
            heading = tolower($0)
            sub(/^#+ /, "", heading)
            gsub(/[^a-z0-9 _-]/, "", heading)
            gsub(/ /, "-", heading)
            if (heading == wanted) found = 1
        }
        END { exit !found }' "$1"
}
leads_somewhere() {
    local document=${2%%#*} anchor=${2#*#}
    if [ -z "$document" ]; then document=$1; else document=$(dirname "$1")/$document; fi
    [ -e "$document" ] || return 1
    [ "$anchor" = "$2" ] || has_anchor "$document" "$anchor"
}
while read -r document target; do
    count leads_somewhere "$document" "$target"
done < <(links_of ../README.md ../docs/*.md README.md)

# The ledger has each crate that isn't one of tests.
while read -r crate; do
    count grep -q "^### .*\`$crate\`" ../docs/ledger.md
done < <(sed -n 's/^\([a-z0-9_]*\)[^#]*:.*/\1/p' ../crates.txt | grep -v '_tests$')

# No line of a document is longer than 120 bytes, but for rows of tables and what stands in blocks.
has_short_lines() {
    awk '/^```/ { inside = !inside } !inside && !/^\|/ && length($0) > 120 { long = 1 } END { exit long }' "$1"
}
for document in ../README.md ../docs/*.md ../bench/README.md ../fuzz/README.md ../tests/README.md README.md; do
    count has_short_lines "$document"
done

# Each line of `pact sets` that a document shows is one of some program here.
for program in *.pact shop/*.pact; do
    "$pact" sets "$program" 2>/dev/null
done | sort -u >"$scratch/all_sets"
while IFS= read -r line; do
    count grep -qxF "$line" "$scratch/all_sets"
done < <(grep -hE '^[a-z][a-z0-9_]* (map|reduce|match|cross|cogroup) reads ' ../README.md ../docs/*.md | sort -u)

# Each piece of a program that the idioms show has its lines from a program here, in their order, without comments and blanks.
bare_lines() {
    sed 's/#.*//; s/^[[:blank:]]*//; s/[[:blank:]]*$//; /^$/d' "$@"
}
for program in *.pact; do
    bare_lines "$program" >"$shown/$program.bare"
done
is_of_a_program() {
    awk -v piece="$1" '
        BEGIN { while ((getline line <piece) > 0) wanted[++lines] = line; next_one = 1 }
        FNR == 1 { found = found || next_one > lines; next_one = 1 }
        $0 == wanted[next_one] { next_one++ }
        END { exit !(found || next_one > lines) }' "$shown"/*.bare
}
# What stands behind a shell block is what that writes.
awk -v to="$shown/idiom" '
    /^## Pitfalls/ { exit }
    /^```/ && inside { inside = 0; close(name); next }
    /^```/ { inside = 1; name = "/dev/null"; if ($0 == "```" && !is_shown) name = to "." FNR; is_shown = $0 == "```sh"; next }
    inside { print >name }' ../docs/idioms.md
for piece in "$shown"/idiom.*; do
    bare_lines "$piece" >"$piece.lines"
    count is_of_a_program "$piece.lines"
done

# Each program that the idioms name is there, and each one with a query in its comment is named by them.
while read -r program; do
    count test -f "$program"
done < <(grep -o '`[a-z_0-9]*\.pact`' ../docs/idioms.md | tr -d '`' | sort -u)
for program in $(grep -l '^# SQL: ' ./*.pact); do
    [ "$program" = ./discount.pact ] || count grep -q "\`${program#./}\`" ../docs/idioms.md
done

# Each row of their table has a program with such a query, and ../README.md says how many rows there are.
queries=0
while read -r program; do
    queries=$((queries + 1))
    count grep -q '^# SQL: ' "$program"
done < <(sed -n 's/^| .* | `\([a-z_0-9]*\.pact\)` | .* |$/\1/p' ../docs/idioms.md)
count grep -q "has $queries SQL queries" ../README.md
