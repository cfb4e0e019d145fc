# How deep the crates of crates.txt are built on each other, and how many functions each has. Crates of tests are left out.

# A longest chain of crates, from the top down, each with a blank after it: of these lines, or of this file.
longest_chain() {
    awk -F: '
        function chain_of(crate,    names, count, i, longest, length_of, below) {
            if (crate in chains) return chains[crate]
            count = split(uses[crate], names, " ")
            longest = 0
            below = ""
            for (i = 1; i <= count; i++) {
                if (!(names[i] in uses)) continue
                chain_of(names[i])
                length_of = lengths[names[i]]
                if (length_of > longest) { longest = length_of; below = chains[names[i]] }
            }
            lengths[crate] = longest + 1
            return chains[crate] = crate " " below
        }
        !/^#/ && NF > 1 { name = $1; sub(/ .*/, "", name); uses[name] = $2; listed[++crates] = name }
        END {
            for (i = 1; i <= crates; i++) {
                if (listed[i] ~ /_tests$/) continue
                chain_of(listed[i])
                if (lengths[listed[i]] > most) { most = lengths[listed[i]]; found = chains[listed[i]] }
            }
            print found
        }' "$@"
}
is_short_chain() { [ $# -ge 1 ] && [ $# -le 8 ]; }
read -ra chain < <(longest_chain ../crates.txt)
count is_short_chain "${chain[@]}"
# which chain is found, and that nine are too many
count test "$(printf 'a:\nb: a lib\nc: a b\nd_tests: c\n' | longest_chain)" = 'c b a '
count test "$(printf 'top status=2: low\n# other: top\nlow:\n' | longest_chain)" = 'top low '
accepts_nine() { is_short_chain a b c d e f g h i; }
count test "$(accepts_nine || echo no)" = no

# How many functions of a crate's sources are outside of tests.
functions_in() {
    awk '
        FNR == 1 { tests = 0 }
        /#\[cfg\(test\)\]/ { tests = 1 }
        !tests && /^ *(pub(\([a-z]*\))? )?(const )?(unsafe )?fn / { functions++ }
        END { print functions + 0 }' "$@"
}
# A crate, how many functions it has, and how many it may have.
has_few_functions() { [ "$2" -gt 0 ] && [ "$2" -le "$3" ]; }
while read -r crate; do
    count has_few_functions "$crate" "$(functions_in "../crates/$crate"/src/*.rt)" 100
done < <(sed -n 's/^\([a-z0-9_]*\)[^#]*:.*/\1/p' ../crates.txt | grep -v '_tests$')
printf 'fn a() {}\nimpl B {\n    pub(crate) fn b() {}\n    // fn c\n}\npub const fn d() {}\n#[cfg(test)]\nfn e() {}\n' >"$scratch/functions.rt"
count test "$(functions_in "$scratch/functions.rt" "$scratch/functions.rt")" = 6
