# What docs/tutorial.md shows: its commands, run one after the other as a reader runs them, print what it shows, and its programs are those of shop/.

# The reader's folder: the parts of a clone that the commands name.
tutorial=$scratch/tutorial
mkdir -p "$tutorial/clone/examples" "$tutorial/blocks"
cp -r shop "$tutorial/clone/examples"
rm -f "$tutorial"/clone/examples/shop/*_rows.csv   # of a reader who worked in this folder
printf '#!/usr/bin/env bash\nexec %q "$@"\n' "$pact" >"$tutorial/clone/pact"
chmod +x "$tutorial/clone/pact"
ln -s "$(readlink -f ../explain)" "$tutorial/clone/explain"
export PACT_EXPLAIN=${PACT_EXPLAIN:-$PWD/../release/pact_explain}

# Each shell block becomes LINE.sh, and the block right after it LINE.out, which is empty if there is none; LINE is that of the first.
awk -v to="$tutorial/blocks" '
    /^```/ && inside {
        inside = 0
        if (name != "") { printf "%s", text >(name kind); close(name kind) }
        if (kind == ".out") name = ""
        next
    }
    /^```/ {
        inside = 1
        text = ""
        if (substr($0, 4) == "sh") {
            kind = ".sh"
            name = sprintf("%s/%04d", to, FNR)
            printf "" >(name ".out")
            close(name ".out")
        } else {
            kind = ".out"
        }
        next
    }
    inside { text = text $0 "\n"; next }
    NF { name = "" }' ../docs/tutorial.md

# shellcheck disable=SC2016
# One shell runs all of them, so that a `cd` holds for those after it.
(cd "$tutorial/clone" && bash -c 'for block in "$1"/*.sh; do . "$block" >"${block%.sh}.got" 2>&1 </dev/null; done' run "$tutorial/blocks")

prints_what_is_shown() {
    is_file 'both streams' "$1.got" "$1.out" && return
    echo "docs/tutorial.md, line $((10#$(basename "$1"))): these commands print something else:"
    cat "$1.sh"
    return 1
}
for block in "$tutorial"/blocks/*.sh; do
    count prints_what_is_shown "${block%.sh}"
done

# Each program of shop/ is run on the page.
for program in shop/*.pact; do
    count grep -q "pact run $(basename "$program")" ../docs/tutorial.md
done
