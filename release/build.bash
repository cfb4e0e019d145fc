# shellcheck shell=bash
# How a program is built of the sources that are there, and put into a folder. The launcher reads this in only to build one; release/make and
# release/check do too. It goes on from functions.bash, which is read in before.

: "${root:?}" "${own:?}" "${built:?}"

# ---- a program's file

# Puts a program into a folder under a name, the sources having this checksum.
put_program() {
    local folder=$1 program=$2 sources=$3 name=${4:-pact_program} toolchain
    # the trap would stay for the callers, which have no such folder
    trap 'rm -f "$folder/program.$$" "$folder/built_of.$$"; trap - RETURN' RETURN
    toolchain=$(rt version) && mkdir -p "$folder" && cp "$program" "$folder/program.$$" && chmod 755 "$folder/program.$$" || return 1
    printf '%s\n' "sources $sources" "toolchain $toolchain" "program $(sum_of <"$folder/program.$$")" \
        "size $(stat -c %s "$folder/program.$$")" >"$folder/built_of.$$" || return 1
    # Whoever looks between the two finds another checksum, and so no program.
    mv -T "$folder/program.$$" "$folder/$name" && mv -T "$folder/built_of.$$" "$folder/$(record_of "$name")"
}

# A number at a place of an ELF file: how many bytes it has, and where.
number_at() {
    local number
    read -r number < <(od -An -t "u$2" -j "$3" -N "$2" "$1") && echo "$number"
}

# The linked program up to the end of what is loaded when it runs. What comes after that serves debuggers only. The table
# of sections is part of it, so the header says that there is none: tools such as objdump refuse a table beyond the end.
loaded_part() {
    local program=$1 headers size count i at end=0 last=0
    # the four bytes with which such a file begins
    [ "$(number_at "$program" 4 0)" = $((0x464c457f)) ] || return 1
    headers=$(number_at "$program" 8 32) && size=$(number_at "$program" 2 54) && count=$(number_at "$program" 2 56) || return 1
    for ((i = 0; i < count; i++)); do
        at=$((headers + i * size))
        end=$(($(number_at "$program" 8 $((at + 8))) + $(number_at "$program" 8 $((at + 32)))))
        [ "$end" -le "$last" ] || last=$end
    done
    head -c 40 "$program" && printf '\0\0\0\0\0\0\0\0' && tail -c +49 "$program" | head -c 12 && printf '\0\0\0\0' &&
        tail -c +65 "$program" | head -c $((last - 64))
}

# ---- a build

# Each crate has a tree of its own with the crates below it, since the toolchain lets one command at a time work in a tree. What is proved in one is
# linked into those of the crates above. `trees` is the folder that has them.

# Puts a crate and those below it, as they stand in the copy of the sources, into the crate's tree, and the libraries that were built of these.
# What was proved there before stays beside them.
fill_tree() {
    local crate=$1 tree=$trees/$1 below other part
    below=$(crates_of "$crate")
    mkdir -p "$tree/crates" && cp "$root/HANDLES" "$tree/HANDLES" || return 1
    grep -E "^($(paste -sd '|' <<<"$below"))( [^:]*)?:" "$root/crates.txt" >"$tree/crates.txt" || return 1
    for other in "$tree"/crates/*/; do
        grep -qx "$(basename "$other")" <<<"$below" || rm -rf "$other"
    done
    for other in $below; do
        mkdir -p "$tree/crates/$other/out" || return 1
        for part in src specs proofs; do
            rm -rf "${tree:?}/crates/$other/$part"
            [ ! -d "$trees/sources/$other/$part" ] || cp -al "$trees/sources/$other/$part" "$tree/crates/$other" || return 1
        done
        [ "$other" != "$crate" ] || continue
        rm -rf "$tree/crates/$other/out/rlib"
        cp -al "$trees/$other/crates/$other/out/rlib" "$tree/crates/$other/out" || return 1
    done
}

# Proves a crate by so many processes, less eagerly by so much, and builds its library or, of the program, links it.
prove_crate() {
    fill_tree "$1" && cd "$trees/$1/crates/$1" || return 1
    if [ "$1" = pact_program ]; then
        # What an older build linked may not pass for what this one links.
        rm -f out/pact_program
        # rt runs what it links; with no words that does nothing but tell the usage
        exec rt run
    fi
    exec nice -n "$3" rt lib --jobs "$2"
} </dev/null >"$trees/$1.log" 2>&1

# How many processes there may be: two for each processor, as far as there are three gigabytes for each.
processes_at_most() {
    awk -v processors="$(nproc)" '
        $1 == "MemAvailable:" { room = int($2 / 3000000) }
        END { print room < 1 ? 1 : room < 2 * processors ? room : 2 * processors }' /proc/meminfo
}

# The program's crates, each behind how many stand above it in the longest chain of crates that stand on each other; the longest first.
crates_by_chain() {
    awk -F: -v wanted="$(crates_of pact_program)" '
        BEGIN { count = split(wanted, names, "\n"); for (i = 1; i <= count; i++) chain[names[i]] = 0 }
        /^[a-z0-9_]+.*:/ { split($1, words, " "); name[++lines] = words[1]; below[words[1]] = $2 }
        END {
            for (line = lines; line > 0; line--) {
                if (!(name[line] in chain)) continue
                count = split(below[name[line]], names, " ")
                for (i = 1; i <= count; i++)
                    if (names[i] in chain && chain[names[i]] <= chain[name[line]]) chain[names[i]] = chain[name[line]] + 1
            }
            for (crate in chain) print chain[crate], crate
        }' "$root/crates.txt" | sort -k 1,1nr -k 2
}

# Proves all crates of the program, each as soon as those below it are proved. One of them, that with most above it, may use all processors; the
# others have one process each, and what it leaves.
prove_crates() {
    local -A waits_for=() begun=() crate_of=()
    local waiting=() crate other processes jobs beside first='' failed='' done_count=0 total process status
    mapfile -t waiting < <(crates_by_chain | cut -d ' ' -f 2)
    total=${#waiting[@]}
    processes=$(processes_at_most)
    jobs=$(nproc)
    [ "$jobs" -lt "$processes" ] || jobs=$(((processes + 1) / 2))
    beside=$((processes - jobs))
    for crate in "${waiting[@]}"; do
        waits_for[$crate]=$(crates_of "$crate" | grep -vx "$crate")
    done
    while :; do
        for crate in "${waiting[@]}"; do
            [ -z "$failed" ] || break
            [ -z "${waits_for[$crate]}" ] || continue
            if [ -z "$first" ]; then
                first=$crate
                prove_crate "$crate" "$jobs" 0 &
            elif [ "$beside" -gt 0 ]; then
                beside=$((beside - 1))
                prove_crate "$crate" 1 10 &
            else
                break
            fi
            begun[$crate]=$(date +%s)
            crate_of[$!]=$crate
        done
        for crate in "${crate_of[@]}"; do
            mapfile -t waiting < <(printf '%s\n' "${waiting[@]}" | grep -vx -e "$crate" -e '')
        done
        [ ${#crate_of[@]} -gt 0 ] || break
        while :; do
            for process in "${!crate_of[@]}"; do
                # `wait -n` would miss one that ends while another is begun
                kill -0 "$process" 2>/dev/null || break 2
            done
            sleep 0.1
        done
        wait "$process"
        status=$?
        crate=${crate_of[$process]}
        unset "crate_of[$process]"
        if [ "$crate" = "$first" ]; then first=''; else beside=$((beside + 1)); fi
        # the program's own status is that of a call without words
        if [ "$crate" = pact_program ]; then [ -x "$trees/$crate/crates/$crate/out/pact_program" ]; status=$?; fi
        if [ "$status" -ne 0 ]; then
            failed=$crate
            echo "pact: $crate failed (log: $trees/$crate.log)"
            tail -n 20 "$trees/$crate.log" | sed 's/^/    /'
            continue
        fi
        done_count=$((done_count + 1))
        echo "pact: $done_count of $total crates: $crate, $(($(date +%s) - begun[$crate])) s"
        for other in "${waiting[@]}"; do
            waits_for[$other]=$(grep -vx "$crate" <<<"${waits_for[$other]}")
        done
    done
    [ -z "$failed" ]
}

# Proves and links the program of the sources that are there.
build() {
    local trees=$own/trees sources started crate part
    started=$(date +%s)
    while :; do
        sources=$(sum_of_sources) && rm -rf "$trees/sources" || return 1
        for crate in $(crates_of pact_program); do
            mkdir -p "$trees/sources/$crate" || return 1
            for part in "$root/crates/$crate"/{src,specs,proofs}; do
                [ ! -d "$part" ] || cp -R "$part" "$trees/sources/$crate" || return 1
            done
        done
        # What changed while it was copied is copied again.
        [ "$sources" != "$(sum_of_sources)" ] || break
    done
    echo "pact: each proof is checked, by $(nproc) processors; from nothing that is some 105 processor minutes"
    # A build that is ended from outside ends what it began.
    trap 'kill $(jobs -p) 2>/dev/null; exit 143' INT TERM HUP
    prove_crates || return 1
    put_program "$built" "$trees/pact_program/crates/pact_program/out/pact_program" "$sources" && echo "pact: built in $(($(date +%s) - started)) s"
}

# One builds at a time, and one that has waited finds the program built.
build_alone() {
    if ! mkdir -p "$own" 2>/dev/null || ! [ -w "$own" ]; then
        echo "pact: nothing can be built in $own; XDG_CACHE_HOME may name another place"
        return 1
    fi
    exec 9>"$own/build.lock"
    if command -v flock >/dev/null && ! flock -n 9; then
        echo 'pact: another call is building it, which is waited for'
        flock 9
    fi
    is_built_of "$(sum_of_sources)" || build
    local status=$?
    exec 9>&-
    [ "$status" -eq 0 ] || echo 'pact: the build failed'
    return "$status"
}
