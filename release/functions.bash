# shellcheck shell=bash
# What the launcher, the release and the gate share: which sources the program is made of, and of which a program was made. The launcher reads this
# at each start, so what only a build or a release needs is in build.bash.
# Whoever reads this in has set `root`, the top of the repository. A folder with a program NAME holds NAME and what it was built of, `built_of` for
# `pact_program` and `NAME.built_of` for another one, whose lines are
#   sources SUM       the checksum of the sources, as sum_of_sources has it
#   toolchain LINE    what `rt version` prints
#   program SUM       the checksum of the program
#   size BYTES        its size
# Checksums are SHA-256.

: "${root:?}"
released=$root/release
# What belongs to this checkout alone lies outside of it, since it may be read-only: the program that was built here, the trees in which it was
# proved, and the folder that was chosen last.
own=${XDG_CACHE_HOME-}
[[ $own == /* ]] || own=${HOME:-/dev/null}/.cache
own=$own/pact$root/@
built=$own/built
marker=$own/marker

# ---- sources

# The crates that a crate stands on, itself among them, in the order of crates.txt.
crates_of() {
    awk -F: -v top="$1" '
        /^[a-z0-9_]+.*:/ { split($1, words, " "); name[++lines] = words[1]; below[words[1]] = $2 }
        function visit(crate, names, count, i) {
            if (!(crate in below) || crate in visited) return
            visited[crate] = 1
            count = split(below[crate], names, " ")
            for (i = 1; i <= count; i++) visit(names[i])
        }
        END { visit(top); for (i = 1; i <= lines; i++) if (name[i] in visited) print name[i] }' "$root/crates.txt"
}

# The checksum of standard input.
sum_of() {
    local sum
    sum=$(sha256sum) && echo "${sum%% *}"
}

# The checksum over crates.txt, HANDLES and every file below src/, specs/ and proofs/ of a program's crates, with their names. The toolchain refuses
# links there, so none is followed.
sum_of_sources() (
    cd "$root" || exit 1
    places=(crates.txt HANDLES)
    for crate in $(crates_of "${1:-pact_program}"); do
        for part in "crates/$crate"/{src,specs,proofs}; do
            [ ! -d "$part" ] || places+=("$part")
        done
    done
    find "${places[@]}" -type f -print0 | LC_ALL=C sort -z | xargs -0 sha256sum | sum_of
)

# ---- programs

# The file that says what a program was built of.
record_of() {
    case ${1:-pact_program} in
    pact_program) echo built_of ;;
    *) echo "$1.built_of" ;;
    esac
}

# What that file of a folder has behind a word, of a program.
built_of() {
    sed -n "s/^$2 //p" "$1/$(record_of "${3-}")" 2>/dev/null
}

# Whether this machine can start the program. Without words it prints what words it takes, and ends with 2, or with 0 if that is its answer.
runs_here() {
    "$1" >/dev/null 2>&1
    case $? in
    0 | 2) ;;
    *) return 1 ;;
    esac
} 2>/dev/null

# Why the program of a folder can't stand for the sources with this checksum; nothing, where it can.
why_not() {
    local folder=$1 sources=$2 name=${3:-pact_program}
    if ! [ -f "$folder/$name" ] || ! [ -f "$folder/$(record_of "$name")" ]; then
        echo 'is missing'
    elif [ "$(built_of "$folder" sources "$name")" != "$sources" ]; then
        echo 'is of other sources'
    elif [ "$(sum_of <"$folder/$name")" != "$(built_of "$folder" program "$name")" ]; then
        echo 'is damaged'
    elif ! runs_here "$folder/$name"; then
        echo "doesn't run here (it is for Linux on x86-64 with the GNU C library, 2.34 or later, and has to be executable)"
    fi
}

# Whether the program that was built here is of the sources with this checksum, and of the toolchain that is there, if there is one.
is_built_of() {
    [ -z "$(why_not "$built" "$1")" ] || return 1
    ! command -v rt >/dev/null || [ "$(rt version)" = "$(built_of "$built" toolchain)" ]
}

# ---- the choice

# All that a choice of this folder rests on, as the file system has it: where something was written, made, renamed or moved since, the lists differ.
# A program that was built here is of one toolchain: the command, and the compiler and its parts that stand beside it.
listing() {
    local places=("$root"/{crates.txt,HANDLES,release} "$root"/crates/*/{src,specs,proofs} "$1") toolchain
    if [ "$1" = "$built" ] && toolchain=$(command -v rt); then
        toolchain=$(readlink -f -- "$toolchain")
        places+=("${toolchain%/*}"/{rt,rt-*,rtlib*,rattle,rattle-*})
    fi
    echo "$1"
    find "${places[@]}" -printf '%p %i %s %C@\n' 2>/dev/null
}

# Sets `folder` to the one that was chosen last, where nothing has changed since.
find_last_choice() {
    { read -r folder <"$marker"; } 2>/dev/null && listing "$folder" | cmp -s - "$marker"
}

# Keeps what was chosen while the file system was as this listing says, so that later calls take no checksums.
keep_choice() {
    # A `find` without -printf lists nothing, which would never change.
    [[ $1 == *$'\n'* ]] && mkdir -p "$own" || return
    { printf '%s\n' "$1" >"$marker.$$" && mv -T "$marker.$$" "$marker"; } || rm -f "$marker.$$"
} 2>/dev/null

# Sets `folder` to the one whose program is to run, and builds that where there is none. What is listed is listed before it is read, so that the
# next call sees what changed in between.
choose_folder() {
    local of_built of_released sources why
    of_built=$(listing "$built")
    of_released=$(listing "$released")
    sources=$(sum_of_sources) || return 1
    folder=$built
    if is_built_of "$sources"; then
        keep_choice "$of_built"
        return 0
    fi
    why=$(why_not "$released" "$sources")
    if [ -z "$why" ]; then
        folder=$released
        keep_choice "$of_released"
        return 0
    fi
    if ! command -v rt >/dev/null; then
        echo "pact: the released program $why, and the toolchain's command rt isn't on the PATH to build another" >&2
        return 1
    fi
    echo "pact: the released program $why, so one is built" >&2
    # shellcheck source=release/build.bash
    . "$released/build.bash" && build_alone >&2
}
