# Faults of the world outside: files that can't be opened or change while they are read, streams that take nothing or are closed, limits of memory,
# of a file's size and of the stack; and texts that end anywhere.

# What is limited, or cut off, is the program itself: the launcher is a shell, which needs things of its own.
program=${PACT_PROGRAM:-$(
    # shellcheck source=/dev/null
    root=$(cd .. && pwd -P) && . ../release/functions.bash && { find_last_choice || choose_folder; } >/dev/null && echo "$folder/pact_program"
)}
outside=$scratch/outside
mkdir "$outside"
cp ./*.pact ./*.csv certificates/push.good.json "$outside"
# Whether a command in that folder has this status, and writes these texts, in which escapes stand for bytes: status, standard output, standard
# error, and the command.
does() {
    keep_command "${@:4}"
    (cd "$outside" && exec >"$scratch/out" 2>"$scratch/err" && "${@:4}")
    came_to $? "$1" "$2" "$3"
}
# What waits for ever fails.
patiently() { timeout 20 "$pact" "$@"; }
sum='1,12\n2,-3\n'
# A source of sum.pact with another file.
sum_of_file() { sed "s:s\.csv:$1:" sum.pact >"$outside/$2"; }

# ---- Names and files

mkdir "$outside/folder"
sum_of_file folder of_folder.pact
for command in run plan cert sets; do
    count does 3 '' 'cannot read folder\n' "$pact" "$command" folder
done
for command in run plan cert; do
    count does 3 '' 'cannot read folder\n' "$pact" "$command" of_folder.pact
done
count does 3 '' 'cannot read folder\n' "$pact" check folder push.good.json
count does 3 '' 'cannot read folder\n' "$pact" check push.pact folder
count does 3 '' 'cannot read sum.pact/\n' "$pact" run sum.pact/
ln -s sum.pact "$outside/link.pact"
ln -s nowhere "$outside/nowhere.pact"
ln -s round.pact "$outside/round.pact"
count does 0 "$sum" '' "$pact" run link.pact
count does 3 '' 'cannot read nowhere.pact\n' "$pact" run nowhere.pact
count does 3 '' 'cannot read round.pact\n' "$pact" run round.pact
# The longest name that a file has, and one byte more; a name that isn't UTF-8 is no word.
name_of_255=$(printf '%255s' '' | tr ' ' 'n')
cp sum.pact "$outside/$name_of_255"
count does 0 "$sum" '' "$pact" run "$name_of_255"
count does 3 '' "cannot read n$name_of_255\n" "$pact" run "n$name_of_255"
cp sum.pact "$outside/"$'\xFF.pact'
count does 2 '' 'usage: pact COMMAND ARGUMENTS\n' "$pact" run $'\xFF.pact'
count does 3 '' 'cannot read \n' "$pact" run ''

# Without permission: root has it anyway, so it becomes somebody else for that. That user may reach no folder of ours, so all lies in the open.
in_the_open=$(mktemp -d)
cp "$program" "$in_the_open/pact_program"
cp sum.pact push.pact s.csv "$in_the_open"
chmod 755 "$in_the_open" "$in_the_open/pact_program"
cp "$in_the_open/s.csv" "$in_the_open/closed"
sed 's:s\.csv:closed:' sum.pact >"$in_the_open/of_closed.pact"
chmod 644 "$in_the_open"/*.pact "$in_the_open/s.csv"
chmod 000 "$in_the_open/closed"
by_somebody() { (cd "$in_the_open" && "${somebody[@]}" "$in_the_open/pact_program" "$@"); }
somebody=()
[ "$EUID" != 0 ] || somebody=(setpriv --reuid=65534 --regid=65534 --clear-groups)
if does 0 "$sum" '' by_somebody run sum.pact; then
    count does 3 '' 'cannot read closed\n' by_somebody run closed
    count does 3 '' 'cannot read closed\n' by_somebody run of_closed.pact
    count does 3 '' 'cannot read closed\n' by_somebody check push.pact closed
else
    skipped=$((skipped + 1))
    echo 'skipped: files without permission: root reads them all, and there is no setpriv to be somebody else'
fi
chmod 644 "$in_the_open/closed"
rm -r "$in_the_open"

# ---- Files that are no files, and files that change

# A pipe with a name, whose writer takes its time, or writes nothing.
mkfifo "$outside/fifo"
sum_of_file fifo of_fifo.pact
# Waits for what writes there, which nobody may have read, and answers this status.
ends_with() {
    while kill -0 $! 2>/dev/null; do
        : <>"$outside/fifo"
        sleep 0.01
    done
    return "$1"
}
fed() { # the file's bytes, a part behind each other; `-` waits a moment; then the words
    local parts=$1 part
    for part in $parts; do
        if [ "$part" = - ]; then sleep 0.05; else printf '%b' "$part"; fi
    done >"$outside/fifo" &
    patiently "${@:2}"
    ends_with $?
}
count does 0 "$sum" '' fed '1,5\n2,-3\n1,7\n' run of_fifo.pact
count does 0 "$sum" '' fed '1,5\n2 - ,- 3\n1,7\n' run of_fifo.pact
count does 0 "$sum" '' fed '- 1,5\n2,-3\n1,7' run of_fifo.pact
count does 7 '' 'source s: row 2 column 0: why 1\n' fed '1,5\n - 2' run of_fifo.pact
count does 0 '' '' fed - run of_fifo.pact
count does 5 '' 'fifo:1: text fault 12\n' fed - run fifo
count does 5 '' 'fifo:2: text fault 12\n' fed 'pact\x201\n - \n' sets fifo
count does 9 '' 'certificate refused: not a certificate\n' fed - check push.pact fifo
pours() { cat "$1" >"$outside/fifo" & patiently "${@:2}"; ends_with $?; }
count does 0 "$sum" '' pours sum.pact run fifo
count does 0 'accepted\n' '' pours push.good.json check push.pact fifo
# A program that never ends is too long.
pours_for_ever() { yes '#' >"$outside/fifo" 2>/dev/null & patiently "$@"; ends_with $?; }
count does 8 '' 'fifo is longer than 1048576 bytes\n' pours_for_ever run fifo
# Others that are no files.
sum_of_file /dev/null of_null.pact
count does 0 '' '' "$pact" run of_null.pact
count does 5 '' '/dev/null:1: text fault 12\n' "$pact" run /dev/null
# One that can be opened, and not be read.
[ ! -e /proc/self/mem ] || count does 3 '' 'cannot read /proc/self/mem\n' "$pact" run /proc/self/mem
from_input() { patiently "$@" <"$outside/sum.pact"; }
count does 0 "$sum" '' from_input run /dev/stdin

# A file of 4,096 bytes a row, which another source is read before. As soon as that has ended, the file grows, or is cut, where a row ends. The rows
# that are read are then its first ones: no fewer than there are at least, and no more than there are at most.
row=1,$(printf '%4093s' '' | tr ' ' 'a')
yes "$row" | head -n 2048 >"$outside/long.csv"
cp "$outside/long.csv" "$scratch/long.csv"
cat >"$outside/changing.pact" <<'END'
pact 1
fields 4
source first fifo int:0
source s long.csv int:1 text:2
function count cogroup 1
  v0 = int 0
  v1 = int 1
  each x1 of right
    v0 = addw v0 v1
  end
  r0 = new
  v1 = key 0
  set r0 0 v1
  set r0 3 v0
  emit r0
end
cogroup g count first s by 0 = 1
sink g 0 3
END
grows() { for ((part = 0; part < 50; part++)); do printf '%s\n' "$rows_more" >>"$outside/long.csv"; done; }
is_cut() { truncate -s "$1" "$outside/long.csv"; }
rows_more=$(head -n 10 "$scratch/long.csv")
changes_when_read() { # least and most rows, how long it waits, and what is done
    local i rows
    cp "$scratch/long.csv" "$outside/long.csv"
    {
        echo 1 >"$outside/fifo"
        for ((i = 0; i < $3; i++)); do :; done
        "${@:4}"
    } &
    (cd "$outside" && patiently run changing.pact >"$scratch/out" 2>"$scratch/err")
    ends_with $? || return
    rows=$(cat "$scratch/out")
    is_file 'standard error' "$scratch/err" /dev/null && [ "${rows%,*}" = 1 ] && [ "${rows#*,}" -ge "$1" ] && [ "${rows#*,}" -le "$2" ]
}
for turns in 0 200 1000; do
    count changes_when_read 0 2048 "$turns" is_cut 0
    count changes_when_read 1024 2048 "$turns" is_cut 4194304
    count changes_when_read 2048 2548 "$turns" grows
done

# ---- Streams

# Each command that writes, where standard output takes nothing, or is closed; and closed errors or a closed input, which are no matter.
to_full() { "$pact" "$@" >/dev/full; }
to_none() { "$pact" "$@" >&-; }
without_errors() { "$pact" "$@" 2>&-; }
without_input() { "$pact" "$@" <&-; }
without_any() { "$pact" "$@" <&- >&- 2>&-; }
while read -r words; do
    # shellcheck disable=SC2086
    set -- $words
    count does 4 '' 'cannot write\n' to_full "$@"
    count does 4 '' 'cannot write\n' to_none "$@"
    count does 4 '' '' without_any "$@"
    written=$(cd "$outside" && "$pact" "$@" | sed 's/\\/\\\\/g')
    count does 0 "$written\n" '' without_errors "$@"
    count does 0 "$written\n" '' without_input "$@"
done <<'END'
run sum.pact
run sum.pact --workers 1
plan shop.pact
cert push.pact
check push.pact push.good.json
sets push.pact
gen 1 3
drill 1 3
END
# The rows come first: where they can't be written the counts aren't, and where these can't they stand.
count does 4 '' 'cannot write\n' to_full run sum.pact --counts
count does 4 '' 'cannot write\n' to_none run sum.pact --counts
count does 4 "$sum" '' without_errors run sum.pact --counts
# A refusal has its status, whether or not it can be told.
while IFS='|' read -r status words; do
    # shellcheck disable=SC2086
    count does "$status" '' '' without_errors $words
    # shellcheck disable=SC2086
    count does "$status" '' '' without_any $words
done <<'END'
2|
2|run
3|run none.pact
5|run faulty.pact
6|run no_sink.pact
7|run bad_row.pact
9|check sum.pact push.good.json
END
# Who reads ends early: what it has read are the first bytes, and no signal ends pact.
is_left() {
    local statuses
    "$pact" "$@" 2>"$scratch/err" | head -c 10 >"$scratch/out"
    statuses=("${PIPESTATUS[@]}")
    [ "${statuses[0]}" = 4 ] && [ "$(cat "$scratch/err")" = 'cannot write' ] && "$pact" "$@" 2>/dev/null | head -c 10 | cmp -s - "$scratch/out"
}
count is_left gen 1 100000
printf 'pact 1\nfields 3\nsource s generated.csv int:0 int:1 text:2\nsink s 0 1 2\n' >"$outside/generated.pact"
"$pact" gen 1 30000 >"$outside/generated.csv" # long enough to be read in parts
rows_are_left() (cd "$outside" && is_left run generated.pact)
count rows_are_left

# ---- Limits of the system

# The program with a limit of `ulimit`.
limited() { ulimit -S "$1" "$2" && exec "$program" "${@:3}"; }

# Little memory: the rows, or none and why. What the system needs to start the program at all is found first.
for ((least = 1000; least < 20000; least += 500)); do
    (limited -v "$least" >/dev/null 2>&1)
    [ $? != 2 ] || break
done 2>/dev/null
sed '$d' "$outside/generated.pact" >"$outside/grouped.pact"
sed -n '/^function/,/^reduce/p' sum.pact >>"$outside/grouped.pact"
echo 'sink r 0 1' >>"$outside/grouped.pact"
sed -i 's/set r0 2/set r0 1/' "$outside/grouped.pact"
(cd "$outside" && "$program" run grouped.pact >"$scratch/grouped")
rows_or_none() { # the greatest status, the least, kilobytes of memory, and options
    (cd "$outside" && limited -v "$3" run grouped.pact "${@:4}" >"$scratch/out" 2>"$scratch/err")
    local status=$?
    keep_command limited -v "$3" run grouped.pact "${@:4}"
    if [ "$status" = 0 ] && [ "$2" = 0 ]; then
        came_to_files 0 0 "$scratch/grouped" /dev/null
    else
        came_to "$status" "$1" '' 'out of memory\n'
    fi
}
for options in '--workers 1' '--workers 4' '--workers 4 --local sort'; do
    # shellcheck disable=SC2086
    count rows_or_none 1 1 "$((least + 500))" $options
    for more in 2000 4000 5000 6000 8000 12000 20000 40000; do
        # shellcheck disable=SC2086
        count rows_or_none 1 0 "$((least + more))" $options
    done
    # shellcheck disable=SC2086
    count rows_or_none 0 0 "$((least + 400000))" $options
done

# A source that is read in parts: the rows of each reading, and a bad row after the others with its number in the file.
grouped_on() {
    (cd "$outside" && "$program" run grouped.pact --workers "$1" >"$scratch/out" 2>"$scratch/err")
    came_to_files $? 0 "$scratch/grouped" /dev/null
}
for workers in 1 2 3 4 16; do
    count grouped_on "$workers"
done
{ cat "$outside/generated.csv" && echo '1,none,a'; } >"$outside/last_bad.csv"
sed 's/generated\.csv/last_bad.csv/' "$outside/grouped.pact" >"$outside/last_bad.pact"
for workers in 1 2 4 16; do
    count does 7 '' 'source s: row 30001 column 2: why 2\n' "$program" run last_bad.pact --workers "$workers"
done

# No room for the stack of a thread: one does the work of all.
count does 0 "$sum" '' limited -v "$((least + 2000))" run sum.pact --workers 16
# Stacks that are larger than the memory, so there is room for no thread, and others of which two have room: the threads that there are read a long
# source in parts, start the instances and print a long answer. Two stacks may leave too little memory.
with_large_stacks() { ulimit -S -v 1000000 && ulimit -S -s "$1" && exec "$program" "${@:2}"; }
(cd "$outside" && "$program" run generated.pact >sorted)
has_rows_with_large_stacks() { # kilobytes of a stack, the greatest status, the program's name, its rows, and workers
    (cd "$outside" && with_large_stacks "$1" run "$3" --workers "$5" >"$scratch/out" 2>"$scratch/err")
    case $? in
    0) came_to_files 0 0 "$4" /dev/null ;;
    *) came_to $? "$2" '' 'out of memory\n' ;;
    esac
}
for workers in 2 4 16; do
    for limits in '2000000 0' '300000 1'; do
        # shellcheck disable=SC2086
        count has_rows_with_large_stacks $limits generated.pact "$outside/sorted" "$workers"
        # shellcheck disable=SC2086
        count has_rows_with_large_stacks $limits grouped.pact "$scratch/grouped" "$workers"
    done
    count does 7 '' 'source s: row 30001 column 2: why 2\n' with_large_stacks 2000000 run last_bad.pact --workers "$workers"
done
# Few open files: beside the streams one file is open at a time, since each is closed before the next one is opened.
with_few_files() { ulimit -S -n "$1" && exec "$program" "${@:2}" 3>&- 4>&-; }
count does 0 "$(cat expected/join3.stdout)\n" '' with_few_files 4 run join3.pact

# A file that may not grow: the program is ended by the signal for that, unless whoever starts it, as the launcher does, has it ignore that. Either may
# be where this shell was started so, since it can't undo that.
front_of_rows() { cmp -s -n 10240 "$outside/cut" "$outside/sorted" && [ "$(stat -c %s "$outside/cut")" = 10240 ]; }
is_ignored() { # the signal with this name, by this shell
    local name value
    while read -r name value; do
        [ "$name" != SigIgn: ] || return $((1 - (16#$value >> ($(kill -l "$1") - 1) & 1)))
    done </proc/self/status
    return 1
}
is_told_of_limit() { is_status "$1" 4 && is_text 'standard error' "$(cat "$scratch/err")" 'cannot write'; }
bare_at_limit() {
    (cd "$outside" && ulimit -c 0 && ulimit -S -f 10 && exec "$program" run generated.pact >cut 2>"$scratch/err")
    local status=$?
    { [ "$status" = $((128 + $(kill -l XFSZ))) ] && [ ! -s "$scratch/err" ]; } || { is_ignored XFSZ && is_told_of_limit "$status"; }
} 2>/dev/null
count bare_at_limit
count front_of_rows
ignoring_at_limit() {
    (cd "$outside" && trap '' XFSZ && ulimit -S -f 10 && exec "$program" run generated.pact >cut 2>"$scratch/err")
    is_told_of_limit $?
}
count ignoring_at_limit
count front_of_rows

# The stack: the deepest programs and certificates, on what is usual, on a quarter of it, and on what README.md names.
deepest() { # 16 Reduces in a row, each with three loops and eight branches, one in the other
    local number before=s
    printf 'pact 1\nfields 20\nsource s s.csv int:0 int:1\n'
    for ((number = 0; number < 16; number++)); do
        printf 'function f%d reduce 2\n  r0 = copy first\n  v0 = int 1\n' "$number"
        printf 'each x%d of group\n' 1 2 3
        printf '%s\n' if\ v0{,,,,,,,}
        printf 'v1 = addw v1 v0\nv2 = text "a"\nv2 = cat v2 v2\n'
        printf 'else\nv3 = null\nend\n%.0s' 1 2 3 4 5 6 7 8
        printf 'end\nend\nend\nset r0 %d v1\nset r0 %d v2\nemit r0\nend\n' $((number + 2)) $((number + 3))
        printf 'reduce r%d f%d %s by 0 1\n' "$number" "$number" "$before"
        before=r$number
    done
    echo 'sink r15 0 1 2 17 18'
}
deepest >"$outside/deepest.pact"
nested() { awk -v times="$1" -v word="$2" 'BEGIN { for (i = 0; i < times; i++) printf "%s", word }'; }
{ nested 127 '{"a":'; echo -n 1; nested 127 '}'; } >"$outside/objects.json"
{ nested 127 '['; nested 127 ']'; } >"$outside/lists.json"
{ printf 'pact 1\nfields 1\nfunction f map\n'; nested 64 'if v0\n'; nested 65 'end\n'; printf 'sink f 0\n'; } >"$outside/nested.pact"
{ # 1,000 plans of 16 Maps that stand in any order
    printf 'pact 1\nfields 18\nsource s s.csv int:16 int:17\n'
    before=s
    for ((number = 0; number < 16; number++)); do
        printf 'function f%d map\nr0 = copy in\nset r0 %d v0\nemit r0\nend\nmap m%d f%d %s\n' "$number" "$number" "$number" "$number" "$before"
        before=m$number
    done
    echo "sink $before 0"
} >"$outside/maps.pact"
: >"$outside/none.csv"
# Fifteen CoGroups in a row, each with three loops and eight branches, one in the other: what is pruned is found by a walk down all of them.
{
    printf 'pact 1\nfields 64\nsource s none.csv int:0 int:1 int:2\n'
    before=s
    for ((number = 0; number < 15; number++)); do
        printf 'source t%d none.csv int:%d\nfunction f%d cogroup 1\neach x1 of left\nr0 = copy x1\n' "$number" $((number + 20)) "$number"
        printf 'each x%d of left\n' 2 3
        printf '%s\n' if\ v0{,,,,,,,}
        echo 'v1 = addw v1 v0'
        printf 'else\nv3 = null\nend\n%.0s' 1 2 3 4 5 6 7 8
        printf 'end\nend\nemit r0\nend\nend\ncogroup g%d f%d %s t%d by 0 = %d\n' "$number" "$number" "$before" "$number" $((number + 20))
        before=g$number
    done
    echo "sink $before 0"
} >"$outside/cogroups.pact"
# Twenty loops inside one, each with a loop inside it: 41 loops, of which the 20 innermost have no room and start anew each time.
{
    printf 'pact 1\nfields 64\nsource s none.csv int:0\nfunction f map\n'
    awk 'function reset(first, last, field, records) {
        print "v29 = get in " field
        for (v = first; v <= last; v++) print "v" v " = mov v29"
        for (r = 0; r < records; r++) print "set r" r " " field " v29"
        print "repeat 2"
        for (r = records - 1; r > 0; r--) print "v29 = get r" r - 1 " " field "\nset r" r " " field " v29"
        print "set r0 " field " v" last
        for (v = last; v > first; v--) print "v" v " = mov v" v - 1
        print "v29 = get r" records - 1 " " field "\nv" first " = not v29"
    }
    BEGIN {
        for (r = 0; r < 8; r++) print "r" r " = copy in"
        reset(0, 18, 1, 8)
        for (n = 0; n < 20; n++) {
            reset(19, 23, 2, 1)
            reset(24, 27, 3, 1)
            for (b = 0; b < 16; b++) print "if v31\nend"
            print "end\nend"
        }
        print "end\nemit r0\nend"
    }'
    printf 'map m f s\nsink m 0\n'
} >"$outside/twenty.pact"
on_a_stack() { # kilobytes, status, and words; what stands in the environment is on the stack too
    keep_command pact "${@:3}"
    (cd "$outside" && ulimit -S -s "$1" && exec env -i "$program" "${@:3}" >/dev/null 2>"$scratch/err")
    is_status $? "$2"
}
for kilobytes in 8192 2048 192; do
    for workers in 1 4 16; do
        count on_a_stack "$kilobytes" 0 run deepest.pact --workers "$workers" --local hash
        count on_a_stack "$kilobytes" 0 run deepest.pact --workers "$workers" --local sort
    done
    for command in sets plan cert; do
        count on_a_stack "$kilobytes" 0 "$command" deepest.pact
    done
    count on_a_stack "$kilobytes" 0 run grouped.pact --workers 4
    for command in sets plan; do
        count on_a_stack "$kilobytes" 0 "$command" twenty.pact
    done
    count on_a_stack "$kilobytes" 0 plan maps.pact --plans 1000
    # pruning begins below the frames of what rewrites the task: it took 212 kilobytes
    count on_a_stack "$((kilobytes > 216 ? kilobytes : 216))" 0 run cogroups.pact --plans 1 --prune
    count on_a_stack "$kilobytes" 6 sets nested.pact
    count on_a_stack "$kilobytes" 9 check push.pact objects.json
    count on_a_stack "$kilobytes" 9 check push.pact lists.json
    count on_a_stack "$kilobytes" 0 check push.pact push.good.json
    count on_a_stack "$kilobytes" 0 drill 1 1000 --workers 16
done

# A source of one byte less than it may have, of just as many, and of one more: rows of 4,096 letters, which are a few, and what is left.
printf 'pact 1\nfields 1\nsource s large.csv text:0\nsink s 0\n' >"$outside/large.pact"
letters=$(printf '%4096s' '' | tr ' ' 'a')
yes "$letters" | head -c 67108860 >"$outside/large.csv"
is_large() ( # what is left of the rows, and then how many bytes there are
    cd "$outside" || exit
    printf '%s' "$1" >>"$outside/large.csv"
    [ "$(stat -c %s "$outside/large.csv")" = "$2" ] && "$program" run large.pact 2>"$scratch/err" |
        cmp -s - <(printf '%s\n' "$1" && head -c 67108860 large.csv) && [ ! -s "$scratch/err" ] && truncate -s 67108860 "$outside/large.csv"
)
count is_large 007 67108863
count is_large 0007 67108864
printf '00007' >>"$outside/large.csv"
count does 8 '' 'large.csv is longer than 67108864 bytes\n' "$pact" run large.pact
rm "$outside/large.csv"

# ---- Limits of time

# Programs and certificates that are made to keep pact busy. Each row has a limit in seconds of the processor, since a clock goes on while others have
# the machine. The limits are 3 to 40 times what was measured.
ends_within() { # seconds, and words; what is written is long
    keep_command limited -t "$1" "${@:2}"
    (cd "$outside" && limited -t "$1" "${@:2}" >"$scratch/out" 2>"$scratch/err")
    is_status $? 0
}

# Maps in a row that may stand in any order. Each has three loops inside each other. A loop hands on what it learns along some values and records, by
# one each turn, so it settles only after twice as many turns as there are of both. What the analysis learned of an inner loop is forgotten whenever an
# outer loop takes its next turn, unless the inner loop begins where it settled before.
slow_maps() { # maps, values of a loop, records, and branches in the innermost loop
    awk -v maps="$1" -v values="$2" -v records="$3" -v branches="$4" 'BEGIN {
        print "pact 1\nfields 64\nsource s none.csv int:0 int:1 int:2 int:3"
        for (m = 0; m < maps; m++) {
            print "function f" m " map"
            for (r = 0; r < records; r++) print "r" r " = copy in"
            for (loop = 1; loop <= 3; loop++) {
                last = loop * values
                first = last - values + 1
                print "v0 = get in " loop
                for (v = first; v <= last; v++) print "v" v " = mov v0"
                for (r = 0; r < records; r++) print "set r" r " " loop " v0"
                print "repeat 2"
                for (r = records - 1; r > 0; r--) print "v0 = get r" r - 1 " " loop "\nset r" r " " loop " v0"
                print "set r0 " loop " v" last
                for (v = last; v > first; v--) print "v" v " = mov v" v - 1
                print "v0 = get r" records - 1 " " loop "\nv" first " = not v0"
            }
            for (b = 0; b < branches; b++) print "if v31\nend"
            print "end\nend\nend"
            print "r0 = copy in\nv0 = get in " m + 10 "\nset r0 " m + 10 " v0\nemit r0\nend"
            print "map m" m " f" m " " (m ? "m" m - 1 : "s")
        }
        print "sink m" maps - 1 " 0"
    }'
}
sets_of() { # the number of a map
    printf 'reads {} writes {} control {} touched {1,2,3,%s} emit 1..1 anchor none' $(($1 + 10))
}
slow_maps 1 10 8 850 >"$outside/slow.pact" # 1,000 statements
count does 0 "m0 map $(sets_of 0) order yes\n" '' limited -t 2 sets slow.pact
slow_maps 16 10 8 850 >"$outside/slow16.pact"
count does 0 "$(for ((number = 0; number < 16; number++)); do echo "m$number map $(sets_of $number) order yes"; done)\n" '' limited -t 20 sets slow16.pact
slow_maps 16 6 3 20 >"$outside/plans.pact"
count ends_within 8 plan plans.pact --plans 1000
count ends_within 8 run plans.pact --plans 1000 --prune

count does 0 'm map reads {1,2,3} writes {1,2,3} control {} touched {1,2,3} emit 1..1 anchor none order yes\n' '' limited -t 20 sets twenty.pact

# A CoGroup that puts a key of one side back into records of the other, for which each loop starts anew, so each analysis of it is slow. Maps over it
# may go below it and bring it into other contexts, but it is analysed once for all of them, or four times if it takes a field's number from a register.
slow_cogroup() { # the version, and further statements
    awk -v version="$1" -v more="$2" 'BEGIN {
        printf "pact " version "\nfields 64\nsource s none.csv int:0 int:1 int:2"
        for (m = 0; m < 8; m++) printf " int:" m + 20
        print "\nsource t none.csv int:48\nfunction f cogroup 1"
        print "each x1 of left\nv0 = get x1 0\neach x2 of right\nr0 = copy x2\nset r0 48 v0\nend\nend"
        if (more) print more
        print "each x1 of left"
        for (r = 0; r < 8; r++) print "r" r " = copy x1"
        for (loop = 1; loop <= 2; loop++) {
            last = loop * 12
            first = last - 11
            print "v0 = get x1 " loop
            for (v = first; v <= last; v++) print "v" v " = mov v0"
            for (r = 0; r < 8; r++) print "set r" r " " loop " v0"
            print "repeat 2"
            for (r = 7; r > 0; r--) print "v0 = get r" r - 1 " " loop "\nset r" r " " loop " v0"
            print "set r0 " loop " v" last
            for (v = last; v > first; v--) print "v" v " = mov v" v - 1
            print "v0 = get r7 " loop "\nv" first " = not v0"
        }
        for (b = 0; b < 700; b++) print "if v31\nend"
        print "end\nend\nr0 = copy x1\nemit r0\nend\nend\ncogroup g f s t by 0 = 48"
        for (m = 0; m < 8; m++) {
            print "function f" m " map\nr0 = copy in\nv0 = get in " m + 20 "\nset r0 " m + 30 " v0\nemit r0\nend"
            print "map m" m " f" m " " (m ? "m" m - 1 : "g")
        }
        print "sink m7 0"
    }'
}
slow_cogroup 1 '' >"$outside/cogroup.pact"
for kilobytes in 8192 192; do
    count on_a_stack "$kilobytes" 0 plan cogroup.pact --plans 1
done
count ends_within 8 plan cogroup.pact --plans 1000
slow_cogroup 2 'each x1 of left\nv30 = int 1\nv30 = get x1 @v30\nend' >"$outside/numbered.pact"
count ends_within 16 plan numbered.pact --plans 1000

# Fifteen such CoGroups in a row, with room for one Map more. Each of the sources is shipped, and all their fields are needed, so pruning asks for what
# is needed of each of them, but analyses each CoGroup only once.
{
    awk -v operators=15 -v branches=150 'BEGIN {
        print "pact 1\nfields 64\nsource s none.csv int:0 int:1 int:2"
        for (g = 0; g < operators; g++) {
            print "source t" g " none.csv int:" g + 20 "\nfunction f" g " cogroup 1"
            print "each x1 of left\nv0 = get x1 0\neach x2 of right\nr0 = copy x2\nset r0 " g + 20 " v0\nend\nend"
            print "each x1 of left"
            for (r = 0; r < 8; r++) print "r" r " = copy x1"
            for (loop = 1; loop <= 2; loop++) {
                last = loop * 12
                first = last - 11
                print "v0 = get x1 " loop
                for (v = first; v <= last; v++) print "v" v " = mov v0"
                for (r = 0; r < 8; r++) print "set r" r " " loop " v0"
                print "repeat 2"
                for (r = 7; r > 0; r--) print "v0 = get r" r - 1 " " loop "\nset r" r " " loop " v0"
                print "set r0 " loop " v" last
                for (v = last; v > first; v--) print "v" v " = mov v" v - 1
                print "v0 = get r7 " loop "\nv" first " = not v0"
            }
            for (b = 0; b < branches; b++) print "if v31\nend"
            print "end\nend\nr0 = copy x1\nemit r0\nend\nend"
            print "cogroup g" g " f" g " " (g ? "g" g - 1 : "s") " t" g " by 0 = " g + 20
            sink = sink " " g + 20
        }
        print "sink g" operators - 1 " 0 1 2" sink
    }'
} >"$outside/fifteen.pact"
count ends_within 8 run fifteen.pact --plans 1 --prune

# Certificates of thousands of steps: one that exchanges two slow maps there and back, and one that leads on to other orders of sixteen maps, in which
# nearly each operator stands over others than before.
steps_over() { # maps, steps, and the factor by which the place of the next step is drawn
    awk -v maps="$1" -v steps="$2" -v factor="$3" '
    function found(m) {
        return "{\"anchor\":\"none\",\"control\":[],\"hi\":1,\"lo\":1,\"reads\":[],\"touched\":[1,2,3," m + 10 "],\"writes\":[]}"
    }
    BEGIN {
        for (m = 0; m < maps; m++) order[m] = m
        printf "{\"version\":1,\"steps\":["
        drawn = 1
        for (n = 0; n < steps; n++) {
            drawn = drawn * factor % 65537
            at = drawn % (maps - 1)
            lower = order[at]
            upper = order[at + 1]
            printf "%s{\"rule\":\"map-map\",\"at\":\"m%d\",\"lower\":%s,\"upper\":%s}", n ? "," : "", upper, found(lower), found(upper)
            order[at] = upper
            order[at + 1] = lower
        }
        line = "s"
        for (m = 0; m < maps; m++) line = "m" order[m] "(" line ")"
        printf "],\"plan\":\"%s\"}", line
    }'
}
slow_maps 2 10 8 850 >"$outside/slow2.pact"
steps_over 2 4000 75 >"$outside/back.json"
count does 0 'accepted\n' '' limited -t 5 check slow2.pact back.json
slow_maps 16 4 2 4 >"$outside/orders.pact"
steps_over 16 4000 75 >"$outside/on.json"
count does 0 'accepted\n' '' limited -t 12 check orders.pact on.json

# Eight joins: each round weighs 6,561 layouts of each listed plan.
{
    echo 'pact 1'
    echo 'fields 18'
    printf 'function f match\nr0 = copy join\nemit r0\nend\nsource s0 none.csv int:0 int:1\n'
    before=s0
    for ((number = 1; number <= 8; number++)); do
        printf 'source s%d none.csv int:%d int:%d\n' "$number" $((2 * number)) $((2 * number + 1))
        printf 'match j%d f %s s%d by %d = %d\n' "$number" "$before" "$number" $((2 * number - 1)) $((2 * number))
        before=j$number
    done
    echo 'sink j8 0'
} >"$outside/joins.pact"
count does 0 '' '' limited -t 20 iterate joins.pact s0 10 --plans 50

# ---- Texts that end anywhere

# Each front of a program is refused in one line, but those that name the sink and a field of it. (Those of a certificate: the part `certificates`.)
text=$(cat filter.pact)
is_refused() {
    (cd "$outside" && "$program" run front.pact >"$scratch/out" 2>"$scratch/err")
    [[ $? = [56] ]] && [ ! -s "$scratch/out" ] && [ "$(wc -l <"$scratch/err")" = 1 ]
}
for ((bytes = 0; bytes <= $(wc -c <filter.pact); bytes++)); do
    head -c "$bytes" filter.pact >"$outside/front.pact"
    case ${text:0:bytes} in
    *'sink m 0' | *'sink m 0 ') count does 0 '1\n1\n' '' "$program" run front.pact ;;
    *'sink m 0 1') count does 0 '1,5\n1,7\n' '' "$program" run front.pact ;;
    *) count is_refused ;;
    esac
done
# Each front of a file of rows is rows, or its last row is at fault. Each line has the numbers of bytes, the status, and what is written.
sum_of_file front.csv of_front.pact
while IFS='|' read -r lengths status rows told; do
    for bytes in $lengths; do
        head -c "$bytes" s.csv >"$outside/front.csv"
        count does "$status" "$rows" "$told" "$program" run of_front.pact
    done
done <<'END'
0|0||
1|7||source s: row 1 column 0: why 1\n
2|0|1,0\n|
3 4|0|1,5\n|
5|7||source s: row 2 column 0: why 1\n
6|0|1,5\n2,0\n|
7|7||source s: row 2 column 2: why 2\n
8 9 11|0|1,5\n2,-3\n|
10|7||source s: row 3 column 0: why 1\n
12 13|0|1,12\n2,-3\n|
END

# ---- Short runs of the fuzzers

# Whether a script of ../fuzz with these words finds no fault; what it prints is kept.
fuzz_passes() {
    PROGRAM=$program EXPLAINS=${PACT_EXPLAIN:-$PWD/../release/pact_explain} KEPT=$scratch/kept bash "../fuzz/$1" "${@:2}" >"$scratch/told" 2>&1 ||
        { cat "$scratch/told"; return 1; }
}

# Each word of these programs is replaced by three others. These programs have each of the faults for which `explain` marks another word than the new
# one. A change of one of them changes the numbers.
count fuzz_passes words zz 0 v0 \
    {bad_row,cogroup,count_all,cross,faulty,greet,join,missing,no_sink,notes,push,too_wide,union,uniq,wrong_key}.pact
echo '2631 edits, 92 without a fault, 2228 with a mark under the new word, elsewhere: own 83, missing 39, next 75, literal 9, name 102, key 1, shared 2; 0 failed' \
    >"$scratch/words_marked"
count cmp "$scratch/words_marked" "$scratch/told"

# With a C compiler, each request for memory of some commands is refused in turn. Programs, certificates and rows are edited at random, but each time in
# the same way: the files are listed here, so a new example changes nothing. What the analysis finds is compared with what calls of functions give.
certificates=(push.{good,c1,c2,c3,c5,shape}.json)
if have cc 'requests for memory that are refused, and edits and functions that are made at random'; then
    count fuzz_passes memory --alone 'run sum.pact' 'sets sum.pact' 'cert push.pact --workers 2' 'run shop.pact' 'plan shop.pact' \
        "${certificates[@]/#/check push.pact }" 'run shop.pact --prune' 'run twice.pact --workers 2' 'sets twice.pact' 'gen 1 1' \
        'run sum.pact --workers 2 --combine --counts' 'iterate label.pact v 2 --stable --workers 2'
    edited=(
        {anti_join,average,bad_row,cogroup,cond,count,count_all,counted,cross,decimals,distinct,drill,faulty,filter,first,five,flag,full_join}.pact
        {greet,join,join3,minimum,missing,no_sink,notes,null,odd,outer_join,pivot,push,revenue,running_total,self_join,semi_join,shop,sum}.pact
        {swap,too_wide,top,total,twice,union,wrong_key}.pact
        certificates/{{cond,push,shop}.good,{count,five,shop}.c4,push.c{1,2,3,5,6},push.{shape,spread}}.json
        {bad,colors,customers,d,drill,guests,h,members,names,orders,prices,s,sales,scores,sizes,sold,staff,t,t3,u,visits}.csv
    )
    count fuzz_passes edits 3000 2 0 "${edited[@]}"
    # Functions are made at random; where less than was found is taken to be true, that is told.
    count fuzz_passes agree 300 2
    FORGOTTEN='reads writes control order number' count fuzz_passes agree 150 2
fi
