# Programs that run round after round: what comes of the rows, how many rounds are told, and what is refused in which order.

cp label.pact v.csv g.csv distances.pact known.csv roads.csv twice.pact d.csv s.csv "$scratch"
cat >"$scratch/inc.pact" <<'END'
pact 1
fields 4
source s s.csv int:0 int:1
function inc map
  r0 = copy in
  v0 = get in 1
  v1 = int 1
  v2 = addw v0 v1
  set r0 1 v2
  emit r0
end
map m inc s
sink m 0 1
END
# Each program by one worker, by four, and by several with other options.
for options in '--workers 1' '--workers 4' '--workers 3 --plans 1 --batch 1 --depth 1 --local sort'; do
    # shellcheck disable=SC2086
    iterates() { gives "$1" "$2" "$3" iterate "${@:4}" $options; }
    count iterates 0 '1,8\n1,10\n2,0\n' '' inc.pact s 3
    count iterates 0 '1,6\n1,8\n2,-2\n' '' inc.pact s 1
    count iterates 0 '1,1005\n1,1007\n2,997\n' '' inc.pact s 1000
    count iterates 0 '1,1005\n1,1007\n2,997\n' 'rounds 1000\n' inc.pact s 1000 --stable
    count iterates 0 "$(printf '1,5\\n%.0s' {1..16})" '' twice.pact d 3
    count iterates 0 '1,1\n2,1\n3,1\n4,4\n' 'rounds 3\n' label.pact v 10 --stable
    count iterates 0 '1,1\n2,1\n3,1\n4,4\n' '' label.pact v 10
    # with so many rounds, and with fewer than it takes
    count iterates 0 '1,1\n2,1\n3,1\n4,4\n' 'rounds 3\n' label.pact v 3 --stable
    count iterates 0 '1,1\n2,1\n3,1\n4,4\n' 'rounds 2\n' label.pact v 2 --stable
    count iterates 0 '1,1\n2,1\n3,2\n4,4\n' 'rounds 1\n' label.pact v 1 --stable
    count iterates 0 'Basel,99\nBern,0\nBrig,101\nOlten,66\nSpiez,44\nThun,31\nZürich,131\n' 'rounds 4\n' distances.pact known 1000 --stable
    # the rows of the other source: what a round gives has no value in its columns
    count iterates 0 '1,1\n2,1\n3,2\n4,4\n' '' label.pact e 1
    count iterates 0 '' '' label.pact e 2
    count iterates 0 '' 'rounds 3\n' label.pact e 10 --stable
done

# So many rounds are so many runs, each over what the last one wrote.
is_as_runs() {
    local rounds=$1 program=$2 source=$3 file=$4 round
    mkdir -p "$scratch/rounds" && cp "$scratch/"*.pact "$scratch/"*.csv "$scratch/rounds" || return
    for ((round = 0; round < rounds; round++)); do
        (cd "$scratch/rounds" && "$pact" run "$program" >next && mv next "$file") || return
    done
    (cd "$scratch" && "$pact" iterate "$program" "$source" "$rounds" >out) && is_file 'standard output' "$scratch/out" "$scratch/rounds/$file"
}
for rounds in 1 2 3 4 5 9; do
    count is_as_runs "$rounds" inc.pact s s.csv
    count is_as_runs "$rounds" label.pact v v.csv
    count is_as_runs "$rounds" distances.pact known known.csv
done

# A path of nodes: a round takes the first one's number one node further, so there are as many rounds as nodes, and the last changes nothing.
path_of() { awk -v n="$1" 'BEGIN { for (i = 1; i <= n; i++) { print i "," i >"v.csv"; print i "," i >"g.csv"; if (i < n) print i "," i + 1 >"g.csv" } }'; }
mkdir "$scratch/path" && cp label.pact "$scratch/path" && (cd "$scratch/path" && path_of 40)
walks() {
    (cd "$scratch/path" && "$pact" iterate label.pact v 100 --stable --workers "$1" >out 2>err)
    is_status $? 0 && is_text 'the numbers' "$(cut -d, -f2 "$scratch/path/out" | sort -u)" 1 &&
        is_text 'standard error' "$(cat "$scratch/path/err")" 'rounds 40'
}
count walks 1
count walks 4

# ---- What is stable

# Fields of a round's records that the source has no column for are Null when they are compared: the round writes other rows, and gives back those it had.
cat >"$scratch/marks.pact" <<'END'
pact 1
fields 2
source s marks.csv int:0
function mark map
  r0 = copy in
  v0 = int 5
  set r0 1 v0
  emit r0
end
map m mark s
sink m 0 1
END
printf '2\n1\n' >"$scratch/marks.csv"
count gives 0 '1,5\n2,5\n' 'rounds 1\n' iterate marks.pact s 10 --stable
# What the sink leaves out counts where it is a column: the round writes the same rows, and gives other ones.
sed 's/^sink.*/sink m 0/' "$scratch/inc.pact" >"$scratch/hidden.pact"
count gives 0 '1\n1\n2\n' 'rounds 7\n' iterate hidden.pact s 7 --stable
# What has no column is gone in the next round: each has what one round sets.
cat >"$scratch/gone.pact" <<'END'
pact 1
fields 3
source s s.csv int:0 int:1
function count map
  r0 = copy in
  v0 = get in 2
  v1 = int 1
  v0 = addw v0 v1
  set r0 2 v0
  emit r0
end
map m count s
sink m 0 1 2
END
count gives 0 '1,5,1\n1,7,1\n2,-3,1\n' '' iterate gone.pact s 5
count gives 0 '1,5,1\n1,7,1\n2,-3,1\n' 'rounds 1\n' iterate gone.pact s 5 --stable
# Equal rows count separately: two of one aren't one. Nothing stays nothing.
cat >"$scratch/once.pact" <<'END'
pact 1
fields 1
source s once.csv int:0
function once reduce 1
  r0 = new
  v0 = key 0
  set r0 0 v0
  emit r0
end
reduce m once s by 0
sink m 0
END
printf '7\n7\n' >"$scratch/once.csv"
count gives 0 '7\n' 'rounds 2\n' iterate once.pact s 5 --stable
printf '2\n1\n' >"$scratch/once.csv"
count gives 0 '1\n2\n' 'rounds 1\n' iterate once.pact s 5 --stable --local sort --workers 1
count gives 0 '1\n2\n' 'rounds 1\n' iterate once.pact s 5 --stable
printf '' >"$scratch/once.csv"
count gives 0 '' 'rounds 1\n' iterate once.pact s 5 --stable
count gives 0 '' '' iterate once.pact s 1000
# A round that gives nothing, and then changes nothing.
sed 's/^  emit r0$//' "$scratch/once.pact" >"$scratch/none.pact"
printf '7\n' >"$scratch/once.csv"
count gives 0 '' 'rounds 2\n' iterate none.pact s 5 --stable

# ---- What is refused

# Words: the number of rounds, and flags that rounds don't have.
usage='usage: pact COMMAND ARGUMENTS\n'
for words in 'inc.pact s 0' 'inc.pact s 1001' 'inc.pact s -1' 'inc.pact s x' 'inc.pact s' 'inc.pact' '' 'inc.pact s 3 4' 'inc.pact s 3 --counts' 'inc.pact s 3 --combine' \
    'inc.pact s 3 --stable --stable' 'inc.pact s 3 --workers 17' 'inc.pact s 3 --local no'; do
    # shellcheck disable=SC2086
    count gives 2 '' "$usage" iterate $words
done
count gives 0 '1,8\n1,10\n2,0\n' '' iterate --workers 1 inc.pact --batch=2 s +03
# No source of that name: another one, an operator's, a function's, a file's, one that differs in case or goes on; and no name at all.
for source in t m inc s.csv S ss; do
    count gives 6 '' "$source: P11\n" iterate inc.pact "$source" 3
    count gives 6 '' "$source: P11\n" iterate inc.pact "$source" 3 --stable --workers 1
done
count gives 6 '' ': P11\n' iterate inc.pact '' 3
# It is told behind what is wrong with the program, and before a source is opened.
sed 's/s\.csv/nowhere.csv/' "$scratch/inc.pact" >"$scratch/unread.pact"
count gives 6 '' 't: P11\n' iterate unread.pact t 3
count gives 3 '' 'cannot read nowhere.csv\n' iterate unread.pact s 3
sed 's/^sink.*/sink m 0 9/' "$scratch/inc.pact" >"$scratch/broken.pact"
count gives 6 '' 'm: P10\n' iterate broken.pact t 3
sed 's/^sink.*//' "$scratch/inc.pact" >"$scratch/sinkless.pact"
count gives 6 '' 'program: P9\n' iterate sinkless.pact t 3
sed 's/set r0 1 v2/set r9 1 v2/' "$scratch/inc.pact" >"$scratch/invalid.pact"
count gives 6 '' 'function inc: V1 at statement 4\n' iterate invalid.pact t 3
count gives 3 '' 'cannot read no.pact\n' iterate no.pact t 3
printf '1,5\n1,x\n' >"$scratch/marks.csv" && sed 's/s\.csv/marks.csv/' "$scratch/inc.pact" >"$scratch/bad.pact"
count gives 7 '' 'source s: row 2 column 2: why 2\n' iterate bad.pact s 3
count gives 6 '' 't: P11\n' iterate bad.pact t 3
# A fault of a source that isn't replaced is told as of `run`.
printf '1,x\n' >"$scratch/g.csv"
count gives 7 '' 'source e: row 1 column 2: why 2\n' iterate label.pact v 3
cp g.csv "$scratch"

# ---- Streams that fail: the rows, and behind them the line of rounds.
fails_to_write() { "$pact" iterate label.pact v 10 "$@" >/dev/full 2>"$scratch/err"; came_to $? 4 '' 'cannot write\n'; }
count fails_to_write
count fails_to_write --stable
count fails_to_write --stable --workers 1
fails_to_tell() { "$pact" iterate label.pact v 10 "$@" >"$scratch/out" 2>/dev/full; came_to $? "$status" '1,1\n2,1\n3,1\n4,4\n' ''; }
status=4
count fails_to_tell --stable
count fails_to_tell --stable --workers 1
status=0
count fails_to_tell
