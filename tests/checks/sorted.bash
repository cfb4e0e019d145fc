# The answer's rows come sorted: Null first, then numbers, then texts by their bytes, field by field. Each list below is shuffled, and written as it was.

cat >"$scratch/sorted.pact" <<'END'
pact 1
fields 3
source s s.csv text:0 text:1 int:2
function f map
  r0 = copy in
  emit r0
end
map m f s
sink m 0 1 2
END
sorted() {
    shuf --random-source=<(yes) "$scratch/sorted.csv" >"$scratch/s.csv"
    (cd "$scratch" && "$pact" run sorted.pact --workers "$1" >out 2>err)
    came_to_files $? 0 "$scratch/sorted.csv" /dev/null
}
# Texts that share long prefixes, end early, and have bytes beyond ASCII, with second texts and numbers after them. The third column of the list is the
# number's rank, by which `sort` puts the least numbers and Null where they belong.
awk 'BEGIN {
    fronts = split(" 6a 7a 8a 14b 30c 300c 9é", front, " ")
    ends = split("a ab b 40x é ~", ending, " ")
    n = split("-9223372036854775808 -9223372036854775807 -100000000000000000 -1 0 1 8935141660703064063 8935141660703064064 9223372036854775806 9223372036854775807", number, " ")
    number[0] = ""
    for (i = 0; i <= fronts; i++) for (j = 0; j <= ends; j++) texts[count++] = spread(front[i]) spread(ending[j])
    for (i = 0; i < count; i++) for (j = i % 3; j < count; j += 7) for (k = i % 2; k <= n; k += 3) print texts[i] "," texts[j] "," k "," number[k] }
    function spread(word, times, text) {
        times = word + 0
        if (times == 0) return word
        sub(/^[0-9]+/, "", word)
        while (times-- > 0) text = text word
        return text
    }' | LC_ALL=C sort -t, -k1,1 -k2,2 -k3,3n | cut -d, -f1,2,4 >"$scratch/sorted.csv"
count sorted 1
count sorted 4
# Rows that all have one long prefix, and rows whose first fields are all the same.
awk 'BEGIN { for (i = 1000; i < 3000; i++) printf "%s%d,same,%d\n", "the same long beginning of every text ", i, i % 7 }' >"$scratch/sorted.csv"
count sorted 2
awk 'BEGIN { for (i = 1000; i < 3000; i++) printf "all the same,and here,%d\n", i }' >"$scratch/sorted.csv"
count sorted 2
cp "$scratch/sorted.csv" "$scratch/s.csv"
count gives 0 "$(sed 's/$/\\n/' "$scratch/sorted.csv" | tr -d '\n')" '' run sorted.pact
