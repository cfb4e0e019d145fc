# Texts of all lengths at which they are stored in another way: in the value, in blocks of three sizes, and longer.

text_of() { head -c "$1" /dev/zero | tr '\0' "$2"; }
cat >"$scratch/lengths.pact" <<'END'
pact 1
fields 4
source s s.csv text:0 text:1
function f map
  v0 = get in 0
  v1 = get in 1
  v2 = cat v0 v1
  v3 = len v2
  r0 = copy in
  set r0 2 v2
  set r0 3 v3
  emit r0
end
map m f s
sink m 3 2 0 1
END
for left in 1 13 14 15 38 39 40 118 119 120 246 247 248 1000 4095; do
    for right in 1 2 14 25 120 233; do
        a=$(text_of "$left" a) b=$(text_of "$right" b)
        echo "$a,$b" >"$scratch/s.csv"
        if [ $((left + right)) -le 4096 ]; then
            row="$((left + right)),$a$b,$a,$b"
        else
            row=",,$a,$b"
        fi
        count gives 0 "$row\n" '' run lengths.pact
    done
done
# Keys and orders see the bytes alone, whichever way a text is stored.
cat >"$scratch/keys.pact" <<'END'
pact 1
fields 4
source s s.csv text:0 text:1
function f map
  v0 = get in 0
  v1 = get in 1
  v2 = cat v0 v1
  r0 = new
  set r0 2 v2
  emit r0
end
function once reduce 1
  v0 = int 0
  v1 = int 1
  each x1 of group
    v0 = addw v0 v1
  end
  r0 = new
  v2 = key 0
  set r0 2 v2
  set r0 3 v0
  emit r0
end
map m f s
reduce r once m by 2
sink r 2 3
END
for local in hash sort; do
    printf 'aaaaaaaaaaaaa,ab\naaaaaaaaaaaaaa,b\naaaaaaaaaaaaaa,a\n' >"$scratch/s.csv"
    count gives 0 'aaaaaaaaaaaaaaa,1\naaaaaaaaaaaaaab,2\n' '' run keys.pact --local "$local"
done
