# Records that a function copies from its input. They share the input's record until a field is set, and one that is emitted unchanged at the end is
# moved; nobody can tell. Each row has a Map's statements and what it writes of the row `1,a`, and the second row, `2,`, in which field 1 is Null.

printf '1,a\n2,\n' >"$scratch/s.csv"
while IFS='|' read -r statements rows; do
    {
        printf 'pact 1\nfields 4\nsource s s.csv int:0 text:1\nfunction f map\n'
        tr ';' '\n' <<<"$statements"
        printf 'end\nmap m f s\nsink m 0 1 2 3\n'
    } >"$scratch/copies.pact"
    for workers in 1 3; do
        count gives 0 "$rows" '' run copies.pact --workers "$workers"
    done
done <<'END'
r0 = copy in;emit r0|1,a,,\n2,,,\n
r0 = copy in;emit r0;emit r0|1,a,,\n1,a,,\n2,,,\n2,,,\n
r0 = copy in;r1 = copy r0;emit r1|1,a,,\n2,,,\n
v0 = int 7;r0 = copy in;set r0 2 v0;emit r0|1,a,7,\n2,,7,\n
v0 = int 7;r0 = copy in;emit r0;set r0 2 v0;emit r0|1,a,,\n1,a,7,\n2,,,\n2,,7,\n
v0 = int 7;r0 = copy in;r1 = copy r0;set r1 2 v0;emit r0|1,a,,\n2,,,\n
v0 = int 7;r0 = copy in;r1 = copy r0;set r1 2 v0;emit r1;emit r0|1,a,,\n1,a,7,\n2,,,\n2,,7,\n
v0 = int 7;r0 = copy in;r1 = copy r0;set r0 2 v0;emit r1;emit r0|1,a,,\n1,a,7,\n2,,,\n2,,7,\n
v0 = int 7;r0 = copy in;set r0 0 v0;v1 = get in 0;v2 = get r0 0;set r0 2 v1;set r0 3 v2;emit r0|7,,2,7\n7,a,1,7\n
r0 = copy in;v0 = get r0 1;r0 = new;set r0 3 v0;emit r0|,,,\n,,,a\n
r0 = new;emit r0;r0 = copy in;emit r0|,,,\n,,,\n1,a,,\n2,,,\n
r0 = copy in;r0 = new;emit r0|,,,\n,,,\n
r0 = copy in;r1 = new;r0 = copy r1;emit r0|,,,\n,,,\n
r0 = copy in;v0 = int 3;repeat 2;emit r0;set r0 2 v0;end|1,a,,\n1,a,3,\n2,,,\n2,,3,\n
repeat 2;r0 = copy in;emit r0;end|1,a,,\n1,a,,\n2,,,\n2,,,\n
r0 = copy in;v0 = get in 1;v1 = isnull v0;if v1;emit r0;else;set r0 3 v1;emit r0;end|1,a,,0\n2,,,\n
r0 = copy in;v0 = get in 1;v1 = isnull v0;if v1;emit r0;end|2,,,\n
r0 = copy in;r1 = copy in;r2 = copy r1;emit r0;emit r1;emit r2|1,a,,\n1,a,,\n1,a,,\n2,,,\n2,,,\n2,,,\n
emit r7;r7 = copy in;emit r7|,,,\n,,,\n1,a,,\n2,,,\n
v0 = null;r0 = copy in;set r0 1 v0;set r0 0 v0;emit r0|,,,\n,,,\n
END

# Registers begin anew with each call, whatever the call before left in them.
printf '1\n2\n3\n' >"$scratch/s.csv"
cat >"$scratch/anew.pact" <<'END'
pact 1
fields 4
source s s.csv int:0
function f map
  v9 = get r3 0
  v8 = get in 0
  v7 = int 2
  v6 = eq v8 v7
  if v6
    r3 = copy in
    v5 = int 5
  end
  r0 = copy in
  set r0 1 v9
  set r0 2 v5
  emit r0
end
map m f s
sink m 0 1 2
END
count gives 0 '1,,\n2,,5\n3,,\n' '' run anew.pact --workers 1

# What a call for a pair or a group emits stands once in the answer, though calls share the list.
printf '1,10\n1,11\n2,20\n' >"$scratch/s.csv"
printf '1,5\n2,6\n2,7\n' >"$scratch/t.csv"
cat >"$scratch/shared.pact" <<'END'
pact 1
fields 4
source s s.csv int:0 int:1
source t t.csv int:2 int:3
function pair match
  r0 = copy left
  emit r0
  r1 = copy join
  emit r1
end
match m pair s t by 0 = 2
sink m 0 1 2 3
END
count gives 0 '1,10,,\n1,10,1,5\n1,11,,\n1,11,1,5\n2,20,,\n2,20,,\n2,20,2,6\n2,20,2,7\n' '' run shared.pact --workers 2
