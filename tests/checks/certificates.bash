# What `check` says of certificates.

for certificate in certificates/*.json; do
    name=$(basename "$certificate" .json)
    if [ -f "expected/certificates/$name.stderr" ]; then
        count writes 9 /dev/null "expected/certificates/$name.stderr" check "${name%%.*}.pact" "$certificate"
    else
        count writes 0 "$scratch/accepted" /dev/null check "${name%%.*}.pact" "$certificate"
    fi
done
for told in expected/certificates/*.stderr; do
    count test -f "certificates/$(basename "$told" .stderr).json"
done
# The program's faults come first; a certificate that isn't there, and one of another program.
count writes 5 /dev/null expected/faulty.stderr check faulty.pact certificates/push.good.json
count writes 6 /dev/null expected/no_sink.stderr check no_sink.pact certificates/none.json
echo 'cannot read certificates/none.json' >"$scratch/unread"
count writes 3 /dev/null "$scratch/unread" check push.pact certificates/none.json
echo 'certificate refused: step 1: C1' >"$scratch/c1"
count writes 9 /dev/null "$scratch/c1" check filter.pact certificates/push.good.json

# What is no certificate: each key left out, spelled otherwise, with another beside it, with another kind of value, or with one behind it (doubled, it counts as it comes last); what stands for a number, a set,
# an anchor or a text and isn't one; and each front of a good certificate.
not_certificate=expected/certificates/push.shape.stderr

# Whether a change of the good certificate by sed is refused as no certificate.
is_none() {
    sed "$1" certificates/push.good.json >"$scratch/changed.json"
    ! cmp -s "$scratch/changed.json" certificates/push.good.json &&
        writes 9 /dev/null "$not_certificate" check push.pact "$scratch/changed.json"
}
# Whether a change of it is accepted.
is_one() {
    sed "$1" certificates/push.good.json >"$scratch/changed.json"
    ! cmp -s "$scratch/changed.json" certificates/push.good.json &&
        writes 0 "$scratch/accepted" /dev/null check push.pact "$scratch/changed.json"
}
# A member of an object is a key and what stands behind it; of the keys that either found set has, each of both is changed.
for key in plan steps version rule at lower upper; do
    case $key in
    steps) value='\[.*\]' ;;
    version) value='1' ;;
    lower | upper) value='{[^}]*}' ;;
    *) value='"[^"]*"' ;;
    esac
    count is_none "s/\"$key\":$value,//;t;s/,\"$key\":$value//"
    count is_none "s/\"$key\":/\"${key}s\":/"
    count is_none "s/\"$key\":/\"more\":0,\"$key\":/"
    count is_none "s/\"$key\":$value/\"$key\":null/"
    count is_none "s/\"$key\":$value/&,\"$key\":null/"
    count is_one "s/\"$key\":$value/\"$key\":null,&/"
done
for key in anchor control hi lo reads touched writes; do
    case $key in
    anchor) value='"none"' ;;
    hi | lo) value='[01]' ;;
    *) value='\[[0-9,]*\]' ;;
    esac
    for place in 1 2; do
        count is_none "s/\"$key\":$value,//$place;t;s/,\"$key\":$value//$place"
        count is_none "s/\"$key\":/\"${key}s\":/$place"
        count is_none "s/\"$key\":/\"more\":0,\"$key\":/$place"
        count is_none "s/\"$key\":$value/\"$key\":{}/$place"
        count is_none "s/\"$key\":$value/&,\"$key\":null/$place"
        count is_one "s/\"$key\":$value/\"$key\":null,&/$place"
    done
done
while IFS= read -r change; do
    count is_none "$change"
done <<'END'
s/"version":1/"version":3/
s/"version":1/"version":1.0/
s/"version":1/"version":"1"/
s/"version":1/"version":1,"version":3/
s/"lo":1/"lo":-1/
s/"lo":0/"lo":-0/
s/"lo":1/"lo":1e0/
s/"hi":1/"hi":1000001/
s/"hi":1/"hi":18446744073709551616/
s/"hi":1/"hi":1e999,"hi":1/
s/\[0,1,2\]/[0,2,1]/
s/\[0,1,2\]/[0,1,1]/
s/\[0,1,2\]/[0,1,64]/
s/\[0,1,2\]/[0,1,1.5]/
s/\[0,1,2\]/[0,1,"2"]/
s/"none"/"None"/
s/"m"/"\\ud800"/
s/^/[/;s/$/]/
s/$/ x/
s/$/,/
END
good=$(cat certificates/push.good.json)
for ((bytes = 0; bytes < ${#good}; bytes++)); do
    printf '%s' "${good:0:bytes}" >"$scratch/front.json"
    count writes 9 /dev/null "$not_certificate" check push.pact "$scratch/front.json"
done
printf '%200s' '' | tr ' ' '[' >"$scratch/deep.json"
count writes 9 /dev/null "$not_certificate" check push.pact "$scratch/deep.json"
printf '{"plan":"\377","steps":[],"version":1}' >"$scratch/bytes.json"
count writes 9 /dev/null "$not_certificate" check push.pact "$scratch/bytes.json"
printf '{"plan":"%s","steps":[],"version":1}' "$(printf '%4097s' '' | tr ' ' 'p')" >"$scratch/line.json"
count writes 9 /dev/null "$not_certificate" check push.pact "$scratch/line.json"
count is_none "s/\"at\":\"m\"/\"at\":\"$(printf '%201s' '' | tr ' ' 'm')\"/"
count is_none "s/\"map-reduce\"/\"$(printf '%201s' '' | tr ' ' 'm')\"/"

# Texts, and a file, that are just as long as they may be.
long_word=$(printf '%200s' '' | tr ' ' 'm')
sed "s/\"at\":\"m\"/\"at\":\"$long_word\"/" certificates/push.good.json >"$scratch/word.json"
count writes 9 /dev/null expected/certificates/push.c1.stderr check push.pact "$scratch/word.json"
sed "s/\"map-reduce\"/\"$long_word\"/" certificates/push.good.json >"$scratch/word.json"
count writes 9 /dev/null expected/certificates/push.c2.stderr check push.pact "$scratch/word.json"
long_line=$(printf '%4096s' '' | tr ' ' 'p')
sed "s/\"r(m(s))\"/\"$long_line\"/" certificates/push.good.json >"$scratch/line.json"
printf 'certificate refused: C5\nstated %s\nfound r(m(s))\n' "$long_line" >"$scratch/line"
count writes 9 /dev/null "$scratch/line" check push.pact "$scratch/line.json"
{
    cat certificates/push.good.json
    head -c "$((1048576 - $(wc -c <certificates/push.good.json)))" /dev/zero | tr '\0' ' '
} >"$scratch/longest.json"
count writes 0 "$scratch/accepted" /dev/null check push.pact "$scratch/longest.json"

# A step too many, one too few, and two exchanged.
sed 's/"steps":\[\(.*\)\],"version"/"steps":[\1,\1],"version"/' certificates/push.good.json >"$scratch/more.json"
echo 'certificate refused: step 2: C1' >"$scratch/more"
count writes 9 /dev/null "$scratch/more" check push.pact "$scratch/more.json"
sed 's/"steps":\[.*\],"version"/"steps":[],"version"/' certificates/push.good.json >"$scratch/fewer.json"
printf 'certificate refused: C5\nstated r(m(s))\nfound m(r(s))\n' >"$scratch/fewer"
count writes 9 /dev/null "$scratch/fewer" check push.pact "$scratch/fewer.json"

# Three Maps, of which the upper one moves down twice; and then the two steps in the other order.
cat >"$scratch/maps.pact" <<'END'
pact 1
fields 4
source s s.csv int:0
function one map
  r0 = copy in
  v0 = int 7
  set r0 1 v0
  emit r0
end
function two map
  r0 = copy in
  v0 = int 7
  set r0 2 v0
  emit r0
end
function three map
  r0 = copy in
  v0 = int 7
  set r0 3 v0
  emit r0
end
map c three s
map b two c
map a one b
sink a 1 2 3
END
sets() {
    printf '{"anchor":"none","control":[],"hi":1,"lo":1,"reads":[],"touched":[%d],"writes":[%d]}' "$1" "$1"
}
step() {
    printf '{"at":"a","lower":%s,"rule":"map-map","upper":%s}' "$(sets "$1")" "$(sets 1)"
}
printf '{"plan":"b(c(a(s)))","steps":[%s,%s],"version":1}' "$(step 2)" "$(step 3)" >"$scratch/steps.json"
count writes 0 "$scratch/accepted" /dev/null check "$scratch/maps.pact" "$scratch/steps.json"
printf '{"plan":"b(c(a(s)))","steps":[%s,%s],"version":1}' "$(step 3)" "$(step 2)" >"$scratch/exchanged.json"
cat >"$scratch/exchanged" <<'END'
certificate refused: step 1: C3
stated upper reads {} writes {1} control {} touched {1} emit 1..1 anchor none
stated lower reads {} writes {3} control {} touched {3} emit 1..1 anchor none
found upper reads {} writes {1} control {} touched {1} emit 1..1 anchor none
found lower reads {} writes {2} control {} touched {2} emit 1..1 anchor none
END
count writes 9 /dev/null "$scratch/exchanged" check "$scratch/maps.pact" "$scratch/exchanged.json"

# A Map that goes to the side on which a CoGroup is anchored, and one that may not go to the other.
cat >"$scratch/sides.pact" <<'END'
pact 1
fields 4
source s s.csv int:0 int:1
source t t.csv int:2 int:3
function low map
  v0 = get in 1
  v1 = int 7
  v2 = lt v0 v1
  if v2
    r0 = copy in
    emit r0
  end
end
function high map
  v0 = get in 3
  v1 = int 8
  v2 = lt v1 v0
  if v2
    r0 = copy in
    emit r0
  end
end
function lefts cogroup 1
  each x1 of left
    r0 = copy x1
    emit r0
  end
end
cogroup g lefts s t by 1 = 2
map l low g
map h high l
sink h 1
END
filters() {
    printf '{"anchor":"none","control":[%d],"hi":1,"lo":0,"reads":[%d],"touched":[%d],"writes":[]}' "$1" "$1" "$1"
}
lefts='{"anchor":"left","control":[],"hi":1000000,"lo":0,"reads":[1,2],"touched":[1,2],"writes":[]}'
printf '{"plan":"h(g(l(s),t))","steps":[{"at":"l","lower":%s,"rule":"map-cogroup-left","upper":%s}],"version":1}' "$lefts" "$(filters 1)" >"$scratch/left.json"
count writes 0 "$scratch/accepted" /dev/null check "$scratch/sides.pact" "$scratch/left.json"
printf '{"plan":"","steps":[{"at":"h","lower":%s,"rule":"map-map","upper":%s},{"at":"h","lower":%s,"rule":"map-cogroup-right","upper":%s}],"version":1}' \
    "$(filters 1)" "$(filters 3)" "$lefts" "$(filters 3)" >"$scratch/right.json"
echo 'certificate refused: step 2: C4 not-anchored' >"$scratch/right"
count writes 9 /dev/null "$scratch/right" check "$scratch/sides.pact" "$scratch/right.json"

# What one Map writes and the other reads, either way.
cat >"$scratch/marks.pact" <<'END'
pact 1
fields 3
source s s.csv int:0
function mark map
  r0 = copy in
  v0 = int 7
  set r0 1 v0
  emit r0
end
function tell map
  v0 = get in 1
  r0 = copy in
  set r0 2 v0
  emit r0
end
map a mark s
map b tell a
map c mark b
sink c 0 1 2
END
tells='{"anchor":"none","control":[],"hi":1,"lo":1,"reads":[1],"touched":[1,2],"writes":[2]}'
printf '{"plan":"","steps":[{"at":"b","lower":%s,"rule":"map-map","upper":%s}],"version":1}' "$(sets 1)" "$tells" >"$scratch/read.json"
echo 'certificate refused: step 1: C4 conflict read-write 1' >"$scratch/read"
count writes 9 /dev/null "$scratch/read" check "$scratch/marks.pact" "$scratch/read.json"
printf '{"plan":"","steps":[{"at":"c","lower":%s,"rule":"map-map","upper":%s}],"version":1}' "$tells" "$(sets 1)" >"$scratch/write.json"
echo 'certificate refused: step 1: C4 conflict write-read 1' >"$scratch/write"
count writes 9 /dev/null "$scratch/write" check "$scratch/marks.pact" "$scratch/write.json"
