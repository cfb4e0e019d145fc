# What `sets` finds of operators, beside the files expected/*.sets. No source of these programs is there.

# As many records of a call as are counted: ten in each of so many turns.
{
    printf 'pact 1\nfields 1\nsource s gone.csv int:0\nfunction f map\n  r0 = copy in\n  repeat 1000\n    repeat 100\n'
    for ((number = 1; number <= 10; number++)); do
        echo '      emit r0'
    done
    printf '    end\n  end\nend\nmap m f s\nsink m 0\n'
} >"$scratch/many.pact"
count gives 0 'm map reads {} writes {} control {} touched {} emit many..many anchor none order yes\n' '' sets many.pact

# A sum that has no value where it is no number of 64 bits depends on the order.
sed 's/addw/add/; s/ s\.csv/ gone.csv/' sum.pact >"$scratch/exact_sum.pact"
count gives 0 'r reduce reads {0,1} writes {1,2} control {} touched {0,1,2} emit 1..1 anchor none order no\n' '' sets exact_sum.pact

# Each row has the body of a CoGroup's function, and what is found behind the fields that it reads, which are its keys.
while IFS='|' read -r body found; do
    {
        printf 'pact 1\nfields 6\nsource s gone.csv int:0 int:1\nsource t gone.csv int:2 int:3\nfunction f cogroup 1\n'
        printf '%b\n' "$body"
        printf 'end\ncogroup g f s t by 0 = 2\nsink g 0\n'
    } >"$scratch/sides.pact"
    count gives 0 "g cogroup reads {0,2} $found\n" '' sets sides.pact
done <<'END'
each x1 of right\n r0 = copy x1\n emit r0\n end|writes {} control {} touched {0,2} emit 0..many anchor right order yes
v0 = null|writes {} control {} touched {0,2} emit 0..0 anchor both order yes
END

# A pair's left record lacks what the right one has, and both records joined lack nothing.
cat >"$scratch/pairs.pact" <<'END'
pact 1
fields 6
source s gone.csv int:0 int:1
source t gone.csv int:2 int:3
function lft match
  r0 = copy left
  emit r0
end
function all cross
  r0 = copy join
  emit r0
end
source u gone.csv int:4
match g lft s t by 0 = 2
cross c all g u
sink c 0 1 4
END
count gives 0 'g match reads {0,2} writes {2,3} control {} touched {0,2,3} emit 1..1 anchor none order yes\nc cross reads {} writes {} control {} touched {} emit 1..1 anchor none order yes\n' '' sets pairs.pact

# What is found is told in the same words by `check`, and so is what a certificate states, whatever that is.
cp push.pact "$scratch/push.pact"
sed 's/"upper":{[^}]*}/"upper":{"anchor":"left","control":[],"hi":12,"lo":0,"reads":[0,1],"touched":[0,1,63],"writes":[63]}/' \
    certificates/push.good.json >"$scratch/stated.json"
told='certificate refused: step 1: C3
stated upper reads {0,1} writes {63} control {} touched {0,1,63} emit 0..12 anchor left
stated lower reads {0,1} writes {1,2} control {} touched {0,1,2} emit 1..1 anchor none
found upper reads {0} writes {} control {0} touched {0} emit 0..1 anchor none
found lower reads {0,1} writes {1,2} control {} touched {0,1,2} emit 1..1 anchor none
'
count gives 9 '' "$told" check push.pact stated.json
