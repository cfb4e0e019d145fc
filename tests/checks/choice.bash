# What `plan` and `cert` write, and that neither the choice nor the parts that a plan runs in change a row.

# expected/NAME.plan is what `plan` writes of a program.
for told in expected/*.plan; do
    name=$(basename "$told" .plan)
    count writes 0 "$told" /dev/null plan "$name.pact"
done
# What is no program, and what is wrong with a source, is refused by `plan` and `cert` as by `run`.
for program in faulty wrong_key no_sink bad_row missing; do
    for command in plan cert; do
        count writes "$(cat "expected/$program.status")" /dev/null "expected/$program.stderr" "$command" "$program.pact"
    done
done
# As many plans are listed as there is room for, and it is told whether one is left out: of Maps that stand in any order six.
cat >"$scratch/maps.pact" <<'END'
pact 1
fields 4
source s s.csv int:0
function one map
  r0 = copy in
  set r0 1 v0
  emit r0
end
function two map
  r0 = copy in
  set r0 2 v0
  emit r0
end
function three map
  r0 = copy in
  set r0 3 v0
  emit r0
end
map a one s
map b two a
map c three b
sink c 0
END
printf '1\n2\n' >"$scratch/s.csv"
listed() { # how many, and whether all; the words
    is_text 'the first line of the plan' "$(cd "$scratch" && "$pact" plan "${@:2}" | head -n 1)" "plans $1"
}
count listed '6 complete' maps.pact
count listed '6 complete' maps.pact --plans 6
count listed '5 limit' maps.pact --plans 5
count listed '1 limit' maps.pact --plans 1
# A record that is broadcast costs one for each worker.
sed 's/cost 12/cost 36/' expected/cross.plan >"$scratch/cross.plan"
count writes 0 "$scratch/cross.plan" /dev/null plan cross.pact --workers 16
# Of six Maps that stand in any order there are 720 plans, of which 256 are listed where nothing else is asked for.
{
    printf 'pact 1\nfields 7\nsource s s.csv int:0\n'
    for field in 1 2 3 4 5 6; do
        printf 'function f%d map\n  r0 = copy in\n  set r0 %d v0\n  emit r0\nend\n' "$field" "$field"
    done
    below=s
    for field in 1 2 3 4 5 6; do
        printf 'map m%d f%d %s\n' "$field" "$field" "$below"
        below=m$field
    done
    printf 'sink m6 0\n'
} >"$scratch/six.pact"
count listed '256 limit' six.pact
count listed '720 complete' six.pact --plans 1000
# The certificate of the plan as written has no step.
echo '{"plan":"m(r(s))","steps":[],"version":1}' >"$scratch/no_step.json"
count writes 0 "$scratch/no_step.json" /dev/null cert push.pact --plans 1
# The certificate of a choice is accepted, for every program and several numbers of workers.
certified() {
    "$pact" cert "$@" >"$scratch/chosen.json" 2>"$scratch/err" && is_file 'standard error' "$scratch/err" /dev/null &&
        writes 0 "$scratch/accepted" /dev/null check "$1" "$scratch/chosen.json"
}
for told in expected/*.plan; do
    program=$(basename "$told" .plan).pact
    count certified "$program"
    count certified "$program" --workers 1 --plans 2
done
count writes 0 certificates/push.good.json /dev/null cert push.pact --workers 2

# Whichever plan is chosen, the rows are those of the program as written. `first` has two answers: one thread takes the rows in the file's order, or in the
# opposite one if it sorts them by their keys; of several threads it is open which row comes first.
printf '1,7\n2,9\n' >"$scratch/last"
count writes 0 expected/first.stdout /dev/null run first.pact --workers 1
count writes 0 "$scratch/last" /dev/null run first.pact --workers 1 --local sort
answers() { # the program's name, and options
    writes 0 "$(or_none "expected/$1.stdout")" /dev/null run "$1.pact" "${@:2}" || { [ "$1" = first ] && cmp -s "$scratch/out" "$scratch/last"; }
}
for told in expected/*.plan; do
    name=$(basename "$told" .plan)
    for workers in 1 2 16; do
        for plans in 1 2 1000; do
            count answers "$name" --workers "$workers" --plans "$plans"
        done
    done
done
# In whatever parts the plan runs, the rows are the same.
for program in *.pact; do
    name=${program%.pact}
    ! [ -f "expected/$name.status" ] || continue
    for workers in 1 2 3 16; do
        for batch in 1 1024; do
            for depth in 1 64; do
                count answers "$name" --workers "$workers" --batch "$batch" --depth "$depth"
            done
        done
    done
    # And however the records of a key are found.
    for local in hash sort; do
        for workers in 1 4 16; do
            count answers "$name" --workers "$workers" --local "$local"
            count answers "$name" --workers "$workers" --local "$local" --depth 1 --batch 1
        done
    done
done
while IFS='|' read -r words counts; do
    printf '%b' "$counts" >"$scratch/counts"
    # shellcheck disable=SC2086
    set -- $words
    count writes 0 "expected/${1%.pact}.stdout" "$scratch/counts" run "$@" --counts
done <<'END'
push.pact --workers 2|s out 100\nr in 10 out 1\nm in 100 out 10\n
push.pact --workers 2 --batch 1 --depth 1|s out 100\nr in 10 out 1\nm in 100 out 10\n
push.pact --plans 1|s out 100\nr in 100 out 10\nm in 10 out 1\n
shop.pact|c out 2\no out 4\nj in 1 4 out 3\nd in 2 out 1\nr in 3 out 1\n
shop.pact --plans 1|c out 2\no out 4\nj in 2 4 out 4\nd in 4 out 3\nr in 3 out 1\n
cogroup.pact|s out 3\nt out 3\ng in 3 3 out 3\n
revenue.pact --batch 1024 --depth 64|sold out 20\nprices out 9\nshops out 3\npriced in 15 9 out 14\nplaced in 14 3 out 14\nopen in 14 out 9\npositive in 20 out 15\nvalued in 9 out 9\ntakings in 9 out 2\n
revenue.pact --plans 1|sold out 20\nprices out 9\nshops out 3\npriced in 20 9 out 19\nplaced in 19 3 out 19\nopen in 19 out 13\npositive in 13 out 9\nvalued in 9 out 9\ntakings in 9 out 2\n
END
# What all instances of an operator gave is counted together. The Cross gives each pair of equal numbers twice, the CoGroup the records of both groups.
cat >"$scratch/pairs.pact" <<'END'
pact 1
fields 6
source l l.csv int:0 int:1
source r r.csv int:2 int:3
source t t.csv int:4 int:5
function equal cross
  v0 = get left 0
  v1 = get right 2
  v2 = eq v0 v1
  if v2
    r0 = copy join
    emit r0
    emit r0
  end
end
function all cogroup 1
  each x1 of left
    r0 = copy x1
    emit r0
  end
  each x1 of right
    r0 = copy x1
    emit r0
  end
end
cross x equal l r
cogroup g all x t by 0 = 4
sink g 0
END
printf '1,10\n2,20\n1,10\n' >"$scratch/l.csv"
printf '1,5\n4,5\n1,6\n9,9\n' >"$scratch/r.csv"
printf '1,0\n7,0\n' >"$scratch/t.csv"
for workers in 1 2 3 4 5 6 7 8 9 10 11 12 13 14 15 16; do
    count gives 0 '""\n""\n1\n1\n1\n1\n1\n1\n1\n1\n' 'l out 3\nr out 4\nt out 2\nx in 3 4 out 8\ng in 8 2 out 10\n' run pairs.pact --workers "$workers" --batch 1 --depth 1 --counts
done
# The counts come behind the rows, and where they can't be told the rows stand.
"$pact" run push.pact --counts >"$scratch/out" 2>/dev/full
count test $? = 4
count cmp "$scratch/out" expected/push.stdout
"$pact" run push.pact --counts >/dev/full 2>"$scratch/err"
count test $? = 4
echo 'cannot write' >"$scratch/unwritten"
count cmp "$scratch/err" "$scratch/unwritten"
