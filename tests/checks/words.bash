# Words that no command takes.
echo 'usage: pact COMMAND ARGUMENTS' >"$scratch/usage"
while IFS= read -r words; do
    # shellcheck disable=SC2086
    count writes 2 /dev/null "$scratch/usage" $words
done <<'END'

walk sum.pact
Run sum.pact
sum.pact run
--counts run sum.pact
help
--help
run
plan
cert
sets
check sum.pact
run sum.pact d.csv
plan sum.pact d.csv
check sum.pact certificates/push.good.json d.csv
sets sum.pact d.csv
run sum.pact --help
run -h
cert --help
run sum.pact --version
plan sum.pact --batch 4
cert sum.pact --depth 4
plan sum.pact --depth 4
run sum.pact --batch 0
run sum.pact --batch 1025
run sum.pact --depth 65
run sum.pact --depth 0
run sum.pact --depth 1 --depth 1
run sum.pact --local list
run sum.pact --local Hash
run sum.pact --local
run sum.pact --local=
run sum.pact --local hash --local hash
plan sum.pact --local hash
sets sum.pact --local sort
run sum.pact -c
run sum.pact --count
plan sum.pact --counts
run sum.pact --combin
run sum.pact --combine --combine
run sum.pact --combine=true
run --combine
plan sum.pact --combine
cert sum.pact --combine
check sum.pact certificates/push.good.json --combine
sets sum.pact --combine
gen 0 1 --combine
drill 0 1 --combine --counts
cert sum.pact --counts
check sum.pact certificates/push.good.json --workers 4
sets sum.pact --plans 1
gen
gen 0
gen 0 1 2
gen -1 1
gen 2147483647 1
gen 0 1000001
gen 0 -1
gen zero 1
gen 0 1.0
gen 0 1 --workers 2
gen 0 1 --local sort
drill
drill 0
drill 0 1 2
drill 2147483647 1
drill 0 1000001
drill 0 1 --counts
drill 0 1 --workers 17
drill 0 1 --workers 0
drill 0 1 --plans 1001
drill 0 1 --batch 1025
drill 0 1 --depth 65
drill 0 1 --local list
drill drill.pact
run sum.pact --workers 0
run sum.pact --workers 17
run sum.pact --workers -4
run sum.pact --workers=-4
run sum.pact --workers 4.0
run sum.pact --workers four
run sum.pact --workers=18446744073709551620
run sum.pact --plans 0
plan sum.pact --plans 1001
run sum.pact --workers
run sum.pact --workers=
run --workers sum.pact
run sum.pact --workers --counts
cert sum.pact --plans
run sum.pact --workers 2 --workers 2
run sum.pact --counts --counts
cert sum.pact --plans=1 --plans=1
run sum.pact --counts=true
END
count writes 2 /dev/null "$scratch/usage" run $'\xFF'
count writes 2 /dev/null "$scratch/usage" run sum.pact $'--workers=\xFF'
# Words that are taken: numbers as clap reads them, options in any order and before the program, `--` before a program that begins like one.
while IFS= read -r words; do
    # shellcheck disable=SC2086
    count writes 0 expected/sum.stdout /dev/null $words
done <<'END'
run sum.pact
run --workers 2 sum.pact --plans 7
run sum.pact --workers=16 --plans=1000
run sum.pact --workers +3 --plans=007
run sum.pact --workers 1 --plans 1 --batch 1 --depth=64
run --depth 1 --batch=1024 sum.pact
run sum.pact --local hash
run --local=sort sum.pact
run sum.pact --combine
run --combine sum.pact --workers 2 --local sort
run -- sum.pact
END
while IFS= read -r words; do
    # shellcheck disable=SC2086
    count writes 0 expected/shop.plan /dev/null $words
done <<'END'
plan shop.pact
plan --workers=4 --plans 256 shop.pact
plan shop.pact --plans=0256 --workers +4
END
cp sum.pact "$scratch/--workers"
cp s.csv "$scratch"
count gives 0 '1,12\n2,-3\n' '' run -- --workers
count gives 3 '' 'cannot read help\n' sets help
count gives 3 '' 'cannot read -\n' sets -
