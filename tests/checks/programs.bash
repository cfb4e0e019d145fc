# What `run` and `sets` write of each program of this folder.

for program in *.pact; do
    name=${program%.pact}
    status=0
    [ ! -f "expected/$name.status" ] || status=$(cat "expected/$name.status")
    told=$(or_none "expected/$name.stderr")
    count writes "$status" "$(or_none "expected/$name.stdout")" "$told" run "$program"
    # What is no program is refused by `sets` as by `run`. It opens no source, so what is wrong with one isn't told.
    case $status in
    5 | 6) count writes "$status" /dev/null "$told" sets "$program" ;;
    *) [ ! -f "expected/$name.sets" ] || count writes 0 "expected/$name.sets" /dev/null sets "$program" ;;
    esac
done

# The tests that run these programs by picked events have their texts as they stand here.
are_tested() {
    PACT_PROGRAM=$pact bash ../tests/as_tests >"$scratch/texts"
    is_file 'what as_tests writes' "$scratch/texts" ../crates/thread_tests/src/example_texts.rt
}
count are_tested
