# How a step over the functions in $scratch/functions is judged, for `exchanges` and `unique`.

# Writes a certificate of a plan with steps: the plan's line, and for each step its operator, its rule, and both found sets.
certify() {
    printf '{"plan":"%s","steps":[' "$1"
    shift
    local comma=
    while [ $# -gt 0 ]; do
        printf '%s{"at":"%s","lower":%s,"rule":"%s","upper":%s}' "$comma" "$1" "$4" "$2" "$3"
        comma=,
        shift 4
    done
    printf '],"version":1}'
}

# The JSON of a found set that is told as text.
found_set() {
    sed -nE "s/^found $1 reads \{(.*)\} writes \{(.*)\} control \{(.*)\} touched \{(.*)\} emit ([0-9]+)\.\.([0-9a-z]+) anchor (.*)\$/{\"anchor\":\"\7\",\"control\":[\3],\"hi\":\6,\"lo\":\5,\"reads\":[\1],\"touched\":[\4],\"writes\":[\2]}/p" "$scratch/told" |
        sed 's/"hi":many/"hi":1000000/'
}

# What `check` says of steps over a program of these declarations, on one line: OPERATOR RULE for each step behind the plan's line. Nothing is found to be emitted at
# least once and at most never, so of a step that states this the found sets are told.
unlike='{"anchor":"none","control":[],"hi":0,"lo":1,"reads":[],"touched":[],"writes":[]}'
judged() {
    local declarations=$1 plan=$2
    shift 2
    { cat "$scratch/functions"; printf '%b' "$declarations"; } >"$scratch/judged.pact"
    local steps=()
    while [ $# -gt 0 ]; do
        certify "$plan" "${steps[@]}" "$1" "$2" "$unlike" "$unlike" >"$scratch/judged.json"
        "$pact" check "$scratch/judged.pact" "$scratch/judged.json" >"$scratch/told" 2>&1
        steps+=("$1" "$2" "$(found_set upper)" "$(found_set lower)")
        [ -n "${steps[-1]}" ] || break
        shift 2
    done
    if [ $# -eq 0 ]; then
        certify "$plan" "${steps[@]}" >"$scratch/judged.json"
        "$pact" check "$scratch/judged.pact" "$scratch/judged.json" >"$scratch/told" 2>&1
    fi
    tr '\n' ' ' <"$scratch/told" | sed 's/^certificate refused: //; s/ $//'
}

# Whether that is what is said.
says() {
    is_text 'what check says' "$(judged "${@:2}")" "$1"
}

# One step, which leads to a plan, and a step that leads back to the plan as written.
leads() { # after, as written, declarations, upper, rule, lower, rule back
    says "C5 stated  found $1" "$3" '' "$4" "$5" && says accepted "$3" "$2" "${@:4}"
}

# One step that is refused.
refused() { # why, declarations, upper, rule
    says "step 1: $1" "$2" '' "$3" "$4"
}

# Whether these are all of the rules that have a place at an operator: those that aren't refused for C1.
rules='map-map map-left map-left-up map-right map-right-up rotate rotate-up map-reduce map-reduce-up map-cogroup-left map-cogroup-left-up map-cogroup-right map-cogroup-right-up reduce-match-left reduce-match-left-up reduce-match-right reduce-match-right-up'
places() { # rules, declarations, operator
    local rule words=
    for rule in $rules; do
        [ "$(judged "$2" '' "$3" "$rule")" = 'step 1: C1' ] || words+=" $rule"
    done
    is_text 'the rules with a place' "$words" "${1:+ $1}"
}
