# Which functions pass the order test. The answers are worked out by hand from the rule in docs/order.md.

# A program of one operator of this kind, whose function has these statements, with "; " between them.
order_program() {
    local operator="$1 m f s" function=$1 right='source t t.csv int:2 int:3\n'
    case $1 in
    map) right='' ;;
    reduce) right='' operator+=' by 0' function+=' 1' ;;
    match) operator+=' t by 0 = 2' ;;
    cross) operator+=' t' ;;
    cogroup) operator+=' t by 0 = 2' function+=' 1' ;;
    esac
    printf 'pact 1\nfields 6\nsource s s.csv int:0 int:1\n%b' "$right"
    printf 'function f %s\n%s\nend\n%s\nsink m 0\n' "$function" "${2//; /$'\n'}" "$operator"
}

# Whether a function of this kind with these statements passes, or doesn't: yes or no, the kind, and the statements.
passes_order() {
    order_program "$2" "$3" >"$scratch/order.pact"
    (cd "$scratch" && "$pact" sets order.pact >out 2>err) && is_file 'standard error' "$scratch/err" /dev/null || return
    is_text 'the line of sets' "$(sed 's/ reads .* order / .. order /' "$scratch/out")" "m $2 .. order $1"
}

# Functions of each kind.
while IFS='|' read -r answer kind statements; do
    count passes_order "$answer" "$kind" "$statements"
done <<'END'
yes|reduce|each x1 of group; v1 = get x1 1; v0 = addw v0 v1; end; v5 = mov v0; set r0 2 v5; emit r0
yes|reduce|each x1 of group; v1 = get x1 1; v0 = addw v0 v1; end; each x1 of group; r0 = copy x1; set r0 2 v0; emit r0; end
yes|reduce|r0 = new; v0 = key 0; set r0 1 v0; emit r0
no|reduce|r0 = copy first; v0 = key 0; set r0 1 v0; emit r0
no|reduce|r0 = new; v0 = get first 0; set r0 1 v0; emit r0
yes|reduce|each x1 of group; v0 = get x1 1; r0 = new; set r0 2 v0; emit r0; end
yes|reduce|v2 = int 1; each x1 of group; v0 = addw v0 v2; end; each x1 of group; v1 = addw v1 v2; end; set r0 2 v0; set r0 3 v1; emit r0
no|reduce|r0 = new; each x1 of group; v1 = get x1 1; set r0 1 v1; emit r0; end
yes|reduce|each x1 of group; r0 = new; v1 = get x1 1; set r0 1 v1; emit r0; end
yes|reduce|each x1 of group; v0 = null; each x2 of group; v1 = get x2 1; v0 = max v0 v1; end; r0 = copy x1; set r0 2 v0; emit r0; end
no|reduce|v0 = null; each x1 of group; each x2 of group; v1 = get x2 1; v0 = max v0 v1; end; r0 = copy x1; set r0 2 v0; emit r0; end
no|reduce|each x1 of group; v4 = mov v3; each x2 of group; v3 = get x2 1; end; r0 = new; set r0 2 v4; emit r0; end
no|reduce|each x1 of group; v3 = null; each x2 of group; v3 = get x2 1; end; r0 = new; set r0 2 v3; emit r0; end
yes|reduce|each x1 of group; v4 = mov v5; each x2 of group; v3 = get x2 1; end; r0 = new; set r0 2 v4; emit r0; end
yes|reduce|r0 = new; set r0 2 v0; emit r0; each x1 of group; v0 = get x1 1; end
no|reduce|repeat 2; r0 = new; set r0 2 v0; emit r0; each x1 of group; v0 = get x1 1; end; end
yes|reduce|repeat 2; r0 = new; set r0 2 v0; emit r0; each x1 of group; v1 = get x1 1; v0 = addw v0 v1; end; end
yes|cogroup|v2 = int 1; each x1 of left; v0 = addw v0 v2; end; each x1 of right; v1 = addw v1 v2; end; set r0 2 v0; set r0 3 v1; emit r0
no|cogroup|v2 = int 1; each x1 of left; v0 = addw v0 v2; end; each x1 of right; v1 = get x1 1; end; set r0 2 v0; set r0 3 v1; emit r0
yes|map|r0 = copy in; v0 = add v0 v0; set r0 1 v0; emit r0
yes|match|v0 = get right 1; v1 = sub v1 v0; set r0 1 v1; emit r0
yes|cross|repeat 3; v0 = get join 1; v1 = sub v1 v0; set r0 1 v1; emit r0; end
END

# Statements in a loop of a Reduce, where v1 is a value of the turn's record; behind the loop v0 is emitted.
while IFS='|' read -r answer statements; do
    count passes_order "$answer" reduce "each x1 of group; v1 = get x1 1; $statements; end; set r7 2 v0; emit r7"
done <<'END'
yes|v0 = addw v0 v1
yes|v0 = min v0 v1
yes|if v1; v0 = max v0 v1; else; v0 = max v0 v2; end
no|v0 = add v0 v1
no|v0 = mul v0 v1
no|v0 = addw v1 v0
no|v0 = addw v0 v0; v0 = addw v0 v1
no|v0 = addw v0 v1; v0 = max v0 v1
no|if v1; v0 = min v0 v1; else; v0 = max v0 v1; end
no|v0 = addw v0 v1; v5 = mov v0
no|v0 = addw v0 v1; if v0; end
no|v0 = addw v0 v1; r0 = copy x1; set r0 2 v0; emit r0
yes|if v1; r0 = copy x1; end; v0 = addw v0 v1
no|if v1; r0 = copy first; end; v0 = addw v0 v1
no|v0 = mov v1
no|v2 = get r7 1; v2 = addw v2 v1; set r7 1 v2
no|r7 = copy x1
yes|each x2 of group; v2 = get x2 1; v3 = mul v1 v2; v0 = addw v0 v3; end
yes|repeat 2; v0 = addw v0 v1; end
END
