# What the analysis finds of an operator: the fields that it reads, writes, decides by and touches, how many records a call gives, and the anchor.

# A program of one operator of this kind, whose inputs have these columns and whose function has these statements, with "; " between them.
analysed_program() {
    local operator="$1 m f s" function=$1
    case $1 in
    reduce) operator+=' by 0' function+=' 1' ;;
    match) operator+=' t by 0 = 2' ;;
    cogroup) operator+=' t by 0 = 2' function+=' 1' ;;
    esac
    printf 'pact 1\nfields 6\nsource s s.csv %s\n' "$2"
    [ -z "$3" ] || printf 'source t t.csv %s\n' "$3"
    printf 'function f %s\n%s\nend\n%s\nsink m 0\n' "$function" "${4//; /$'\n'}" "$operator"
}

# Each row has the kind, the statements, and what is found. A Map and a Reduce have the fields 0 and 1 below them, and a Match and a CoGroup these on
# the left, 2 and 3 on the right; the keys are 0, and 0 = 2.
while IFS='|' read -r kind statements found; do
    case $kind in
    map | reduce) right='' ;;
    *) right='int:2 int:3' ;;
    esac
    analysed_program "$kind" 'int:0 int:1' "$right" "$statements" >"$scratch/analysed.pact"
    count gives 0 "m $kind $found\n" '' sets analysed.pact
done <<'END'
map|r0 = new; emit r0|reads {} writes {0,1} control {} touched {0,1} emit 1..1 anchor none order yes
map|r0 = copy in; v0 = get r0 1; set r0 1 v0; emit r0|reads {} writes {} control {} touched {1} emit 1..1 anchor none order yes
map|r0 = copy in; v0 = get in 1; v0 = len v0; set r0 0 v0; v1 = get r0 0; set r0 3 v1; emit r0|reads {1} writes {0,3} control {} touched {0,1,3} emit 1..1 anchor none order yes
map|v1 = get in 0; if v0; if v1; r0 = copy in; end; end; emit r0|reads {0,1} writes {0,1} control {0} touched {0,1} emit 1..1 anchor none order yes
map|r0 = copy in; emit r0; v0 = int 1; set r0 3 v0; emit r0|reads {3} writes {3} control {} touched {3} emit 2..2 anchor none order yes
map|set r0 3 v2; if v2; else; set r0 1 v2; end|reads {} writes {} control {} touched {1,3} emit 0..0 anchor none order yes
map|repeat 3; emit r0; emit r0; end|reads {} writes {0,1} control {} touched {0,1} emit 6..6 anchor none order yes
map|if v0; emit r0; else; emit r0; emit r0; end|reads {} writes {0,1} control {} touched {0,1} emit 1..2 anchor none order yes
map|repeat 1000; repeat 100; emit r0; emit r0; emit r0; emit r0; emit r0; emit r0; emit r0; emit r0; emit r0; emit r0; emit r0; end; end|reads {} writes {0,1} control {} touched {0,1} emit many..many anchor none order yes
match|r0 = copy right; v0 = get left 3; set r0 3 v0; emit r0|reads {0,2} writes {0,1,3} control {} touched {0,1,2,3} emit 1..1 anchor none order yes
match|r0 = copy join; v0 = get right 3; set r0 1 v0; emit r0|reads {0,2,3} writes {1} control {} touched {0,1,2,3} emit 1..1 anchor none order yes
match|r0 = new; v0 = get left 1; set r0 1 v0; emit r0|reads {0,2} writes {0,2,3} control {} touched {0,1,2,3} emit 1..1 anchor none order yes
reduce|r0 = copy first; v0 = get first 1; set r0 1 v0; emit r0|reads {0} writes {} control {} touched {0,1} emit 1..1 anchor none order no
reduce|each x1 of group; r0 = copy first; v0 = get x1 1; set r0 1 v0; emit r0; end|reads {0,1} writes {1} control {} touched {0,1} emit 1..many anchor none order no
reduce|each x1 of group; v0 = get x1 1; end; each x1 of group; r0 = copy x1; set r0 1 v0; emit r0; end|reads {0,1} writes {1} control {} touched {0,1} emit 1..many anchor none order no
reduce|each x1 of group; each x2 of group; r0 = copy x2; v0 = get x2 1; set r0 1 v0; v1 = get x1 1; set r0 3 v1; emit r0; end; end|reads {0,1} writes {3} control {} touched {0,1,3} emit 1..many anchor none order yes
reduce|each x1 of group; r0 = copy x1; end; v0 = key 0; set r0 0 v0; emit r0|reads {0,1} writes {1} control {} touched {0,1} emit 1..1 anchor none order no
reduce|v0 = key 0; r0 = copy first; if v0; each x1 of group; r0 = copy x1; end; end; v1 = get first 1; set r0 1 v1; emit r0|reads {0,1} writes {1} control {0} touched {0,1} emit 1..1 anchor none order no
reduce|each x1 of group; if v0; emit r0; end; v0 = mov v1; v1 = get x1 1; end|reads {0,1} writes {0,1} control {1} touched {0,1} emit 0..many anchor none order no
reduce|v2 = get first 1; repeat 3; if v0; emit r0; end; v0 = mov v1; v1 = mov v2; end|reads {0,1} writes {0,1} control {1} touched {0,1} emit 0..3 anchor none order no
reduce|each x1 of group; v0 = int 1; end|reads {0} writes {} control {} touched {0} emit 0..0 anchor none order yes
cogroup|v0 = key 0|reads {0,2} writes {} control {} touched {0,2} emit 0..0 anchor both order yes
cogroup|each x1 of right; r0 = copy x1; emit r0; end|reads {0,2} writes {} control {} touched {0,2} emit 0..many anchor right order yes
cogroup|v0 = key 0; if v0; r0 = new; emit r0; end|reads {0,1,2,3,4,5} writes {0,1,2,3,4,5} control {0,2} touched {0,1,2,3,4,5} emit 0..1 anchor none order yes
cogroup|each x1 of left; r0 = copy x1; end; repeat 3; emit r0; end|reads {0,1,2,3,4,5} writes {0,1,2,3,4,5} control {} touched {0,1,2,3,4,5} emit 3..3 anchor none order no
map|r0 = copy in; v0 = get in 0; set r0 3 v0; v1 = int 1; set r0 3 v1; emit r0|reads {0} writes {3} control {} touched {0,3} emit 1..1 anchor none order yes
map|r0 = copy in; v0 = get in 0; set r0 3 v0; r0 = copy in; set r0 3 v9; emit r0|reads {} writes {3} control {} touched {3} emit 1..1 anchor none order yes
map|r0 = copy in; v0 = get in 0; set r0 3 v0; r0 = new; set r0 3 v9; emit r0|reads {} writes {0,1,3} control {} touched {0,1,3} emit 1..1 anchor none order yes
map|r0 = copy in; v0 = get in 0; v1 = get in 1; set r0 1 v0; set r0 1 v1; emit r0|reads {0} writes {} control {} touched {0,1} emit 1..1 anchor none order yes
map|r0 = copy in; v0 = get in 0; set r0 3 v0; v1 = get in 1; set r0 4 v1; v2 = get r0 3; r1 = copy in; set r1 5 v2; emit r1|reads {0,1} writes {5} control {} touched {0,1,3,4,5} emit 1..1 anchor none order yes
map|r0 = copy in; v0 = get in 1; set r0 0 v0; v1 = get r0 0; set r0 1 v1; emit r0|reads {1} writes {0,1} control {} touched {0,1} emit 1..1 anchor none order yes
map|r0 = copy in; v0 = get in 0; set r0 3 v0; r1 = copy r0; set r1 4 v9; emit r1|reads {0} writes {3,4} control {} touched {0,3,4} emit 1..1 anchor none order yes
match|r0 = copy join; v0 = get left 3; set r0 4 v0; emit r0|reads {0,2} writes {4} control {} touched {0,2,4} emit 1..1 anchor none order yes
match|r0 = copy join; v0 = get left 5; set r0 4 v0; emit r0|reads {0,2,5} writes {4} control {} touched {0,2,4,5} emit 1..1 anchor none order yes
match|r0 = copy join; v0 = get left 0; set r0 2 v0; emit r0|reads {0,2} writes {2} control {} touched {0,2} emit 1..1 anchor none order yes
match|r0 = copy left; v0 = get right 3; set r0 3 v0; emit r0|reads {0,2} writes {2} control {} touched {0,2,3} emit 1..1 anchor none order yes
cogroup|each x1 of left; v0 = get x1 0; each x2 of right; r0 = copy x2; set r0 2 v0; emit r0; end; end|reads {0,2} writes {} control {} touched {0,2} emit 0..many anchor right order yes
cogroup|each x1 of left; r0 = copy x1; set r0 2 v0; v1 = key 0; set r0 2 v1; emit r0; end|reads {0,2} writes {2} control {} touched {0,2} emit 0..many anchor left order yes
reduce|each x1 of group; v0 = get x1 0; end; each x1 of group; r0 = copy x1; set r0 0 v0; emit r0; end|reads {0} writes {0} control {} touched {0} emit 1..many anchor none order no
reduce|r0 = copy first; each x1 of group; v0 = get x1 0; r0 = copy first; set r0 0 v0; emit r0; end|reads {0} writes {} control {} touched {0} emit 1..many anchor none order no
reduce|r0 = new; v0 = get first 1; set r0 1 v0; emit r0|reads {0,1} writes {0,1} control {} touched {0,1} emit 1..1 anchor none order no
reduce|repeat 1; r0 = copy first; end; emit r0|reads {0} writes {} control {} touched {0} emit 1..1 anchor none order no
reduce|each x1 of group; r0 = copy first; end; emit r0|reads {0,1} writes {0,1} control {} touched {0,1} emit 1..1 anchor none order no
map|v0 = get in 0; v1 = add v0 v0; r0 = copy in; emit r0|reads {} writes {} control {} touched {} emit 1..1 anchor none order yes
map|r0 = new; v0 = get r0 3; r1 = copy in; set r1 4 v0; emit r1|reads {3} writes {4} control {} touched {3,4} emit 1..1 anchor none order yes
cogroup|each x1 of left; r0 = copy x1; each x2 of right; v0 = get r0 1; r1 = copy x1; set r1 4 v0; emit r1; r0 = copy x2; end; end|reads {0,1,2,3,4,5} writes {4} control {} touched {0,1,2,3,4,5} emit 0..many anchor left order no
map|v0 = get in 1; repeat 2; if v1; set r0 3 v1; end; v1 = mov v0; end|reads {1} writes {} control {1} touched {1,3} emit 0..0 anchor none order yes
map|v0 = get in 0; if v0; r0 = copy in; else; r0 = copy in; set r0 1 v9; end; v1 = get r0 1; r1 = copy in; set r1 4 v1; emit r1|reads {0,1} writes {4} control {0} touched {0,1,4} emit 1..1 anchor none order yes
reduce|each x1 of group; v0 = get x1 1; each x2 of group; r0 = copy x1; set r0 1 v0; emit r0; end; end|reads {0} writes {} control {} touched {0,1} emit 1..many anchor none order yes
END

# What a copy of the left record writes is the right side: each row has the columns of either side, and what is found.
while IFS='|' read -r left right found; do
    analysed_program match "$left" "$right" 'r0 = copy left; emit r0' >"$scratch/analysed.pact"
    count gives 0 "m match $found\n" '' sets analysed.pact
done <<'END'
int:0 int:1|int:2 int:3|reads {0,2} writes {2,3} control {} touched {0,2,3} emit 1..1 anchor none order yes
int:0 int:1 int:5|int:2 int:3|reads {0,2} writes {2,3} control {} touched {0,2,3} emit 1..1 anchor none order yes
int:0 int:1|int:2 int:3 int:5|reads {0,2} writes {2,3,5} control {} touched {0,2,3,5} emit 1..1 anchor none order yes
END

# One field stands at both positions of a key, which are two all the same: each row has the statements of a Reduce by 0 and 0, and what is found.
while IFS='|' read -r statements found; do
    analysed_program reduce 'int:0 int:1' '' "$statements" | sed 's/ by 0$/ by 0 0/; s/reduce 1$/reduce 2/' >"$scratch/analysed.pact"
    count gives 0 "m reduce $found\n" '' sets analysed.pact
done <<'END'
v0 = key 1; r0 = copy first; set r0 0 v0; emit r0|reads {0} writes {} control {} touched {0} emit 1..1 anchor none order no
v0 = key 0; if v0; v0 = get first 0; end; r0 = copy first; set r0 0 v0; emit r0|reads {0} writes {} control {0} touched {0} emit 1..1 anchor none order no
v0 = key 0; if v0; v0 = key 1; end; r0 = copy first; set r0 0 v0; emit r0|reads {0} writes {0} control {0} touched {0} emit 1..1 anchor none order no
END
