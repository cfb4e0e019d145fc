# Loops in loops: each begins where it settled before, and what is found is what is found by starting anew. In the first program a value that may have come
# from a key is put back into that key's field, and no longer is the key's value in the next turn: begun where the loop settled, `control` would be {0,2}.

# Each row has the lines of a CoGroup's function, one after the other, and what `sets` finds.
while IFS='|' read -r lines found; do
    {
        printf 'pact 1\nfields 6\nsource s s.csv int:0 int:1\nsource t t.csv int:2 int:3\nfunction f cogroup 1\n'
        tr ';' '\n' <<<"$lines"
        printf 'end\ncogroup g f s t by 0 = 2\nsink g 0 1\n'
    } >"$scratch/loops.pact"
    count gives 0 "g cogroup $found\n" '' sets loops.pact
done <<'END'
each x1 of left;v0 = get x1 0;repeat 2;v1 = int 0;each x2 of right;if v1;end;r0 = copy x2;set r0 2 v0;v1 = get r0 2;end;v0 = not v0;end;emit r1;end|reads {0,1,2,3,4,5} writes {0,1,2,3,4,5} control {0} touched {0,1,2,3,4,5} emit 0..many anchor none order no
each x1 of right;v0 = get x1 2;repeat 2;v1 = int 0;each x2 of left;if v1;end;r0 = copy x2;set r0 0 v0;v1 = get r0 0;end;v0 = not v0;end;emit r1;end|reads {0,1,2,3,4,5} writes {0,1,2,3,4,5} control {2} touched {0,1,2,3,4,5} emit 0..many anchor none order no
each x1 of left;v0 = get x1 1;repeat 2;v1 = int 0;each x2 of right;if v1;end;r0 = copy x2;set r0 2 v0;v1 = get r0 2;end;v0 = not v0;end;emit r1;end|reads {0,1,2,3,4,5} writes {0,1,2,3,4,5} control {1} touched {0,1,2,3,4,5} emit 0..many anchor none order no
v0 = key 0;repeat 2;v1 = int 0;each x1 of right;if v1;end;r0 = copy x1;set r0 2 v0;v1 = get r0 2;end;v0 = not v0;end;emit r1|reads {0,1,2,3,4,5} writes {0,1,2,3,4,5} control {0,2} touched {0,1,2,3,4,5} emit 1..1 anchor none order no
each x1 of left;v0 = get x1 0;repeat 3;each x2 of right;r0 = copy x2;set r0 2 v0;v2 = get r0 3;if v2;v0 = get x2 3;end;end;emit r0;end;end|reads {0,1,2,3,4,5} writes {0,1,2,3,4,5} control {3} touched {0,1,2,3,4,5} emit 0..many anchor none order no
v5 = int 0;each x1 of left;repeat 2;repeat 2;v5 = add v5 v4;v4 = add v4 v3;end;v3 = get x1 1;end;if v5;emit r0;end;r0 = copy x1;end|reads {0,1,2,3,4,5} writes {0,1,2,3,4,5} control {1} touched {0,1,2,3,4,5} emit 0..many anchor none order no
END
