# What a function's records and lists are, and what a call of it emits.

# Emits the record, and then with both fields alike.
cat >"$scratch/map.pact" <<'END'
pact 1
fields 2
source s s.csv int:0 int:1
function f map
  r7 = copy in
  emit r7
  v31 = get in 1
  set r7 0 v31
  emit r7
end
map m f s
sink m 0 1
END

# Emits the first record of its group with the key value in field 0, and then each record.
cat >"$scratch/group.pact" <<'END'
pact 1
fields 2
source s s.csv int:0 int:1
function f reduce 1
  r0 = copy first
  v0 = key 0
  set r0 0 v0
  emit r0
  each x1 of group
    r1 = copy x1
    emit r1
  end
end
reduce r f s by 1
sink r 0 1
END

# In whatever order a group comes, each loop goes through it in the same one, in which the first record is that of the first turn: emits whether it is, and
# then each record with the value of the record that an inner loop has at its turn of that number.
cat >"$scratch/turns.pact" <<'END'
pact 1
fields 3
source s s.csv int:0 int:1
function f reduce 1
  v0 = get first 0
  v1 = int 1
  v2 = int 0
  each x1 of group
    v3 = not v2
    if v3
      v4 = get x1 0
      v4 = eq v0 v4
      r0 = new
      set r0 2 v4
      emit r0
    end
    v2 = add v2 v1
    v5 = int 0
    each x2 of group
      v5 = add v5 v1
      v6 = eq v5 v2
      if v6
        r1 = copy x1
        v7 = get x2 0
        set r1 2 v7
        emit r1
      end
    end
  end
end
reduce r f s by 1
sink r 0 1 2
END

# Emits the records of the left group, those of the right one, and a record with the key value.
cat >"$scratch/groups.pact" <<'END'
pact 1
fields 4
source s s.csv int:0 int:1
source t t.csv int:2 int:3
function f cogroup 1
  each x1 of left
    r0 = copy x1
    emit r0
  end
  each x1 of right
    r1 = copy x1
    emit r1
  end
  v0 = key 0
  set r2 0 v0
  emit r2
end
cogroup g f s t by 0 = 3
sink g 0 1 2 3
END

# Each row has the program, the bytes of s.csv and t.csv, and the rows that are written.
while IFS='|' read -r program left right rows; do
    printf '%b' "$left" >"$scratch/s.csv"
    printf '%b' "$right" >"$scratch/t.csv"
    count gives 0 "$rows" '' run "$program.pact"
done <<'END'
map|1,2\n||1,2\n2,2\n
group|1,9\n2,9\n||1,9\n2,9\n9,9\n
turns|1,9\n2,9\n3,9\n||,,1\n1,9,1\n2,9,2\n3,9,3\n
groups|5,1\n|2,5\n|,,2,5\n5,,,\n5,1,,\n
groups|5,1\n||5,,,\n5,1,,\n
groups||2,5\n|,,2,5\n5,,,\n
END
