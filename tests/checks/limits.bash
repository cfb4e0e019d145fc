# Inputs as large as they may be, and larger ones.

# Whether a program of that name in the scratch folder is refused as too long, with this line.
is_too_long() {
    gives 8 '' "$2\n" run "$1"
}

# Whether a command over a program in the scratch folder has this status, and writes these files' bytes on its streams.
comes_to() {
    keep_command pact "$1" "$2"
    (cd "$scratch" && "$pact" "$1" "$2" >out 2>err)
    came_to_files $? "$3" "$scratch/$4" "$scratch/$5"
}

# Records and a sink of 64 fields, a file name of 200 bytes, 1,001 rows, as many records of one call, and as many groups.
: >"$scratch/none"
long_name=$(head -c 196 /dev/zero | tr '\0' 'a').csv
awk 'BEGIN { for (i = 0; i <= 1000; i++) for (k = 0; k < 64; k++) printf "%d%s", i, k < 63 ? "," : "\n" }' >"$scratch/$long_name"
awk 'BEGIN { for (i = 0; i <= 1000; i++) { for (k = 0; k < 63; k++) printf "%d,", i; print i ? 1 : 1001 } }' >"$scratch/wide.out"
{
    printf 'pact 1\nfields 64\nsource s %s%s\n' "$long_name" "$(awk 'BEGIN { for (k = 0; k < 64; k++) printf " int:%d", k }')"
    cat <<'END'
function copies map
  r0 = copy in
  v0 = get in 0
  v1 = not v0
  if v1
    repeat 1000
      emit r0
    end
  end
  emit r0
end
function count reduce 1
  v0 = int 0
  v1 = int 1
  each x1 of group
    v0 = add v0 v1
  end
  r0 = copy first
  set r0 63 v0
  emit r0
end
map m copies s
reduce r count m by 0
END
    printf 'sink r%s\n' "$(awk 'BEGIN { for (k = 0; k < 64; k++) printf " %d", k }')"
} >"$scratch/wide.pact"
count comes_to run wide.pact 0 wide.out none
cat >"$scratch/wide.sets" <<'END'
m map reads {0} writes {} control {0} touched {0} emit 1..1001 anchor none order yes
r reduce reads {0} writes {63} control {} touched {0,63} emit 1..1 anchor none order no
END
count comes_to sets wide.pact 0 wide.sets none

# All fields in one set: a CoGroup that is anchored on neither side.
cat >"$scratch/neither.pact" <<'END'
pact 1
fields 64
source s s.csv int:0
source t t.csv int:63
function new cogroup 1
  r0 = new
  emit r0
end
cogroup g new s t by 0 = 63
sink g 0
END
all=$(awk 'BEGIN { for (k = 0; k < 64; k++) printf "%d%s", k, k < 63 ? "," : "" }')
echo "g cogroup reads {$all} writes {$all} control {} touched {$all} emit 1..1 anchor none order yes" >"$scratch/neither.sets"
count comes_to sets neither.pact 0 neither.sets none

# One statement more than a function may have.
{
    printf 'pact 1\nfields 1\nsource s s.csv int:0\nfunction f map\n'
    awk 'BEGIN { for (i = 0; i <= 1000; i++) print "v0 = null" }'
    printf 'end\nmap m f s\nsink m 0\n'
} >"$scratch/longer.pact"
echo 'function f: V7 at statement 1000' >"$scratch/longer.err"
count comes_to run longer.pact 6 none longer.err
count comes_to sets longer.pact 6 none longer.err

# One byte more than a program and a source may have.
head -c 1048577 /dev/zero | tr '\0' '#' >"$scratch/long.pact"
count is_too_long long.pact 'long.pact is longer than 1048576 bytes'
head -c 67108865 /dev/zero | tr '\0' '\n' >"$scratch/s.csv"
cp filter.pact "$scratch/filter.pact"
count is_too_long filter.pact 's.csv is longer than 67108864 bytes'
cp push.pact "$scratch/push.pact"
head -c 1048577 /dev/zero | tr '\0' ' ' >"$scratch/long.json"
count gives 8 '' 'long.json is longer than 1048576 bytes\n' check push.pact long.json
