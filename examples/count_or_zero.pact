# How many values are above 100. If none is, the row of one.csv has no partner, and the count is 0.
# SQL: select count(*) from s where value > 100
pact 1
fields 5
source s s.csv int:0 int:1
source one one.csv int:2
function above map
  v0 = get in 1
  v1 = int 100
  v2 = lt v1 v0
  if v2
    r0 = copy in
    v3 = int 1
    set r0 3 v3
    emit r0
  end
end
function count cogroup 1
  v0 = int 0
  v1 = int 1
  each x1 of left
    v0 = addw v0 v1
  end
  r0 = new
  set r0 4 v0
  emit r0
end
map large above s
cogroup total count large one by 3 = 2
sink total 4
