pact 1
fields 4
source s h.csv int:0 int:1
function sum reduce 1
  v0 = int 0
  each x1 of group
    v1 = get x1 1
    v0 = addw v0 v1
  end
  r0 = new
  v2 = key 0
  set r0 0 v2
  set r0 2 v0
  emit r0
end
function one map
  v0 = get in 0
  v1 = int 1
  v2 = eq v0 v1
  if v2
    r0 = copy in
    emit r0
  end
end
reduce r sum s by 0
map m one r
sink m 0 2
