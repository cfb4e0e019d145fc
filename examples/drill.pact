pact 1
fields 4
source g drill.csv int:0 int:1 text:2
function total reduce 1
  v0 = int 0
  each x1 of group
    v1 = get x1 1
    v0 = addw v0 v1
  end
  r0 = new
  v2 = key 0
  set r0 0 v2
  set r0 3 v0
  emit r0
end
function low map
  v0 = get in 0
  v1 = int 500
  v2 = lt v0 v1
  if v2
    r0 = copy in
    emit r0
  end
end
reduce r total g by 0
map m low r
sink m 0 3
