pact 1
fields 4
source s e.csv int:0 int:1
function pos map
  r0 = copy in
  v0 = get in 1
  v1 = int 0
  v2 = lt v1 v0
  if v2
    emit r0
  end
end
function cnt reduce 1
  v0 = int 0
  v1 = int 1
  each x1 of group
    v0 = addw v0 v1
  end
  each x1 of group
    r0 = copy x1
    set r0 3 v0
    emit r0
  end
end
reduce r cnt s by 0
map m pos r
sink m 0 1 3
