pact 1
fields 5
source s s.csv int:0 int:1
source t t3.csv int:2 int:3
function best reduce 1
  v0 = null
  each x1 of group
    v1 = get x1 3
    v0 = max v0 v1
  end
  r0 = new
  v2 = key 0
  set r0 2 v2
  set r0 3 v0
  emit r0
end
function jn match
  r0 = copy join
  emit r0
end
function cnt reduce 1
  v0 = int 0
  v1 = int 1
  each x1 of group
    v0 = addw v0 v1
  end
  each x1 of group
    r0 = copy x1
    set r0 4 v0
    emit r0
  end
end
reduce b best t by 2
match g jn s b by 0 = 2
reduce r cnt g by 0
sink r 0 1 2 3 4
