pact 1
fields 6
source s s.csv int:0 int:1
source t t3.csv int:2 int:3
function both cogroup 1
  v0 = key 0
  r0 = new
  set r0 0 v0
  v1 = int 0
  v3 = int 0
  v2 = int 1
  each x1 of left
    v1 = addw v1 v2
  end
  each x1 of right
    v3 = addw v3 v2
  end
  set r0 4 v1
  set r0 5 v3
  emit r0
end
cogroup g both s t by 0 = 2
sink g 0 4 5
