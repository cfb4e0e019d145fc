# SQL: select key, sum(coalesce(value, 0)) from s group by key
pact 1
fields 4
source s s.csv int:0 int:1
function sum reduce 1
  v0 = int 0
  each x1 of group
    v1 = get x1 1
    v0 = addw v0 v1
  end
  r0 = new
  v2 = key 0
  set r0 0 v2
  set r0 2 v0
  emit r0
end
reduce r sum s by 0
sink r 0 2
