# How many rows there are. A Reduce needs a key, so a Map makes one that every record has.
# SQL: select count(*) from s
pact 1
fields 4
source s s.csv int:0 int:1
function same map
  v0 = int 0
  r0 = copy in
  set r0 2 v0
  emit r0
end
function count reduce 1
  v0 = int 0
  v1 = int 1
  each x1 of group
    v0 = addw v0 v1
  end
  r0 = new
  set r0 3 v0
  emit r0
end
map all same s
reduce total count all by 2
sink total 3
