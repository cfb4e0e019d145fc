# How many different amounts each region has.
# SQL: select region, count(distinct amount) from sales group by region
pact 1
fields 4
source sale sales.csv text:0 int:1 int:2
function once reduce 2
  r0 = new
  v0 = key 0
  set r0 0 v0
  v0 = key 1
  set r0 2 v0
  emit r0
end
function count reduce 1
  v0 = int 0
  each x1 of group
    v1 = get x1 2
    v1 = isnull v1
    v1 = not v1
    v0 = addw v0 v1
  end
  r0 = new
  v2 = key 0
  set r0 0 v2
  set r0 3 v0
  emit r0
end
reduce amounts once sale by 0 2
reduce counts count amounts by 0
sink counts 0 3
