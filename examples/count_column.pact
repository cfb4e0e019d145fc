# How many sales each region has, and how many of them have an amount.
# SQL: select region, count(*), count(amount) from sales group by region
pact 1
fields 5
source sale sales.csv text:0 int:1 int:2
function count reduce 1
  v0 = int 0
  v1 = int 0
  v2 = int 1
  each x1 of group
    v0 = addw v0 v2
    v3 = get x1 2
    v3 = isnull v3
    v3 = not v3
    v1 = addw v1 v3
  end
  r0 = new
  v4 = key 0
  set r0 0 v4
  set r0 3 v0
  set r0 4 v1
  emit r0
end
reduce counts count sale by 0
sink counts 0 3 4
