# The sum of each region's amounts, how many there are, and their average, cut towards zero.
# SQL: select region, coalesce(sum(amount), 0), count(amount), sum(amount) / count(amount)
#      from sales group by region
pact 1
fields 6
source sale sales.csv text:0 int:1 int:2
function mean reduce 1
  v0 = int 0
  v1 = int 0
  each x1 of group
    v2 = get x1 2
    v0 = addw v0 v2       # a row without an amount adds 0 to the sum
    v3 = isnull v2
    v3 = not v3
    v1 = addw v1 v3       # and to the count
  end
  v4 = div v0 v1          # Null where the count is 0
  r0 = new
  v5 = key 0
  set r0 0 v5
  set r0 3 v0
  set r0 4 v1
  set r0 5 v4
  emit r0
end
reduce means mean sale by 0
sink means 0 3 4 5
