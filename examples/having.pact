# The regions that have sold for more than 0, with what they have sold.
# SQL: select region, sum(amount) from sales group by region having sum(amount) > 0
pact 1
fields 4
source sale sales.csv text:0 int:1 int:2
function add_up reduce 1
  v0 = int 0
  each x1 of group
    v1 = get x1 2
    v0 = addw v0 v1
  end
  v1 = int 0
  v2 = lt v1 v0
  if v2
    r0 = new
    v3 = key 0
    set r0 0 v3
    set r0 3 v0
    emit r0
  end
end
reduce sums add_up sale by 0
sink sums 0 3
