# What each region has sold, Null if it has no amount.
# SQL: select region, sum(amount) from sales group by region
pact 1
fields 4
source sale sales.csv text:0 int:1 int:2
function add_up reduce 1
  each x1 of group
    v1 = get x1 2
    v2 = isnull v1
    if v2
    else
      v0 = addw v0 v1     # the first amount takes the place of Null
    end
  end
  r0 = new
  v3 = key 0
  set r0 0 v3
  set r0 3 v0
  emit r0
end
reduce sums add_up sale by 0
sink sums 0 3
