# The sales with the greatest amount of their region, with ties.
# SQL: select region, quarter, amount from sales
#      where amount = (select max(amount) from sales as other where other.region = sales.region)
pact 1
fields 3
source sale sales.csv text:0 int:1 int:2
function best reduce 1
  each x1 of group
    v1 = get x1 2
    v0 = max v0 v1
  end
  v3 = isnull v0
  v4 = key 0
  v4 = isnull v4
  v3 = or v3 v4
  v3 = not v3             # none is the best if no row has an amount, or the region is Null
  each x1 of group
    v1 = get x1 2
    v2 = eq v1 v0
    v2 = and v2 v3
    if v2
      r0 = copy x1
      emit r0
    end
  end
end
reduce greatest best sale by 0
sink greatest 0 1 2
