# The least and the greatest amount of each region. Rows without an amount are passed over. With --combine a worker sends
# one record of each region, whose amounts it has looked at already.
# SQL: select region, min(amount), max(amount) from sales group by region
pact 1
fields 5
source sale sales.csv text:0 int:1 int:2
function span reduce 1
  v0 = text ""            # greater than every number
  each x1 of group
    v2 = get x1 2
    v1 = max v1 v2        # Null only where no row has an amount
    v3 = isnull v2
    if v3
    else
      v0 = min v0 v2
    end
  end
  v3 = isnull v1
  if v3
    v0 = null
  end
  r0 = new
  v4 = key 0
  set r0 0 v4
  set r0 3 v0
  set r0 4 v1
  emit r0
end
reduce spans span sale by 0
sink spans 0 3 4
