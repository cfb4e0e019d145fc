# The least amount of each region. Rows without an amount are passed over.
# SQL: select region, min(amount) from sales group by region
pact 1
fields 4
source sale sales.csv text:0 int:1 int:2
function least reduce 1
  each x1 of group
    v1 = get x1 2
    v0 = max v0 v1        # Null only where no row has an amount
  end
  each x1 of group
    v1 = get x1 2
    v2 = isnull v1
    if v2
    else
      v0 = min v0 v1
    end
  end
  r0 = new
  v3 = key 0
  set r0 0 v3
  set r0 3 v0
  emit r0
end
reduce lowest least sale by 0
sink lowest 0 3
