# A row for each region, with a column for what it sold in each quarter.
# SQL: select region,
#          sum(coalesce(amount, 0)) filter (where quarter = 1),
#          sum(coalesce(amount, 0)) filter (where quarter = 2),
#          sum(coalesce(amount, 0)) filter (where quarter = 3),
#          sum(coalesce(amount, 0)) filter (where quarter = 4)
#      from sales group by region
pact 1
fields 7
source sale sales.csv text:0 int:1 int:2
function turn reduce 1
  v1 = int 1
  v2 = int 2
  v3 = int 3
  v4 = int 4
  # v11 to v14 are Null, and stay so where the quarter has no row
  each x1 of group
    v5 = get x1 1
    v6 = get x1 2
    v7 = eq v5 v1
    if v7
      v11 = addw v11 v6
    end
    v7 = eq v5 v2
    if v7
      v12 = addw v12 v6
    end
    v7 = eq v5 v3
    if v7
      v13 = addw v13 v6
    end
    v7 = eq v5 v4
    if v7
      v14 = addw v14 v6
    end
  end
  r0 = new
  v0 = key 0
  set r0 0 v0
  set r0 3 v11
  set r0 4 v12
  set r0 5 v13
  set r0 6 v14
  emit r0
end
reduce table turn sale by 0
sink table 0 3 4 5 6
