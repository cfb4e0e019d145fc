# Each sale with what its region had sold by the end of that quarter.
# SQL: select region, quarter, amount, sum(coalesce(amount, 0)) over (partition by region order by quarter)
#      from sales
pact 1
fields 4
source sale sales.csv text:0 int:1 int:2
function running reduce 1
  each x1 of group
    v0 = get x1 1
    v1 = int 0
    each x2 of group
      v2 = get x2 1
      v3 = le v2 v0       # it is of no later quarter
      if v3
        v4 = get x2 2
        v1 = addw v1 v4
      end
    end
    r0 = copy x1
    set r0 3 v1
    emit r0
  end
end
reduce totals running sale by 0
sink totals 0 1 2 3
