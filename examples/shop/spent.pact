pact 2
fields 5
source orders orders_rows.csv int:0 int:1 text:2 int:3
function add_up reduce 1
  v0 = int 0
  each x1 of group
    v1 = get x1 3
    v0 = addw v0 v1
  end
  r0 = new
  v2 = key 0
  set r0 1 v2
  set r0 4 v0
  emit r0
end
reduce spent add_up orders by 1
sink spent 1 4
