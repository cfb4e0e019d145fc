pact 2
fields 9
source orders orders_rows.csv int:0 int:1 text:2 int:3
source customers customers_rows.csv int:4 text:5 text:6 text:7
function pair match
  r0 = copy join
  emit r0
end
function is_german map
  v0 = get in 6
  v1 = text "DE"
  v2 = eq v0 v1
  if v2
    r0 = copy in
    emit r0
  end
end
function add_up reduce 2
  v0 = int 0
  each x1 of group
    v1 = get x1 3
    v0 = addw v0 v1
  end
  r0 = new
  v2 = key 0
  set r0 4 v2
  v2 = key 1
  set r0 5 v2
  set r0 8 v0
  emit r0
end
match joined pair customers orders by 4 = 1
map german is_german joined
reduce spent add_up german by 4 5
sink spent 5 8
