# What each shop in Oslo has taken, at the prices that it asks itself.
# SQL: select shops.id, coalesce(sum(sold.quantity * prices.price), 0)
#   from sold join prices on sold.shop = prices.shop and sold.item = prices.item join shops on sold.shop = shops.id
#   where shops.city = 'Oslo' and sold.quantity > 0 group by shops.id
pact 2
fields 10
source sold sold.csv int:0 text:1 int:2
source prices prices.csv int:3 text:4 int:5
source shops shops.csv int:6 text:7
function pair match
  r0 = copy join
  emit r0
end
function some map
  v0 = get in 2
  v1 = int 0
  v2 = lt v1 v0
  if v2
    r0 = copy in
    emit r0
  end
end
function oslo map
  v0 = get in 7
  v1 = text "Oslo"
  v2 = eq v0 v1
  if v2
    r0 = copy in
    emit r0
  end
end
function worth map
  v0 = get in 2
  v1 = get in 5
  v2 = mul v0 v1
  r0 = copy in
  set r0 8 v2
  emit r0
end
function total reduce 1
  v0 = int 0
  each x1 of group
    v1 = get x1 8
    v0 = addw v0 v1
  end
  r0 = new
  v2 = key 0
  set r0 6 v2
  set r0 9 v0
  emit r0
end
match priced pair sold prices by 0 1 = 3 4
match placed pair priced shops by 0 = 6
map open oslo placed
map positive some open
map valued worth positive
reduce takings total valued by 6
sink takings 6 9
