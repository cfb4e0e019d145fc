# What each shop but the second would have taken with 30 and with 10 percent off. Each side of each operator has fields below and above the 64th.
# SQL: select shops.city, taken.size, taken.total
#   from (select sold.shop, sizes.size, coalesce(sum(sold.quantity * prices.price * (100 - sizes.size)), 0) / 100 as total
#     from sold join prices on sold.shop = prices.shop and sold.item = prices.item cross join sizes
#     where sold.quantity > 0 group by sold.shop, sizes.size) as taken
#   join shops on taken.shop = shops.id where taken.shop <> 2
pact 2
fields 128
source sold sold.csv int:65 text:3 int:127
source prices prices.csv int:64 text:66 int:2
source percent sizes.csv int:100
source shops shops.csv int:63 text:126
function pair match
  r0 = copy join
  emit r0
end
function some map
  v0 = get in 127
  v1 = int 0
  v2 = lt v1 v0
  if v2
    r0 = copy in
    emit r0
  end
end
function cut cross
  v0 = get left 127
  v1 = get left 2
  v2 = mul v0 v1
  v3 = int 100
  v4 = get right 100
  v5 = sub v3 v4
  v6 = mul v2 v5
  r0 = copy join
  set r0 120 v6
  emit r0
end
function total reduce 2
  v0 = int 0
  each x1 of group
    v1 = get x1 120
    v0 = addw v0 v1
  end
  v1 = int 100
  v0 = div v0 v1
  r0 = new
  v2 = key 0
  set r0 65 v2
  v2 = key 1
  set r0 100 v2
  set r0 1 v0
  emit r0
end
function placed cogroup 1
  each x1 of left
    each x2 of right
      r0 = copy x1
      v0 = get x2 126
      set r0 126 v0
      emit r0
    end
  end
end
function other map
  v0 = get in 65
  v1 = int 2
  v2 = eq v0 v1
  v3 = not v2
  if v3
    r0 = copy in
    emit r0
  end
end
match priced pair sold prices by 65 3 = 64 66
map positive some priced
cross reduced cut positive percent
reduce taken total reduced by 65 100
cogroup named placed taken shops by 65 = 63
map open other named
sink open 126 100 1
