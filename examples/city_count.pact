# How many sales the shops of each city have. Two shops may be in one city, so a Reduce adds up their counts.
# SQL: select city, count(shop) from shops left join sold on id = shop group by city
pact 1
fields 7
source shop shops.csv int:0 text:1
source sale sold.csv int:2 text:3 int:4
function count cogroup 1
  v0 = int 0
  v1 = key 0
  v1 = isnull v1
  v1 = not v1
  each x1 of right
    v0 = addw v0 v1
  end
  each x1 of left
    r0 = copy x1
    set r0 5 v0
    emit r0
  end
end
function add_up reduce 1
  v0 = int 0
  each x1 of group
    v1 = get x1 5
    v0 = addw v0 v1
  end
  r0 = new
  v2 = key 0
  set r0 1 v2
  set r0 6 v0
  emit r0
end
cogroup counted count shop sale by 0 = 2
reduce cities add_up counted by 1
sink cities 1 6
