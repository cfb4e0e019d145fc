pact 1
fields 7
source c customers.csv int:0 text:1 text:2
source o orders.csv int:3 int:4 int:5
function jn match
  r0 = copy join
  emit r0
end
function de map
  v0 = get in 2
  v1 = text "DE"
  v2 = eq v0 v1
  if v2
    r0 = copy in
    emit r0
  end
end
function tot reduce 2
  v0 = int 0
  each x1 of group
    v1 = get x1 5
    v0 = addw v0 v1
  end
  r0 = new
  v2 = key 0
  set r0 0 v2
  v2 = key 1
  set r0 1 v2
  set r0 6 v0
  emit r0
end
match j jn c o by 0 = 4
map d de j
reduce r tot d by 0 1
sink r 1 6
