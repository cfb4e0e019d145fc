# What each item of a basket costs, the tax of 7.5 % on it, and both together, in cents. The tax is rounded, a half up.
# SQL: select item, net, tax, net + tax
#      from (select item, quantity * price as net, (quantity * price * 75 + 500) / 1000 as tax from basket)
pact 1
fields 6
source item basket.csv text:0 int:1 int:2
function tax map
  v0 = get in 1
  v1 = get in 2
  v2 = mul v0 v1
  v3 = int 75
  v4 = mul v2 v3
  v5 = int 500
  v4 = add v4 v5
  v6 = int 1000
  v4 = div v4 v6
  v7 = add v2 v4
  r0 = copy in
  set r0 3 v2
  set r0 4 v4
  set r0 5 v7
  emit r0
end
map taxed tax item
sink taxed 0 3 4 5
