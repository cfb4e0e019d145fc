# SQL: select color || ' cup', size from colors cross join sizes
pact 1
fields 3
source c colors.csv text:0
source z sizes.csv int:1
function label cross
  r0 = copy join
  v0 = get left 0
  v1 = text " cup"
  v2 = cat v0 v1
  set r0 2 v2
  emit r0
end
cross p label c z
sink p 2 1
