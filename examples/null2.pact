pact 2
fields 6
source s n.csv int:0 int:1
source t n.csv int:2 int:3
function jn match
  r0 = copy join
  emit r0
end
match g jn s t by 0 1 = 2 3
sink g 0 1 2 3
