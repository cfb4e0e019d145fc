pact 1
fields 6
source s n.csv int:0 int:1
source t m.csv int:2 int:3
function jn match
  r0 = copy join
  emit r0
end
match g jn s t by 0 = 2
sink g 1 3
