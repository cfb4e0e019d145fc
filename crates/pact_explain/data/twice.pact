pact 1
fields 4
source d d.csv int:0 int:1
function two map
  r0 = copy in
  emit r0
  emit r0
end
map m two d
sink m 0 1
