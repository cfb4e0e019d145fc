pact 1
fields 4
source s s.csv int:0 int:1
function pos map
  r0 = copy in
  v0 = plus v1 v2
  emit r0
end
map m pos s
sink m 0 1
