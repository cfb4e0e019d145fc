pact 1
fields 2
source s s.csv int:0 int:1
function mark map
  r0 = copy in
  set r0 2 v0
  emit r0
end
map m mark s
sink m 0 1
