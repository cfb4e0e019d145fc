pact 1
fields 3
source s s.csv int:0 int:1
function swap map
  v0 = get in 0
  v1 = get in 1
  set r0 0 v1
  set r0 1 v0
  emit r0
end
map m swap s
sink m 0 1 2
