pact 1
fields 6
source s s.csv int:0 int:1
source t t.csv int:2 int:3
function lft match
  r0 = copy left
  emit r0
end
function five map
  r0 = copy in
  v0 = int 7
  set r0 5 v0
  emit r0
end
match g lft s t by 0 = 2
map m five g
sink m 0 1 5
