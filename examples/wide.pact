pact 2
fields 128
source s s.csv int:0 int:127
function wide map
  r0 = copy in
  v0 = get in 127
  set r0 100 v0
  emit r0
end
map m wide s
sink m 0 100 127
