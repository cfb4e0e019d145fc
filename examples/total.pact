pact 1
fields 4
source s s.csv int:0 int:1
function total map
  r0 = copy in
  v0 = get in 0
  v1 = get in 1
  v2 = mul v0 v1
  set r0 3 v2
  emit r0
end
map m total s
sink m 0 1 3
