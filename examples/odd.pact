pact 1
fields 4
source s s1.csv int:0 int:1
function odd map
  r0 = new
  v0 = int 7
  v1 = int 0
  v2 = div v0 v1
  set r0 0 v2
  v0 = int -9223372036854775808
  v1 = int -1
  v2 = div v0 v1
  set r0 1 v2
  v0 = int 9223372036854775807
  v1 = int 1
  v2 = add v0 v1
  set r0 2 v2
  v2 = addw v0 v1
  set r0 3 v2
  emit r0
end
map m odd s
sink m 0 1 2 3
