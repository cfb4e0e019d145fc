pact 1
fields 4
source s s.csv int:0 int:1
function flag map
  r0 = copy in
  v0 = get in 1
  if v0
    v1 = int 1
    set r0 3 v1
  end
  emit r0
end
map m flag s
sink m 0 1 3
