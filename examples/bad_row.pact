pact 1
fields 2
source s bad.csv int:0 int:1
function keep map
  r0 = copy in
  emit r0
end
map m keep s
sink m 0 1
