pact 1
fields 2
source gone gone.csv int:0
function same map
  r0 = copy in
  emit r0
end
map m same gone
sink m 0
