# For each node of a graph the least number of a node from which it can be reached: `iterate label.pact v 10 --stable`, where at first each node has its own. A round hands
# labels on along each edge; an edge from each node to itself keeps its own.
pact 1
fields 4
source v v.csv int:0 int:1
source e g.csv int:2 int:3
function nb match
  r0 = new
  v0 = get right 3
  set r0 0 v0
  v0 = get left 1
  set r0 1 v0
  emit r0
end
function low reduce 1
  v0 = int 9223372036854775807
  each x1 of group
    v1 = get x1 1
    v0 = min v0 v1
  end
  r0 = new
  v2 = key 0
  set r0 0 v2
  set r0 1 v0
  emit r0
end
match n nb v e by 0 = 2
reduce r low n by 0
sink r 0 1
