pact 1
fields 4
source s s.csv int:0 int:1
function cond map
  r0 = copy in
  v2 = get in 0
  v3 = int 9
  if v2
    set r0 2 v3
  end
  emit r0
end
function own map
  r0 = new
  v0 = get in 0
  set r0 0 v0
  v0 = get in 1
  set r0 1 v0
  v0 = get in 2
  set r0 2 v0
  v0 = get in 3
  set r0 3 v0
  emit r0
end
map a cond s
map b own a
sink b 0 1 2
