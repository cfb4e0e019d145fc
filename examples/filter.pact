# SQL: select key, value from s where value > 0
pact 1
fields 4
source s s.csv int:0 int:1
function pos map
  r0 = copy in
  v0 = get in 1
  v1 = int 0
  v2 = lt v1 v0
  if v2
    emit r0
  end
end
map m pos s
sink m 0 1
