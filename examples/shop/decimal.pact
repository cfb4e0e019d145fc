pact 2
fields 4
source orders decimal_rows.csv int:0 int:1 text:2 int:3
function is_big map
  v0 = get in 3
  v1 = int 7500
  v2 = le v1 v0
  if v2
    r0 = copy in
    emit r0
  end
end
map large is_big orders
sink large 2 0 3
