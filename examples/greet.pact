pact 1
fields 4
source people names.csv text:0 text:1 int:2
function greet map
  v0 = get in 0
  v1 = text "\"hi\" "
  v2 = get in 2
  v3 = int 1
  v4 = cat v1 v0
  r0 = copy in
  v5 = get in 1
  v6 = isnull v5
  if v6
    v7 = text "nowhere"
    set r0 1 v7
  else
    repeat 2
      v2 = addw v2 v3
    end
  end
  set r0 0 v4
  set r0 3 v2
  emit r0
end
map g greet people
sink g 3 0 1
