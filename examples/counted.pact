pact 1
fields 6
source s s.csv int:0 int:1
source t t3.csv int:2 int:3
function counted cogroup 1
  v0 = int 0
  v1 = int 1
  each x1 of right
    v0 = addw v0 v1
  end
  each x1 of left
    r0 = copy x1
    set r0 4 v0
    emit r0
  end
end
cogroup g counted s t by 0 = 2
sink g 0 1 4
