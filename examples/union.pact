# The rows of two files. Who is in both comes twice.
# SQL: select id, name from members union all select id, name from guests
pact 1
fields 4
source member members.csv int:0 text:1
source guest guests.csv int:2 text:3
function both cogroup 1
  each x1 of left
    r0 = copy x1
    emit r0
  end
  each x1 of right
    r0 = new
    v0 = get x1 2
    set r0 0 v0
    v0 = get x1 3
    set r0 1 v0
    emit r0
  end
end
cogroup all both member guest by 0 = 2
sink all 0 1
