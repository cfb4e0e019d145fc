# Every member with the number of its visits. A number that is Null matches none. No two members agree in id and name.
# SQL: select id, name, count(member) from members left join visits on id = member group by id, name
pact 1
fields 5
source member members.csv int:0 text:1
source visit visits.csv int:2 int:3
function count cogroup 1
  v0 = int 0
  v1 = key 0
  v1 = isnull v1
  v1 = not v1             # Null has a group, but no partner
  each x1 of right
    v0 = addw v0 v1
  end
  each x1 of left
    r0 = copy x1
    set r0 4 v0
    emit r0
  end
end
cogroup counted count member visit by 0 = 2
sink counted 0 1 4
