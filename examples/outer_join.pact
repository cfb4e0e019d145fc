# Every member with each of its visits, and those without one too. A number that is Null matches none.
# SQL: select id, name, day from members left join visits on id = member
pact 1
fields 4
source member members.csv int:0 text:1
source visit visits.csv int:2 int:3
function outer cogroup 1
  v0 = int 0
  v1 = key 0
  v1 = isnull v1
  v1 = not v1             # Null has a group, but no partner
  each x1 of right
    v0 = max v0 v1        # 1 where there is a visit
  end
  each x1 of left
    if v0
      each x2 of right
        r0 = copy x1
        v2 = get x2 3
        set r0 3 v2
        emit r0
      end
    else
      r0 = copy x1
      emit r0
    end
  end
end
cogroup all outer member visit by 0 = 2
sink all 0 1 3
