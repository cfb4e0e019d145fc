# Every member with each of its visits, members without a visit, and visits of no member. A number that is Null matches none.
# SQL: select id, name, member, day from members full join visits on id = member
pact 1
fields 4
source member members.csv int:0 text:1
source visit visits.csv int:2 int:3
function full cogroup 1
  v0 = int 0
  v1 = int 0
  v2 = key 0
  v2 = isnull v2
  v2 = not v2             # Null has a group, but no partner
  each x1 of left
    v0 = max v0 v2        # 1 where there is a member
  end
  each x1 of right
    v1 = max v1 v2        # 1 where there is a visit
  end
  v3 = and v0 v1
  if v3
    each x1 of left
      each x2 of right
        r0 = copy x1
        v4 = get x2 2
        set r0 2 v4
        v4 = get x2 3
        set r0 3 v4
        emit r0
      end
    end
  else
    # one of the two has no record, or nobody is known
    each x1 of left
      r0 = copy x1
      emit r0
    end
    each x1 of right
      r0 = copy x1
      emit r0
    end
  end
end
cogroup all full member visit by 0 = 2
sink all 0 1 2 3
