# The members that have a visit, each once, however many it has. A number that is Null matches none.
# SQL: select id, name from members where exists (select 1 from visits where member = id)
pact 1
fields 4
source member members.csv int:0 text:1
source visit visits.csv int:2 int:3
function known cogroup 1
  v0 = int 0
  v1 = key 0
  v1 = isnull v1
  v1 = not v1             # Null has a group, but no partner
  each x1 of right
    v0 = max v0 v1        # 1 where there is a visit
  end
  if v0
    each x1 of left
      r0 = copy x1
      emit r0
    end
  end
end
cogroup seen known member visit by 0 = 2
sink seen 0 1
