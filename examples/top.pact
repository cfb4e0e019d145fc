# The three best scores, and all that are as good as the third.
# SQL: select score, name from scores
#      where (select count(*) from scores as better where better.score > scores.score) < 3 and score is not null
pact 1
fields 3
source score scores.csv text:0 int:1
function same map
  v0 = int 0
  r0 = copy in
  set r0 2 v0
  emit r0
end
function best reduce 1
  v0 = int 3
  each x1 of group
    v1 = get x1 1
    v2 = int 0
    each x2 of group
      v3 = get x2 1
      v4 = lt v1 v3
      v2 = addw v2 v4
    end
    v5 = lt v2 v0
    v6 = isnull v1
    v6 = not v6
    v5 = and v5 v6
    if v5
      r0 = copy x1
      emit r0
    end
  end
end
map all same score
reduce three best all by 2
sink three 1 0
