# How far each town is from Bern by the shortest way: `iterate distances.pact known 1000 --stable`, where at first Bern alone is known. A round goes one road
# further from each town that is known, and keeps the least distance of each. A town that no way leads to never comes.
pact 1
fields 5
source known known.csv text:0 int:1
source road roads.csv text:2 text:3 int:4
function further cogroup 1
  each x1 of left
    r0 = new
    v0 = get x1 0
    v1 = get x1 1
    set r0 0 v0
    set r0 1 v1
    emit r0               # what is known stays known
    each x2 of right
      r0 = new
      v0 = get x2 3
      v1 = get x1 1
      v2 = get x2 4
      v1 = add v1 v2
      set r0 0 v0
      set r0 1 v1
      emit r0
    end
  end
end
function least reduce 1
  v0 = int 9223372036854775807
  each x1 of group
    v1 = get x1 1
    v0 = min v0 v1
  end
  r0 = new
  v2 = key 0
  set r0 0 v2
  set r0 1 v0
  emit r0
end
cogroup ways further known road by 0 = 2
reduce nearest least ways by 0
sink nearest 0 1
