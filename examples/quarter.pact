# What each region sold in the quarter that ann asks for. The table of the quarters has each in the field of its number, and the one that is
# joined in says which number to take.
# SQL: select asked.region, quarter, case quarter when 1 then first when 2 then second when 3 then third when 4 then fourth end
#      from quarters join asked on quarters.region = asked.region where who = 'ann'
pact 2
fields 9
source sold quarters.csv text:0 int:1 int:2 int:3 int:4
source asked asked.csv text:5 int:6 text:7
function pick match
  r0 = copy join
  v0 = get right 6
  v1 = get left @v0     # Null where no field has this number
  set r0 8 v1
  emit r0
end
function of_ann map
  v0 = get in 7
  v1 = text "ann"
  v2 = eq v0 v1
  if v2
    r0 = copy in
    emit r0
  end
end
match picked pick sold asked by 0 = 5
map mine of_ann picked
sink mine 5 6 8
