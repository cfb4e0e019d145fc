# Each person with who leads them. One file is named twice: as those who are led, and as those who lead.
# SQL: select person.name, lead.name from staff as person join staff as lead on person.leader = lead.id
pact 2
fields 6
source person staff.csv int:0 text:1 int:2
source leader staff.csv int:3 text:4 int:5
function pair match
  r0 = copy join
  emit r0
end
match led pair person leader by 2 = 3
sink led 1 4
