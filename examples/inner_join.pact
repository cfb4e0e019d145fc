# Each visit with its member. In version 2 a Match is SQL's join: a number that is Null matches none.
# SQL: select id, name, day from members join visits on id = member
pact 2
fields 4
source member members.csv int:0 text:1
source visit visits.csv int:2 int:3
function pair match
  r0 = copy join
  emit r0
end
match seen pair member visit by 0 = 2
sink seen 0 1 3
