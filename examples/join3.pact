pact 1
fields 6
source s s1.csv int:0 int:1
source t t.csv int:2 int:3
function jn match
  r0 = copy join
  emit r0
end
match g jn s t by 0 = 2
source u u.csv int:4 int:5
match h jn g u by 3 = 4
sink h 0 1 2 3 4 5
