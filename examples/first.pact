# One row of each key, the first that comes. Nothing says which of 1,5 and 1,7 that is: with --workers 1 and with
# --workers 2 another one is written.
pact 1
fields 4
source s s2.csv int:0 int:1
function pick reduce 1
  r0 = copy first
  emit r0
end
reduce r pick s by 0
sink r 0 1
