# In which quarters each region sold something, each pair once.
# SQL: select distinct region, quarter from sales
pact 1
fields 3
source sale sales.csv text:0 int:1 int:2
function once reduce 2
  r0 = new
  v0 = key 0
  set r0 0 v0
  v0 = key 1
  set r0 1 v0
  emit r0
end
reduce pairs once sale by 0 1
sink pairs 0 1
