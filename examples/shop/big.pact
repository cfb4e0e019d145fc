pact 2            # the version of the language; use 2 in new programs
fields 4          # a record has four fields; they have numbers, 0 to 3, and no names
source orders orders_rows.csv int:0 int:1 text:2 int:3   # the file, and for each column its field
function is_big map
  v0 = get in 3   # `in` is the record; the register v0 gets its field 3, the amount
  v1 = int 7500   # a number, 75.00 in cents
  v2 = le v1 v0   # 1 if v1 is less than or equal to v0, otherwise 0
  if v2           # if v2 is 1, runs the lines up to its `end`
    r0 = copy in
    emit r0       # passes the copy on; a record that isn't emitted is dropped
  end
end
map large is_big orders   # the operator `large` calls is_big for each order
sink large 2 0 3          # prints fields 2, 0 and 3 of the records of `large`
