# Sources that several threads read: every source of the programs here, repeated until it fills eight parts of 64 KiB, which
# as many threads read as there are workers.

long_source() {
    local file=$1 columns=${*:2} fields
    fields=$(tr ' ' '\n' <<<"$columns" | sed 's/.*://')
    awk 1 "$file" >"$scratch/eight.csv"
    while [ "$(wc -c <"$scratch/eight.csv")" -lt $((8 * 65536)) ]; do
        cp "$scratch/eight.csv" "$scratch/half.csv" && cat "$scratch/half.csv" >>"$scratch/eight.csv"
    done
    printf 'pact 2\nfields %d\nsource s eight.csv %s\nsink s %s\n' $(($(sort -n <<<"$fields" | tail -n 1) + 1)) "$columns" "${fields//$'\n'/ }"
}
# What a run of the long source writes, on both streams, and its status.
reads_it() {
    (cd "$scratch" && "$pact" run eight.pact --workers "$1" 2>&1; echo "status $?") >"$scratch/$2"
}
# Rows, or the fault of a row: what the sources of programs end with that show a bad row.
ends_well() { tail -n 1 "$scratch/$1" | grep -q '^status [07]$'; }
read_in_as_many_parts() {
    reads_it "$1" in_parts && is_file 'the rows' "$scratch/in_parts" "$scratch/by_one"
}
# The sources of shop/ are its files without their header lines, with cents and with decimals.
mkdir "$scratch/shop"
tail -n +2 shop/customers.csv >"$scratch/shop/customers_rows.csv"
tail -n +2 shop/orders.csv >"$scratch/shop/decimal_rows.csv"
awk -F, -v OFS=, '$NF != "" { $NF = sprintf("%.0f", $NF * 100) } 1' "$scratch/shop/decimal_rows.csv" >"$scratch/shop/orders_rows.csv"
sources=0
while read -r file columns; do
    [ -s "$file" ] || continue
    # shellcheck disable=SC2086
    long_source "$file" $columns >"$scratch/eight.pact"
    reads_it 1 by_one
    count ends_well by_one
    sources=$((sources + 1))
    for workers in 2 3 4 5 6 7 8; do
        count read_in_as_many_parts "$workers"
    done
done < <(
    source_lines() { sed -n 's/#.*//; s/^source  *[^ ]*  *//p' "$@" | sort -u; }
    source_lines ./*.pact
    source_lines shop/*.pact | sed "s:^:$scratch/shop/:"
)
count [ "$sources" -gt 32 ]
