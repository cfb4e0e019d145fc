# Where sqlite3 is there: the query in a program's comment gives the rows that expected/ has of it. It stands behind
# "# SQL:", and goes on in the comments below.

tables=$scratch/tables.db

query_of() {
    awk '/^# SQL: / { sub(/^# SQL:/, "#"); query = 1 } !/^#/ { exit } query { sub(/^#/, ""); print }' "$1"
}

# Whether a query gives the rows of a file, whose order says nothing of an answer.
gives_rows() {
    keep_command sqlite3 "$1"
    sqlite3 -batch -list -separator , "$tables" "$1" >"$scratch/rows" 2>"$scratch/err"
    LC_ALL=C sort "$scratch/rows" >"$scratch/out"
    LC_ALL=C sort "$2" >"$scratch/sorted"
    came_to_files 0 0 "$scratch/sorted" /dev/null
}

# An empty cell is Null.
if have sqlite3 'queries that say the same as programs'; then
    sqlite3 -batch -csv "$tables" <<'END'
create table members(id int, name text);
create table visits(member int, day int);
create table guests(id int, name text);
create table sales(region text, quarter int, amount int);
create table quarters(region text, first int, second int, third int, fourth int);
create table asked(region text, quarter int, who text);
create table basket(item text, quantity int, price int);
create table staff(id int, name text, leader int);
create table scores(name text, score int);
create table s(key int, value int);
create table sold(shop int, item text, quantity int);
create table prices(shop int, item text, price int);
create table shops(id int, city text);
create table sizes(size int);
create table colors(color text);
.import members.csv members
.import visits.csv visits
.import guests.csv guests
.import sales.csv sales
.import quarters.csv quarters
.import asked.csv asked
.import basket.csv basket
.import staff.csv staff
.import scores.csv scores
.import s.csv s
.import sold.csv sold
.import prices.csv prices
.import shops.csv shops
.import sizes.csv sizes
.import colors.csv colors
update members set id = null where id = '';
update visits set member = null where member = '';
update sales set amount = null where amount = '';
update quarters set second = null where second = '';
update asked set quarter = null where quarter = '';
update staff set leader = null where leader = '';
update sold set quantity = null where quantity = '';
END
    for program in *.pact; do
        query=$(query_of "$program")
        [ -z "$query" ] || count gives_rows "$query" "expected/${program%.pact}.stdout"
    done

    # The pieces of docs/idioms.md that have a query too: a function, its operator and the sink. The page has the sources that a program needs besides.
    awk -v to="$scratch/piece" '
        /^```pact/ { name = to "." FNR; next }
        /^```/ { name = ""; next }
        name != "" { print >name }' ../docs/idioms.md
    cat "$scratch"/piece.* | grep '^source ' >"$scratch/sources"
    for piece in $(grep -l '^# SQL: ' "$scratch"/piece.*); do
        {
            grep '^#' "$piece"
            printf 'pact 2\nfields 6\n'
            while read -r word name rest; do
                ! grep -qE "^(map|reduce|cogroup) .* $name( |\$)" "$piece" || echo "$word $name $rest"
            done <"$scratch/sources"
            grep -v '^#' "$piece"
        } >"$piece.pact"
        "$pact" run "$piece.pact" >"$piece.rows"
        count test -s "$piece.rows"
        count gives_rows "$(query_of "$piece.pact")" "$piece.rows"
        count grep -q 'order yes$' <("$pact" sets "$piece.pact")
    done
fi
