# Each must-fail edit of a crate names a file of it and a line that stands there once, and its pairs of lines may be made one after the other. Whether the edit
# is refused is for the gate.

edits=0
applies() {
    local folder=${1%/must-fail/*} line key text source='' old='' pairs=0 rest
    while IFS= read -r line || [ -n "$line" ]; do
        key=${line%%: *}
        text=${line#*: }
        case $key in
        file)
            [ -z "$source" ] && [ -f "$folder/$text" ] || return 1
            source=$(cat "$folder/$text")
            ;;
        old)
            rest=${source/"$text"/}
            [ -z "$old" ] && [ "$rest" != "$source" ] && [[ $rest != *"$text"* ]] || return 1
            old=$text
            ;;
        new)
            [ -n "$old" ] && [ "$text" != "$old" ] || return 1
            source=${source/"$old"/"$text"}
            old=''
            pairs=$((pairs + 1))
            ;;
        *) return 1 ;;
        esac
    done <"$1"
    [ "$pairs" -gt 0 ] && [ -z "$old" ]
}
for edit in ../crates/*/must-fail/*; do
    edits=$((edits + 1))
    count applies "$edit"
done
count test "$edits" -gt 1
