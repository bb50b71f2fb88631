# apply EDIT FOLDER: changes a copy as a must-fail edit says, whose paths are in that folder; each 'old:' text must be there exactly once.
apply() {
    local line file='' old='' text pairs=0
    while IFS= read -r line; do
        case $line in
        'file: '*) file=${line#file: } ;;
        'old: '*) old=${line#old: } ;;
        'new:'*)
            line=${line#new:} line=${line# }
            text=$(<"$2/$file") || return 1
            [[ -n $old && $text == *"$old"* && ${text#*"$old"} != *"$old"* ]] || { echo "not once in $file: $old"; return 1; }
            printf '%s\n' "${text%%"$old"*}$line${text#*"$old"}" >"$2/$file"
            pairs=$((pairs + 1))
            ;;
        esac
    done <"$1"
    [ "$pairs" -gt 0 ]
}
