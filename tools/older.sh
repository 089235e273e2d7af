# Whether a built program is older than its sources, for scripts that have the repository's folder as $top: . "$top/tools/older.sh"

# The crates that a crate stands on and itself, by crates.txt, one a line.
crates_below() {
    awk -v crate="$1" '
        { sub(/#.*/, "") }
        split($0, part, ":") > 1 { split(part[1], named, " "); used[named[1]] = part[2] }
        END {
            below[1] = crate; found[crate] = 1; last = 1
            for (at = 1; at <= last; at++) {
                print below[at]
                count = split(used[below[at]], names, " ")
                for (i = 1; i <= count; i++)
                    if ((names[i] in used) && !(names[i] in found)) { found[names[i]] = 1; below[++last] = names[i] }
            }
        }' "$top/crates.txt" 2>/dev/null
}

# Whether a source that the program of a crate is built from is newer than it: is_older CRATE PROGRAM
is_older() {
    local crate folders=()
    while read -r crate; do
        [ -d "$top/crates/$crate/src" ] && folders+=("$top/crates/$crate/src")
    done < <(crates_below "$1")
    [ ${#folders[@]} != 0 ] && [ -n "$(find "${folders[@]}" -name '*.rt' -newer "$2" -print -quit)" ]
}
