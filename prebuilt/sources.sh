# What the program is built from, and the note beside a program that says it. For scripts to read; $top is the repository.

# The crates of the repository that a crate stands on: those that its line names, and those below them.
below() {
    awk -v crate="$1" '
        /^[a-z0-9_]+:/ { name = $1; sub(":", "", name); $1 = ""; names[name] = $0; order[++count] = name }
        END {
            found[crate]
            do {
                more = 0
                for (name in names) if (name in found) {
                    last = split(names[name], named, " ")
                    for (i = 1; i <= last; i++) if (named[i] in names && !(named[i] in found)) { found[named[i]]; more = 1 }
                }
            } while (more)
            for (i = 1; i <= count; i++) if (order[i] in found && order[i] != crate) print order[i]
        }' "$top/crates.txt"
}

# The sum of a file.
sum_of() {
    local sum
    sum="$(b2sum -l 256 <"$1")" && echo "${sum%% *}"
}

# The sum of the sources of the program: the lines of its crates in crates.txt, and the path and the sum of each file of code,
# of definitions and of proofs in them.
sum_of_sources() (
    cd "$top/crates" || exit 1
    export LC_ALL=C
    crates="$(below explore)"
    folders=()
    for crate in explore $crates; do
        for folder in "$crate/src" "$crate/specs" "$crate/proofs"; do
            [ -d "$folder" ] && folders+=("$folder")
        done
    done
    {
        printf '%s:\n' explore $crates | awk 'NR == FNR { named[$1]; next } $1 in named' - "$top/crates.txt"
        find "${folders[@]}" -type f \( -name '*.rt' -o -name '*.antt' \) | sort | xargs b2sum -l 256
    } | b2sum -l 256 | cut -d' ' -f1
)

# What a note says behind a word.
noted() {
    local word text
    [ -f "$1" ] || return 0
    while read -r word text; do
        [ "$word" = "$2" ] && echo "$text"
    done <"$1"
}

# Notes beside a program that it was built from the sources of this sum, with the kit that is here.
note_built() {
    printf 'sources %s\nprogram %s\nkit %s\n' "$2" "$(sum_of "$1")" "$(rt version)" >"${1%/*}/built_from"
}

# Whether a program was built here from the sources of this sum.
is_built_from() {
    [ -x "$1" ] && [ "$(noted "${1%/*}/built_from" sources)" = "$2" ] && [ "$(noted "${1%/*}/built_from" program)" = "$(sum_of "$1")" ]
}
