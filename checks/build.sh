# The proved program and what it was made of, for ./ftam and ./test, which set top to the repository's top.
#
# Beside the program stand a stamp, which has the sum of the sources that it was made of and its own, and a list of these
# sources and of the folders that they are in. Where nothing of the list has changed since the stamp was made, by the times
# that the system keeps, the program is built, which is told in some milliseconds. Where something has, the sums decide.

# where the toolchain leaves it
program=$top/crates/ftam/out/ftam
stamp=$program.made-of
list=$program.sources

# The folders of the crates that the program is made of, each after those that it stands on, in one line. The names on
# the right of crates.txt that are none on its left are libraries of the toolchain.
folders_of_program() {
    awk '
        { sub(/#.*/, "") }
        $1 ~ /:$/ { name = substr($1, 1, length($1) - 1); known[name] = 1; $1 = ""; below[name] = $0 }
        function visit(name,    each, count, at) {
            if (seen[name]++ || !known[name]) return
            count = split(below[name], each, " ")
            for (at = 1; at <= count; at++) visit(each[at])
            printf " crates/%s", name
        }
        END { visit("ftam") }
    ' "$top/crates.txt"
}

# The sum of the sources of the program: of its crates, and of their lines in crates.txt.
sum_of_sources() (
    cd -- "$top" || exit
    folders=$(folders_of_program)
    for folder in $folders; do
        grep "^${folder#crates/}[ :]" crates.txt
        find "$folder" -name out -prune -o -type f \( -path 'crates/*/src/*' -o -path 'crates/*/specs/*' \
            -o -path 'crates/*/proofs/*' \) -exec sha256sum {} + | LC_ALL=C sort
    done | sha256sum
)

# Prints the program and its sources, with the folders that they are in, each name ended by a NUL: a folder changes where a
# file comes or goes.
list_of_sources() (
    # shellcheck disable=SC2046
    cd -- "$top" && find crates.txt crates/ftam/out/ftam $(folders_of_program) \
        \( -name out -o -name must-fail \) -prune -o -print0
)

# Whether neither a source nor the program has changed since the stamp was made. Folders aren't searched anew, which would
# take most of the time.
is_untouched() {
    [ -f "$stamp" ] && touched=$(cd -- "$top" && find -files0-from "$list" -prune -newercm "$stamp" -print -quit 2>&1) &&
        [ -z "$touched" ]
}

is_built() {
    [ -x "$program" ] && { is_untouched || is_same; }
}

# Whether the sums are those of the stamp, which is then made anew.
is_same() {
    [ -f "$stamp" ] || return
    sources=$(sum_of_sources)
    [ "$(echo "$sources" && sha256sum < "$program")" = "$(cat "$stamp")" ] && note_built "$sources"
}

# Notes that the program was made of sources of this sum, where they haven't changed since. The stamp has the time before
# they are summed, and a tick of the system's clock passes first, so that each later change is a later one by the clock.
note_built() {
    : > "$stamp.$$" && sleep 0.05
    if [ "$1" = "$(sum_of_sources)" ]; then
        list_of_sources > "$stamp.$$.list" && { echo "$1" && sha256sum < "$program"; } > "$stamp.$$.all" &&
            touch -r "$stamp.$$" "$stamp.$$.all" && mv -f "$stamp.$$.list" "$list" && mv -f "$stamp.$$.all" "$stamp"
    fi
    rm -f "$stamp.$$" "$stamp.$$.list" "$stamp.$$.all"
}

# Proves and builds the program, and says so on standard error, a line for each crate.
build() {
    rt=${RT:-rt}
    if ! command -v "$rt" > /dev/null; then
        echo "ftam: not built yet, and $rt isn't there to build it: put rt into PATH, or name it in RT" >&2
        return 127
    fi
    rm -f "$stamp"
    sources=$(sum_of_sources)
    # shellcheck disable=SC2046
    set -- $(folders_of_program)
    count=$# number=0
    echo "ftam: proving and building the program, crate by crate, which may take an hour the first time" >&2
    for folder in "$@"; do
        number=$((number + 1))
        echo "ftam: $number of $count: ${folder#crates/}" >&2
        # Of no input `dialogue` makes nothing and status 0, so that a status 0 says that it is proved and built.
        case $folder in
        crates/ftam) words="run -- dialogue" ;;
        *) words=lib ;;
        esac
        # shellcheck disable=SC2086
        if ! said=$(cd -- "$top/$folder" && "$rt" $words < /dev/null 2>&1); then
            printf '%s\n' "$said" | tail -n 40 >&2
            echo "ftam: the program could not be built, for ${folder#crates/} above" >&2
            return 126
        fi
    done
    note_built "$sources"
    echo "ftam: built" >&2
}
