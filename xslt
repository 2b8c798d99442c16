#!/usr/bin/env bash
# Runs the program on the given arguments, in the folder of the call, and ends with its status, 0 to 6.
# Proves and builds it first where it is not built or a source is newer, and says on standard error how long that takes from
# nothing, which crates it is proving and how many are left. Where that fails the status is 125, which the program never ends with,
# and where a signal ends it 128 and the signal's number.
set -u
top=$(cd "$(dirname "$(readlink -f "$0")")" && pwd)
program=$top/crates/xslt/out/xslt

# The program's crate and all below it, by crates.txt.
crates_of_program() {
    awk -F: '
        /^[^#]/ { split($1, head, " "); below[head[1]] = $2 }
        END {
            wanted["xslt"]
            do {
                found = 0
                for (crate in wanted) {
                    count = split(below[crate], names, " ")
                    for (i = 1; i <= count; i++)
                        if (names[i] in below && !(names[i] in wanted)) { wanted[names[i]]; found = 1 }
                }
            } while (found)
            for (crate in wanted) print crate
        }' "$top/crates.txt" | sort
}

# Whether code, definitions or proofs below the program, or the list of crates, are newer than it.
is_stale() {
    [ -x "$program" ] || return 0
    local folders
    mapfile -t folders < <(crates_of_program | sed "s|^|$top/crates/|")
    [ -n "$(find "$top/crates.txt" "${folders[@]}" \( -name out -o -name must-fail \) -prune -o -type f \
        \( -name '*.rt' -o -name '*.antt' -o -name crates.txt \) -newer "$program" -print -quit 2>/dev/null)" ]
}

# Says which crates are being proved, if that has changed: those whose folder for the library is there, and no library in it.
said=
say_crates() {
    local crate folder at=
    for crate in $1; do
        folder=$top/crates/$crate/out/rlib
        [ ! -d "$folder" ] || [ -e "$folder/$crate.rlib" ] || at="$at $crate"
    done
    # (a crate that ended meanwhile has said so already: that is read first)
    if [ -n "$at" ] && [ "$at, $2" != "$said" ] && ! read -r -t 0 -u "$lines"; then
        said="$at, $2"
        echo "xslt: proving$at; $2 of $3 crates left" >&2
    fi
}

# Proves the libraries below the program, and the program. What fails is found again by `rt run`, which says why.
prove_crates() {
    local line crates left count status
    crates=$(crates_of_program)
    count=$(wc -w <<<"$crates")
    left=$count
    exec {lines}< <(cd "$top/crates/xslt" && exec "$top/tools/prove" "$("$top/tools/build-time" --processors)" 2>&1 </dev/null)
    child=$!
    while true; do
        IFS= read -r -t 0.5 -u "$lines" line
        status=$?
        if [ $status -eq 0 ] && [[ $line =~ ^==\ ([a-z_0-9]+)$ ]] && grep -qx "${BASH_REMATCH[1]}" <<<"$crates"; then
            left=$((left - 1))
        elif [ $status -gt 128 ]; then
            say_crates "$crates" "$left" "$count"
        elif [ $status -ne 0 ]; then
            break
        fi
    done
    exec {lines}<&-
}

# Ends what proves or builds, as this script ends by a signal.
log=
child=
end() {
    trap '' TERM INT HUP QUIT
    [ -z "$child" ] || kill "$child" 2>/dev/null && wait "$child" 2>/dev/null
    rm -f "$log"
    exit $((128 + $1))
}

# Proves and builds the program.
build() {
    local hello=$top/examples/hello
    trap 'end 1' HUP
    trap 'end 2' INT
    trap 'end 3' QUIT
    trap 'end 15' TERM
    log=$(mktemp) || exit 125
    echo "xslt: proving and building the program; from nothing that takes $("$top/tools/build-time")" >&2
    prove_crates
    echo "xslt: building the program" >&2
    (cd "$top/crates/xslt" && exec rt run -- "$hello/sheet.pyx" "$hello/source.pyx") >"$log" 2>&1 </dev/null &
    child=$!
    if ! wait "$child"; then
        cat "$log" >&2
        rm -f "$log"
        exit 125
    fi
    rm -f "$log"
    touch "$program"
}

# Whether a file is XML: no line of PYX begins with `<`, with white space or with a mark of an encoding.
is_xml() {
    local begin
    [ -f "$1" ] && IFS= LC_ALL=C read -r -n 200 -d '' begin <"$1" 2>/dev/null
    [[ ${begin-} =~ ^($'\xef\xbb\xbf')?[[:space:]]*'<' || ${begin-} == $'\xff\xfe'* || ${begin-} == $'\xfe\xff'* ]]
}

for argument in "$@"; do
    if is_xml "$argument"; then
        echo "xslt: $argument is XML, and this program reads PYX lines. This takes XML:" >&2
        echo "    $top/tools/xslt-xml$(printf ' %q' "$@")" >&2
        [ -x "$program" ] || exit 125
        break
    fi
done
if is_stale; then
    build
fi
# Memory in large pages and steps of a megabyte, where the C library is glibc: a document of 100 MB asks the system for
# memory 16,000 times in place of 180,000. Larger steps ask less often, and keep more.
export GLIBC_TUNABLES=${GLIBC_TUNABLES:-glibc.malloc.hugetlb=1:glibc.malloc.top_pad=1048576}
exec "$program" "$@"
