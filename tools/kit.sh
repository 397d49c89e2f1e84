# Where the Rattle toolchain is, and how it builds a crate; read by the scripts beside it, which set `root` first.
# shellcheck shell=sh
: "${root:?}"

fail() {
    echo "paneglove: $*" >&2
    exit 3
}

rt=$(command -v rt) || fail "the Rattle toolchain's command rt is not on the path"
rt=$(readlink -f "$rt")
# shellcheck disable=SC2034
kit=$(dirname "$(dirname "$rt")")

stale() {
    [ ! -f "$1" ] || [ -n "$(find "$root/crates" "$root/crates.txt" -path "$root/crates/*/out" -prune -o -type f -newer "$1" -print 2>/dev/null | head -n 1)" ]
}

# build CRATE FILE WHAT WORD: `rt WORD` in the crate's folder, which writes FILE in its out/, where FILE isn't there or a source is newer; `file` is
# then its path. `rt run` runs what it has built, here on no input. What building says goes to standard error: rt's own lines, which tell how far it
# is, and the rest where it fails.
build() {
    folder=$root/crates/$1 file=$root/crates/$1/out/$2
    stale "$file" || return 0
    work=$(mktemp -d) || fail "no temporary folder"
    : >"$work/began"
    echo "paneglove: proving and building $3, which takes some minutes the first time" >&2
    (cd "$folder" && "$rt" "$4" && : >"$work/built") </dev/null 2>&1 | tee "$work/log" | sed -n '/^rt: running /d; /^rt:/p' >&2
    if [ ! -f "$work/built" ] || [ ! -f "$file" ]; then
        cat "$work/log" >&2
        rm -rf "$work"
        fail "$3 was not built"
    fi
    # so that a source changed while rt was at work is newer
    touch -r "$work/began" "$file"
    rm -rf "$work"
}

lines() {
    printf '%s\n' "$@"
}
