# shellcheck shell=bash
# What ./finish, ./formula, ./mark and ./mark-all share: a program of crates/ that is proved and built from the sources as they stand.
# To be sourced by bash, with `root` the top of the repository. How they end:
#   0 finished, converted, or right    1 wrong    2 refused    3 not read, or the answer could not be written
#   64 called in another way than the usage says    70 the program could not be built, or ended as no program of ours does
unset CDPATH
# Whatever else goes wrong must not end with 1, which is a mark.
set -E
trap 'exit 70' ERR

# usage_error TEXT: how the command is used. It comes before anything is built.
usage_error() {
    printf 'usage: %s\n' "$1" >&2
    exit 64
}

fail() {
    printf '%s: %s\n' "${0##*/}" "$1" >&2
    exit 70
}

hash_of() {
    local line
    line="$(sha256sum < "$1")"
    printf '%s' "${line%% *}"
}

# What is noted of a build: where it was made, so that a copied target/ is looked at again, and which program came of it.
note_of() {
    printf '%s\n%s\n' "$root" "$(hash_of "$program")"
}

program_there() {
    [ -s "$program" ] && [ -x "$program" ]
}

# Is it the one of the last build, as far as that is noted?
program_stands() {
    program_there && { [ ! -f "$note" ] || [ "$(cat "$note")" = "$(note_of)" ]; }
}

# Was any source changed, added or taken away after the note was made? A folder changes with what it lists; the time is that of
# the last change of any kind, so that a file which was copied with its old date is seen too. What programs are tried on (data) and
# edits that must fail go into no program.
sources_changed() {
    local first
    first="$(find "$root/crates" "$root/crates.txt" \( -name data -o -name must-fail -o -name out \) -prune -o -cnewer "$note" -print -quit)" ||
        return 0
    [ -n "$first" ]
}

# Why the program has to be built; nothing if it need not be.
why_build() {
    if ! program_there; then
        echo 'its program is not built'
    elif ! program_stands; then
        echo 'its program is not the one that was built here'
    elif [ ! -f "$note" ]; then
        echo 'nothing says from which sources its program was built'
    elif sources_changed; then
        echo 'a source is newer than its program'
    fi
}

# rt proves and builds the program, and then runs it once, here on nothing: what it writes then goes to the log, and how it ends
# says nothing, so whether it was built is seen by the program that rt leaves. What is noted has the time at which the build began:
# a source that changes meanwhile is newer.
build() {
    local folder log="$root/target/build-$name.log" made="$root/crates/$crate/out/$crate"
    printf '%s: %s: proving and building it, up to some minutes; log: %s\n' "${0##*/}" "$1" "$log" >&2
    command -v rt > /dev/null || fail 'that needs the Rattle toolchain, and there is no command rt'
    rm -f "$made"
    # so that no folder of sources changes by what rt makes
    for folder in "$root"/crates/*/; do mkdir -p "$folder/out"; done
    : > "$note.began"
    (cd "$root/crates/$crate" && rt run) < /dev/null > "$log" 2>&1 || true
    [ -s "$made" ] && [ -x "$made" ] || fail 'not proved or not built; the log says why'
    mkdir -p "$root/target/bin"
    cp -f "$made" "$program"
    note_of > "$note.new"
    touch -r "$note.began" "$note.new"
    mv "$note.new" "$note"
    rm "$note.began"
}

# ready NAME [CRATE]: sets `program` to the program of crates/CRATE, built from the sources as they stand; the crate is named where a
# library has the program's name. Two that build at once would write to the same files, so the second waits, and then mostly finds it done.
ready() {
    local why
    name="$1"
    crate="${2:-$1}"
    program="$root/target/bin/$name"
    note="$root/target/built/$name"
    [ -n "$(why_build)" ] || return 0
    mkdir -p "$root/target/built"
    exec 9> "$root/target/build.lock"
    if command -v flock > /dev/null; then flock 9; fi
    why="$(why_build)"
    if [ -n "$why" ]; then build "$why"; fi
    exec 9>&-
}

# Is the name text in UTF-8? The programs open no other. Put into another form, since iconv takes more than UTF-8 for its own.
is_text() {
    printf '%s' "$1" | iconv -f UTF-8 -t UTF-16 > /dev/null 2>&1
}

# mark_of SHEET PAPER: what the program mark, made ready before, answers. Files with other names are handed over open.
mark_of() {
    if is_text "$1/$2" || [ ! -r "$1" ] || [ ! -r "$2" ]; then
        "$program" "$1" "$2"
    else
        "$program" /dev/fd/3 /dev/fd/4 3< "$1" 4< "$2"
    fi
}

# answer_input NAME [CRATE]: prints what the program answers to standard input, and ends by it.
answer_input() {
    local answer
    # Where standard input is closed, a pipe of this script would take its place, and the program would wait for itself.
    if [ ! -e /dev/fd/0 ]; then
        printf '%s: standard input is closed\n' "$1" >&2
        exit 3
    fi
    ready "$@"
    answer="$("$program" && echo .)" || fail 'the program broke off'
    answer="${answer%.}"
    [ -n "$answer" ] || exit 3
    printf '%s' "$answer" || exit 3
    case "$answer" in
    R,*) exit 2 ;;
    esac
}
