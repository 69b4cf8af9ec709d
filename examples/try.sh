#!/usr/bin/env bash
# Builds the programs of this folder as C90, C99, C11 and C++ without a warning, and holds what the three for C answer, and how they
# end, to ./finish, ./mark and ./formula: on every sheet and every formula of docs/GUIDE.md, on some that are too long and one that is not
# there. Measures the stack that a call takes on the deepest plan and the deepest formulas. Ends with 'ok'.
# Needs rt, a C and a C++ compiler (CC and CXX name others than cc and c++).
set -eu
unset CDPATH
root="$(readlink -f -- "${BASH_SOURCE[0]}")"
root="${root%/*/*}"
work="$root/target/examples"
compared=0

fail() {
    printf 'try.sh: %s\n' "$1" >&2
    exit 1
}

# compile NAME COMPILER WORD..: one program with every warning as an error.
compile() {
    local name="$1"
    shift
    "$@" -O2 -pedantic -Wall -Wextra -Werror -D_POSIX_C_SOURCE=200112L -I"$root/include" "$root/examples/$name.c" -x none \
        -L"$root/target/staticlib" -lsimplify_ordering_lib -lpthread -o "$work/$name"
}

# blocks_of_the_guide NAME: every block of the name as a file of its own in the folder NAMEs, by its number.
blocks_of_the_guide() {
    awk -v folder="$work/$1s" -v first="\`\`\`$1" '
        /^```/ { if (inside) close(file); inside = ($0 == first); if (inside) { file = folder "/" ++number; printf "" > file }; next }
        inside { print > file }' "$root/docs/GUIDE.md"
    [ -s "$work/$1s/1" ] || fail "no $1 was found in docs/GUIDE.md"
}

# many N TEXT: the text N times.
many() {
    printf "%.0s$2" $(seq "$1")
}

# same WHAT: the two answers are to the byte alike, and both ended alike.
same() {
    cmp -s "$work/ours" "$work/theirs" || fail "$1: other bytes than from C"
    [ "$ours" = "$theirs" ] || fail "$1: ended with $ours, from C with $theirs"
    compared=$((compared + 1))
}

# try_input NAME FILE: a program that reads standard input.
try_input() {
    ours=0 theirs=0
    "$root/$1" < "$2" > "$work/ours" || ours=$?
    "$work/$1" < "$2" > "$work/theirs" || theirs=$?
    same "$1 < $2"
}

try_mark() {
    ours=0 theirs=0
    "$root/mark" "$1" "$2" > "$work/ours" 2> "$work/said" || ours=$?
    "$work/mark" "$1" "$2" > "$work/theirs" 2>> "$work/said" || theirs=$?
    same "mark $1 $2"
}

# A sheet, then its right paper, made as docs/GUIDE.md says how it is seen which sorts went; the P and G lines of the finished sheet, the
# right paper altered, its edges alone, and the sheet itself as a paper.
try_sheet() {
    try_input finish "$1"
    finished="$ours"
    awk -F, -f "$root/scripts/reached.awk" < "$work/ours" > "$work/right"
    grep '^[PG]' "$work/ours" > "$work/all" || true
    sed 's/0$/1/' "$work/right" > "$work/altered"
    grep '^G' "$work/right" > "$work/edges" || true
    try_mark "$1" "$work/right"
    [ "$ours" = "$finished" ] || fail "$1: its right paper is marked otherwise"
    try_mark "$1" "$work/all"
    try_mark "$1" "$work/altered"
    try_mark "$1" "$work/edges"
    try_mark "$1" "$1"
}

try_sheets() {
    local sheet
    for sheet in "$root/examples/sheet" "$work/sheets"/*; do
        try_sheet "$sheet"
    done
    try_mark "$root/examples/sheet" "$root/examples/paper"
    try_mark "$work/nothing" "$root/examples/paper"
    try_mark "$root/examples/sheet" "$work/nothing"
}

# Brackets N deep round an operand: of 16,384 bytes with their space where N is 8,191.
brackets() {
    many "$1" '('
    printf 'a '
    many "$1" ')'
}

# Both sides of the longest formula, without a line end, with one, and with more behind it: the program takes one off, not more.
make_formulas() {
    brackets 8191 > "$work/formulas/longest"
    (brackets 8191 && echo) > "$work/formulas/longest-line"
    (brackets 8191 && echo && echo) > "$work/formulas/two-lines"
    (brackets 8191 && echo && echo a) > "$work/formulas/more-lines"
    (brackets 8191 && echo ' ') > "$work/formulas/too-long"
    printf 'a+b' > "$work/formulas/no-line-end"
    : > "$work/formulas/empty"
}

try_formulas() {
    local formula
    for formula in "$root/examples/formula" "$work/formulas"/*; do
        try_input formula "$formula"
    done
}

# The deepest plans that there are: 127 Functions over a Column. The deepest formulas: brackets alone, and 63 operators that wait at once,
# each in a bracket more. The header says how much stack a call takes at most.
try_stack() {
    local most bytes
    {
        echo 'E,0,0,1,0'
        seq 0 126 | sed 's/^/E,19,0,1,4,/'
        printf '%s\n' 'P,0,0,0,0,0,0,0' 'P,3,0,0,0,1,1,0,0,127' 'P,2,0,0,0,1,0,0,1'
    } > "$work/deep"
    (many 63 'a+(' && printf a && many 63 ')') > "$work/waiting"
    "$work/stack" "$work/deep" "$work/waiting" "$work/sheets"/* "$work/formulas"/* > "$work/stack.log"
    most="$(tail -n 1 "$work/stack.log")"
    echo "stack of a call in bytes, $most"
    for bytes in $(printf '%s' "${most#*: }" | tr -cd '0-9 '); do
        [ "$bytes" -le $((64 * 1024)) ] || fail 'more stack than include/simplify_ordering.h says'
    done
}

rm -rf "$work"
mkdir -p "$work/sheets" "$work/formulas"
"$root/scripts/library" > "$work/library.log" 2>&1 || fail "no static library: $work/library.log says why"
blocks_of_the_guide sheet
blocks_of_the_guide formula
head -c 16385 /dev/zero | tr '\0' E > "$work/sheets/too-long"
make_formulas
for language in c90 c99 c11 c++98 c++11; do
    case "$language" in
    c++*) compiler=("${CXX:-c++}" -x c++) ;;
    *) compiler=("${CC:-cc}") ;;
    esac
    for name in finish mark formula stack; do
        compile "$name" "${compiler[@]}" "-std=$language" || fail "$name.c as $language"
    done
    try_sheets
    try_formulas
done
try_stack
echo "$compared answers compared, ok"
