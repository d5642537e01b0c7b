#!/usr/bin/env bash
# tests/compare_run.sh MESH WRITE_LISTS: runs the program mesh on some hundred lists, written by
# tests/write_lists.c with the second program's sheets beside them, and compares what it prints,
# whole. A list may come in pieces, and without its word the program prints how it is used. The last
# line says how many runs there were and how many differ; the exit status is 0 if none does.
set -u
. "$(dirname "$0")/machine.sh" && machine_prepare run || exit 1
mesh=$1
write_lists=$2
lists=200
folder=$(mktemp -d) || exit 1
trap 'rm -rf "$folder"' EXIT
asked=0
differ=0

# judge WHAT WORDS..: counts a run; the words are a command that succeeds if it went as it should.
judge() {
    local what=$1
    shift
    asked=$((asked + 1))
    "$@" && return
    differ=$((differ + 1))
    echo "differ: $what"
}

# sheet_is SHEET STATUS: is what was printed the sheet, with a status of 0 and no complaint?
sheet_is() {
    [ "$2" -eq 0 ] && [ ! -s "$folder/errors" ] && cmp -s "$folder/printed" "$1"
}

# usage_is: did it print how it is used, and not a sheet?
usage_is() {
    cat "$folder/printed" "$folder/errors" | grep -qi usage && ! grep -q '^total' "$folder/printed"
}

# mesh WORD..: runs the program, and keeps what it prints.
mesh() {
    run_x86 "$mesh" "$@" >"$folder/printed" 2>"$folder/errors"
}

# The bytes of a file, the first and the second some time before the others.
in_pieces() {
    head -c 1 "$1" && sleep 0.1 && tail -c +2 "$1" | head -c 1 && sleep 0.1 && tail -c +3 "$1"
}

run_x86 "$write_lists" "$folder" "$lists" || exit 1
for ((i = 0; i < lists; i++)); do
    mesh run <"$folder/$i.list"
    judge "list $i" sheet_is "$folder/$i.sheet" $?
done
for ((i = 0; i < 8; i++)); do
    in_pieces "$folder/$i.list" | mesh run
    judge "list $i in pieces" sheet_is "$folder/$i.sheet" $?
done
for words in '' sheet Run runs 'run run' 'run -' '-h'; do
    # Unquoted: one word for each.
    mesh $words <"$folder/0.list"
    judge "mesh $words" usage_is
done
echo "run: $asked runs, $differ differ"
[ "$differ" -eq 0 ]
