#!/usr/bin/env bash
# Runs the built program on small inputs and compares what it prints and its status. `rt ci` builds it, and so does `rt run`.
set -uo pipefail
cd "$(dirname "${BASH_SOURCE[0]}")/.."
ial=$PWD/crates/ial/out/ial
if [ ! -x "$ial" ]; then
    echo "crates/ial/out/ial is not built"
    exit 1
fi
dir=$(mktemp -d)
trap 'rm -rf "$dir"' EXIT
failed=0

# expect STATUS EXPECTED-OUTPUT ARGUMENTS..: standard output and error together
expect() {
    local status=$1 expected=$2
    shift 2
    local got
    got=$(cd "$dir" && "$ial" "$@" 2>&1)
    local is=$?
    if [ "$is" != "$status" ] || [ "$got" != "$expected" ]; then
        printf 'ial %s\n  expected (%s): %s\n  got (%s): %s\n' "$*" "$status" "$expected" "$is" "$got"
        failed=1
    fi
}

printf '1\n10\n0\n20\n1\n30\n0\n' > "$dir/pairs.roll"
printf '1\n2\n+3\n4\n' > "$dir/plus.roll"
printf '2000000000\n1\n5\n' > "$dir/over.roll"
printf '7\r\n' > "$dir/cr.roll"
: > "$dir/empty.roll"

expect 0 $'figures: 7\ntotal: 62\nending: end' roll pairs.roll
expect 0 $'figures: 4\ntotal: 42\nending: end' roll pairs.roll --group 2
expect 0 $'figures: 4\ntotal: 42\nending: end' roll --group 2 pairs.roll
expect 0 $'figures: 2\ntotal: 3\nending: damaged at byte 4 (line 3)\n  +3' roll plus.roll
expect 0 $'figures: 3\ntotal: refused 31\nending: end' roll over.roll
expect 0 $'figures: 0\ntotal: 0\nending: damaged at byte 0 (line 1)\n  7\\x0d' roll cr.roll
expect 0 $'figures: 0\ntotal: 0\nending: end' roll empty.roll
expect 1 'ial: no.roll: the file cannot be read' roll no.roll
expect 1 'ial: refused 48: a group has 1 to 64 figures' roll pairs.roll --group 65
expect 1 'ial: refused 48: a group has 1 to 64 figures' roll pairs.roll --group 0
expect 1 'ial: a number is wanted after this option' roll pairs.roll --group two
expect 1 'ial: `roll` takes FILE and --group G; `ial help` explains the commands' roll
expect 1 'ial: there is no such command; `ial help` explains the commands' valuate

cp crates/ial/data/sum.code crates/ial/data/refused.code "$dir"
printf 'abc' > "$dir/short.code"
printf '\1\0\0\0\0\0\0\0\0\0\0\0\0\0\0\0\1\0\0\0\0\0\0\0\0' > "$dir/mark.code"
expect 0 'passes: n 31, named cells 4, cells 4, depth 2' check sum.code
expect 1 'refused 25 at operation 26: jump, ROWS or place 0 against its rule' check refused.code
expect 1 'refused 27: file is not 16 + 9n bytes' check short.code
expect 1 'refused 26 at operation 0: last operation is neither HALT nor JUMP' check mark.code
expect 0 $'n 1, named cells 0, cells 0, depth 0\n     0  MARK   text 0\n     ^  refused 26: last operation is neither HALT nor JUMP' list mark.code
expect 1 'refused 27: file is not 16 + 9n bytes' list short.code
expect 1 'ial: `list` takes a FILE of stored code; `ial help` explains the commands' list

printf '2\n10\n20\n' > "$dir/two.roll"
printf '3\n10\n20\n' > "$dir/three.roll"
printf '2\n10\n2O\n' > "$dir/damaged.roll"
expect 0 $'posted: 1\n  30\ncount: 12\nstatus: end\ncells: 4\n  0: 2\n  1: 30\n  2: 3\n  3: 20' run sum.code two.roll
expect 0 '{"sizes": {"n": 31, "v": 4, "m": 4, "depth": 2}, "advances": [[5, 5], [5, 5], [5, 2]], "count": 12, "posted": ["30"], "status": "end", "cells": ["2", "30", "3", "20"]}' run sum.code two.roll --steps 5 --json
expect 0 $'posted: 0\ncount: 11\nstatus: fault 33 at text byte 25: the roll has ended\ncells: 4\n  0: 3\n  1: 30\n  2: 3\n  3: 20' run sum.code three.roll
expect 0 $'posted: 0\ncount: 4\nstatus: going\ncells: 4\n  0: 3\n  1: 0\n  2: 1\n  3: 10' run sum.code three.roll --limit 4 --set 1=77
expect 0 '{"sizes": {"n": 31, "v": 4, "m": 4, "depth": 2}, "advances": [[1000000, 7]], "count": 7, "posted": [], "status": "fault", "fault": {"number": 34, "place": 25, "roll": 5}, "cells": ["2", "10", "2", "10"]}' run --json sum.code damaged.roll
expect 0 $'posted: 0\ncount: 11\nstatus: fault 35 at text byte 50: the book is full\ncells: 4\n  0: 2\n  1: 30\n  2: 3\n  3: 20' run sum.code two.roll --book 0
printf '2.00\n10.50\n-0.25\n' > "$dir/money.roll"
expect 0 $'posted: 1\n  10.25\ncount: 12\nstatus: end\ncells: 4\n  0: 2.00\n  1: 10.25\n  2: 3.00\n  3: -0.25' run sum.code money.roll --kind hundredths
expect 1 'refused 25 at operation 26: jump, ROWS or place 0 against its rule' run refused.code two.roll
expect 1 'ial: refused 43: --set names a named cell by its number' run sum.code two.roll --set 4=1
expect 1 'ial: `run` takes CODE, ROLL and options; `ial help` explains the commands' run sum.code

exit $failed
