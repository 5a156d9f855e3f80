#!/usr/bin/env bash
# Refuses each allocation of the built program in turn, and then each with all later ones, over some worked requests.
# Each run has to end with the request's own status, bytes and note, or with status 9, the note of memory and some first
# bytes of the report. It takes minutes and so is no part of the merge gate. It needs a C compiler and glibc.
# A request that the program doesn't know yet (status 2) is left out.
set -u
root=$(cd "$(dirname "$0")/.." && pwd)
place=$(mktemp -d)
trap 'rm -rf "$place"' EXIT
"$root/isoform" >/dev/null 2>&1
program=$root/crates/isoform/out/isoform
[ -x "$program" ] || { echo "refused memory: the program isn't built" >&2; exit 1; }
cd "$place" || exit 1
${CC:-cc} -O2 -shared -fPIC -o refuse.so "$root/checks/refuse_allocation.c" || exit 1
cp "$root"/examples/*.csv .
printf 'senior\nratio H C 0 4\ngroup C 1 H 100\nunsaturation 0 20\n' >own.rules
printf 'isoform certificate 1\nformula X2\ncoverage 750000000000000000\nsize 2\nbound 2\nthreshold 125000000000000000\n' >head
{ cat head && printf 'cover [10X][11X]\ncover [11X]2\nlayer [10X]2\nend\n'; } >whole.txt
{ cat head && printf 'cover [10X][11X]\ncover [11X]2\nend\n'; } >short.txt
printf 'symbol,number,abundance12\nX,10,0.25\nX,11,0.75\n' >quarter.csv
runs=0
refused=0
requests=0
failed=0

# run NUMBER REFUSED_ALL WORDS..: the program with one allocation refused. Answers its status.
run() {
    local number=$1 all=$2
    shift 2
    env LD_PRELOAD="$place/refuse.so" REFUSED="$number" ${all:+REFUSED_ALL=1} "$program" "$@" >got 2>note 9>told
}

is_as_expected() {
    [ "$1" = "$own" ] && cmp -s got report && cmp -s note own_note && return 0
    [ "$1" = 9 ] && [ "$(cat note)" = "isoform: memory" ] && cmp -s -n "$(stat -c %s got)" got report
}

# sweep WORDS..: the request without a refusal, and then with each.
sweep() {
    local all number status
    "$program" "$@" >report 2>own_note
    own=$?
    if [ "$own" = 2 ]; then
        echo "left out: $*"
        return
    fi
    requests=$((requests + 1))
    for all in "" all; do
        number=1
        while true; do
            run "$number" "$all" "$@"
            status=$?
            runs=$((runs + 1))
            if ! is_as_expected "$status"; then
                failed=$((failed + 1))
                echo "$*: allocation $number${all:+ and all later ones} refused: status $status, '$(head -c 200 note)'"
            fi
            [ -s told ] || break
            if [ "$status" = 9 ]; then refused=$((refused + 1)); fi
            number=$((number + 1))
        done
    done
    echo "$((number - 1)) allocations, status $own: $*"
}

sweep decompose --table ab.csv --mass 10 --da 0.00001 --alphabet AB
sweep decompose --table ab.csv --mass 10 --da 0.00001 --alphabet AB --limit 1 --after A
sweep decompose --table elements.csv --mass 29.038576581241 --da 0.04 --adduct '[M-H2O+H]+' --alphabet CHO
sweep decompose --table elements.csv --peaks sugar.csv --adduct '[M+Na]+' --ppm 5 --alphabet CHO --rules golden
sweep decompose --table elements.csv --peaks sugar.csv --adduct '[M+Na]+' --ppm-calc 5 --alphabet 'CHO[13C]0-2' --rules own.rules
sweep envelope --table x.csv --formula X2 --coverage 0.75
sweep envelope --table x.csv --tracer quarter.csv --formula X2 --coverage 0.75
sweep envelope --table elements.csv --formula CO2 --coverage 0.99
sweep envelope --table elements.csv --formula '[13C]6O' --adduct '[M+H]+' --coverage 0.999
sweep decompose --table absent.csv --mass 10 --da 0 --alphabet AB
sweep decompose --table sugar.csv --mass 10 --da 0 --alphabet AB
sweep decompose --table ab.csv --mass 10 --da 0 --alphabet ABQ
sweep envelope --table z.csv --formula Z100 --coverage 0.5
sweep envelope --table x.csv --formula X2 --coverage 0.75 --certificate
sweep check --table x.csv --certificate whole.txt
sweep check --table x.csv --certificate short.txt
sweep rank --table ab.csv --peaks two.csv --ppm 1 --alphabet AB --coverage 0.9
sweep rank --table ab.csv --peaks two.csv --ppm 1 --alphabet AB --coverage 0.9 --turn 1 --turns 3
sweep rank --table elements.csv --peaks chlorine.csv --peak 1 --adduct '[M]-' --ppm 5 --alphabet Cl --coverage 0.9
sweep decompose --table ab.csv --mass 10 --da 0.00001 --alphabet AB --json
sweep envelope --table x.csv --formula X2 --coverage 0.75 --json
sweep rank --table ab.csv --peaks two.csv --ppm 1 --alphabet AB --coverage 0.9 --json

echo "refused memory: $requests requests, $runs runs, $refused of them with status 9, $failed failed"
[ "$failed" = 0 ]
