#!/usr/bin/env bash
# The built program at real devices and over hostile tables. Ends with 0 where each check passed.
set -u
root=$(cd "$(dirname "$0")/.." && pwd)
place=$(mktemp -d)
trap 'rm -rf "$place"' EXIT
cd "$place" || exit 1
cp "$root/examples/ab.csv" "$root/examples/elements.csv" "$root/examples/even.csv" .
mkdir folder
passed=0
failed=0

# expect STATUS NOTE WHAT COMMAND..: runs the command and compares its status and its note.
expect() {
    local status=$1 note=$2 what=$3 got
    shift 3
    "$@" 2>note
    got=$?
    if [ "$got" = "$status" ] && [ "$(cat note)" = "$note" ]; then
        passed=$((passed + 1))
    else
        failed=$((failed + 1))
        echo "$what: status $got and '$(head -c 200 note)' in place of $status and '${note:0:200}'"
    fi
}

decompose() {
    "$root/isoform" decompose --table "$1" --mass 10 --da 0.00001 --alphabet AB
}
to_file() { decompose ab.csv >out; }
to_closed() { decompose ab.csv >&-; }
to_full() { decompose ab.csv >/dev/full; }
other_note() { decompose absent.csv 2>/dev/full; }
of() { decompose "$1" >out; }

to_file 2>build || cat build
expect 0 "" "a report" to_file
report='decompose 1
peak 1 10.000000000000
formula A 10.000000000000 10.000000000000 0
formula B 10.000010000000 10.000010000000 10000000'
if [ "$(cat out)" != "$report" ]; then
    failed=$((failed + 1))
    echo "a report: $(cat out)"
fi
expect 8 "isoform: write fault" "standard output closed" to_closed
expect 8 "isoform: write fault" "standard output full" to_full
expect 7 "isoform: read fault: absent.csv" "a file that is not there" of absent.csv
expect 7 "isoform: read fault: folder" "a folder as a file" of folder
expect 7 "" "standard error full" other_note
expect 2 "isoform: words" "no words" "$root/isoform"
expect 2 "isoform: words" "a word that is no text" "$root/isoform" decompose --table $'\xff' --mass 10 --da 0 --alphabet AB
head -c 16777216 /dev/zero >whole.csv
expect 3 "isoform: table: record 1: header" "a file of exactly its limit" of whole.csv
head -c 16777217 /dev/zero >long.csv
expect 6 "isoform: limit: file long.csv" "a file that is too long" of long.csv

# Hostile tables. Each isotope and each element but one is within the limits.
head='symbol,number,mass,abundance,valence\ne-,0,0.0005,0,0\n'
isotopes() {
    printf "$head"
    for number in $(seq 1 "$1"); do echo "A,$number,$number,0.01,1"; done
    echo B,1,10.00001,1,1
}
elements() {
    printf "${head}A,1,10,1,1\nB,1,10.00001,1,1\n"
    for name in {C..H}{a..z}; do echo "$name,1,20,1,1"; done | head -n $(($1 - 2))
}
isotopes 16 >isotopes16.csv
isotopes 17 >isotopes17.csv
elements 120 >elements120.csv
elements 121 >elements121.csv
: >empty.csv
{ printf "$head" && head -c 1000000 /dev/zero | tr '\0' A && echo ,1,10,1,1; } >wide.csv
expect 0 "" "16 isotopes" of isotopes16.csv
expect 3 "isoform: table: record 19: too many isotopes" "17 isotopes" of isotopes17.csv
expect 0 "" "120 elements" of elements120.csv
expect 3 "isoform: table: record 123: too many elements" "121 elements" of elements121.csv
expect 3 "isoform: table: record 1: header" "an empty table" of empty.csv
expect 3 "isoform: table: record 3: symbol" "a field of a million bytes" of wide.csv

symbols() { "$root/isoform" decompose --table elements120.csv --mass 10 --da 0 --alphabet "$1" >out; }
expect 0 "" "20 symbols" symbols "$(printf %s C{a..t})"
expect 5 "isoform: alphabet: too many" "21 symbols" symbols "$(printf %s C{a..u})"

# Formulas of a peak: none among more than 10^12 count lists that come near, and more than there may be.
formulas() { timeout 60 "$root/isoform" decompose --table "$1" --mass "$2" --da "$3" --alphabet "$4" >out; }
expect 0 "" "no formula among many" formulas even.csv 10000.5 0 ABCDEFGH
if [ "$(cat out)" != $'decompose 1\npeak 1 10000.500000000000' ]; then
    failed=$((failed + 1))
    echo "no formula among many: $(cat out)"
fi
expect 6 "isoform: limit: candidates of peak 1" "more than 1,048,576 formulas" formulas elements.csv 600 10 CHNOPS

# Envelopes: as many isotopologues as there may be, and more.
envelope() { timeout 60 "$root/isoform" envelope --table "$1" --formula "$2" --coverage "$3" >out; }
envelope_to_full() { "$root/isoform" envelope --table elements.csv --formula CO2 --coverage 0.99 >/dev/full; }
lines() {
    if [ "$(wc -l <out)" != "$1" ]; then
        failed=$((failed + 1))
        echo "$2: $(wc -l <out) lines in place of $1"
    fi
}
{
    printf "$head"
    for name in {A..T}a; do printf "$name,1,10,0.6,1\n$name,2,11,0.4,1\n"; done
} >pairs.csv
expect 0 "" "an envelope" envelope elements.csv CO2 0.99
lines 7 "an envelope"
expect 8 "isoform: write fault" "an envelope to a full device" envelope_to_full
# Sizes of smallest sets that IsoSpec 2.2.1 gives for this table, in floating point.
while read -r formula coverage size; do
    expect 0 "" "the cover of $formula" envelope elements.csv "$formula" "$coverage"
    if [ "$(grep '^size' out)" != "size $size" ]; then
        failed=$((failed + 1))
        echo "the cover of $formula for $coverage: $(grep '^size' out) in place of $size"
    fi
done <<'END'
C6H12O6 0.999 7
C6H12O6 0.999999 25
C20H30N4O8 0.999 14
C20H30N4O8 0.999999 79
C30H40O10 0.9999 22
C5S3Cl5 0.99 22
S20 0.999 19
C100Cl40 0.999 105
O1446 0.999999 97
END
expect 0 "" "1,047,628 isotopologues of one element" envelope elements.csv O1446 0.999999
expect 0 "" "1,049,076 isotopologues of one element" envelope elements.csv O1447 0.999999
expect 0 "" "1,048,576 isotopologues of 20 elements" envelope pairs.csv "$(printf %s {A..T}a)" 0.999999
lines 1048534 "1,048,576 isotopologues of 20 elements"
{
    printf "$head"
    for number in {30..45}; do echo "Z,$number,$number,0.05,1"; done
} >z.csv
expect 6 "isoform: limit: layer of Z100" "a layer of more than 1,048,576 isotopologues" envelope z.csv Z100 0.5
expect 5 "isoform: formula: too many elements" "a formula of 21 elements" envelope elements120.csv "$(printf %s C{a..u})" 0.5
expect 2 "isoform: value: --coverage" "a coverage above 0.999999" envelope elements.csv CO2 0.9999991

# Words: one too many, and another order.
in_another_order() { "$root/isoform" decompose --alphabet=AB --da 0.00001 --mass=10 --table ab.csv >out; }
expect 2 "isoform: words" "a tenth word" "$root/isoform" decompose --table ab.csv --mass 10 --da 0 --alphabet AB more
expect 0 "" "words in another order" in_another_order
lines 4 "words in another order"

# Peaks, adducts, rules and tracers from files.
peaks() { "$root/isoform" decompose --table elements.csv --peaks "$1" --adduct '[M+Na]+' --ppm 5 --alphabet CHO --rules "$2" >out; }
traced() { "$root/isoform" envelope --table elements.csv --tracer "$1" --formula CO2 --coverage 0.9 >out; }
printf 'mz,intensity\r\n203.0526,125000\r\n' >sugar.csv
printf '# own\n\nratio H C 3 1\n' >empty.rules
printf 'symbol,number,abundance12\nC,12,0\nC,13,1\n' >labelled.csv
printf 'symbol,number,abundance12\nC,14,1\n' >other.csv
{ echo mz,intensity; for number in $(seq 10001); do echo "$number,1"; done; } >many.csv
expect 0 "" "a peak list with an adduct and rules" peaks sugar.csv golden
lines 3 "a peak list with an adduct and rules"
expect 7 "isoform: read fault: absent.csv" "peaks that are not there" peaks absent.csv golden
expect 7 "isoform: read fault: folder" "a folder as peaks" peaks folder golden
expect 6 "isoform: limit: file long.csv" "peaks that are too long" peaks long.csv golden
expect 4 "isoform: peaks: record 1: header" "peaks of another header" peaks whole.csv golden
expect 4 "isoform: peaks: record 10002: too many" "10,001 peaks" peaks many.csv golden
expect 7 "isoform: read fault: absent.rules" "rules that are not there" peaks sugar.csv absent.rules
expect 6 "isoform: limit: file long.csv" "rules that are too long" peaks sugar.csv long.csv
expect 5 "isoform: rules: line 3: empty range" "rules with an empty range" peaks sugar.csv empty.rules
expect 0 "" "a tracer" traced labelled.csv
expect 3 "isoform: tracer: record 2: mass number" "a tracer of an unknown isotope" traced other.csv
expect 7 "isoform: read fault: absent.csv" "a tracer that is not there" traced absent.csv
expect 6 "isoform: limit: file long.csv" "a tracer that is too long" traced long.csv

# Certificates: written and accepted, from elsewhere, changed, and what is no certificate.
certify() { timeout 60 "$root/isoform" envelope --table elements.csv --formula "$1" --coverage "$2" --certificate >"$3"; }
certify_to_full() { "$root/isoform" envelope --table elements.csv --formula CO2 --coverage 0.99 --certificate >/dev/full; }
check() { timeout 60 "$root/isoform" check --table elements.csv --certificate "$1" "${@:2}" >out; }
accepted() {
    if [ "$(cat out)" != "accepted $1" ]; then
        failed=$((failed + 1))
        echo "$2: $(cat out) in place of accepted $1"
    fi
}
expect 0 "" "a certificate" certify CO2 0.99 co2.txt
expect 0 "" "its check" check co2.txt
accepted "size 2 bound 2" "its check"
expect 8 "isoform: write fault" "a certificate to a full device" certify_to_full
expect 0 "" "a certificate of a protein" certify C257H383N65O77S6 0.99 protein.txt
expect 0 "" "the check of a protein" check protein.txt
accepted "$(sed -n 's/^size /size /p;s/^bound /bound /p' protein.txt | tr '\n' ' ' | sed 's/ $//')" "the check of a protein"
printf '%s\r\n' 'isoform certificate 1' 'formula O2C' 'coverage 990000000000000000' 'size 2' 'bound 1' \
    'threshold 10000000000000000' 'cover [12C][16O]2' 'cover [13C][16O]2' end >elsewhere.txt
expect 0 "" "a certificate from elsewhere" check elsewhere.txt
accepted "size 2 bound 1" "a certificate from elsewhere"
expect 1 "isoform: certificate: not of formula: line 7" "a certificate with a tracer" check co2.txt --tracer labelled.csv
grep -v '13C' co2.txt >less.txt
expect 1 "isoform: certificate: open boundary: line 7: [13C][16O]2: 10648061182430000" "a line less" check less.txt
{ head -n 6 co2.txt; yes 'cover [12C][16O]2' | head -n 1048577; echo end; } >many.txt
expect 1 "isoform: certificate: too many members: 1048577" "one isotopologue more than may be" check many.txt
expect 5 "isoform: certificate text: bad line 1" "a table as a certificate" check elements.csv
expect 7 "isoform: read fault: folder" "a folder as a certificate" check folder
head -n 8 co2.txt >cut.txt
expect 5 "isoform: certificate text: end missing" "a certificate without its end" check cut.txt
: >none.txt
expect 5 "isoform: certificate text: end missing" "a certificate that is empty" check none.txt
{ printf '\xef\xbb\xbf' && cat co2.txt; } >mark.txt
expect 5 "isoform: certificate text: bad line 1" "a certificate with a byte order mark" check mark.txt
sed '7s/.*/cover /' co2.txt >blank.txt
expect 1 "isoform: certificate: not of formula: line 7" "a line without an isotopologue" check blank.txt
sed 's/^bound 2/bound 3/' co2.txt >bold.txt
expect 1 "isoform: certificate: bound too high: 995145904900000000" "a bound that is too high" check bold.txt
{ head -n 7 co2.txt && head -n 7 co2.txt | tail -n 1 && tail -n 2 co2.txt; } >twice.txt
expect 1 "isoform: certificate: out of order: line 8" "a member that stands twice" check twice.txt
{ cat co2.txt && yes '' | head -c $((268435456 - $(stat -c %s co2.txt))); } >full.txt
expect 0 "" "a certificate of exactly its limit that is accepted" check full.txt
echo >>full.txt
expect 6 "isoform: limit: file full.txt" "a certificate of one byte more" check full.txt
rm -f full.txt many.txt
expect 7 "isoform: read fault: absent.txt" "a certificate that is not there" check absent.txt
truncate -s 268435456 whole.txt
expect 5 "isoform: certificate text: bad line 1" "a certificate of exactly its limit" check whole.txt
truncate -s 268435457 long.txt
expect 6 "isoform: limit: file long.txt" "a certificate that is too long" check long.txt
if command -v python3 >python; then
    expect 0 "" "certificates with one line changed" python3 "$root/checks/certificates.py" "$root/crates/isoform/out/isoform"
else
    echo "no python3: certificates with one line changed aren't tried"
fi

# Notes whole: a name as long as a path may be, and an ion of 20 elements.
long_name=$(printf './%.0s' {1..2000})long.csv
expect 6 "isoform: limit: file $long_name" "a file of a long name that is too long" of "$long_name"
{ cat z.csv && for name in {A..S}a; do echo "$name,1,10,1,1"; done; } >z20.csv
of_20_elements() {
    timeout 300 "$root/isoform" envelope --table z20.csv --formula "Z100$(printf %s {A..S}a)" --coverage 0.5 >out
}
expect 6 "isoform: limit: layer of $(printf %s {A..S}a)Z100" "a layer of an ion of 20 elements" of_20_elements

# Reports longer than the output's buffer.
printf "${head}A,1,0.5,1,1\nB,1,0.5,1,1\nC,1,0.5,1,1\nD,1,0.5,1,1\n" >light.csv
long() { "$root/isoform" decompose --table light.csv --mass 15 --da 0 --alphabet ABCD; }
long_to_file() { long >out; }
long_to_full() { long >/dev/full; }
long_to_closed() { long >&-; }
expect 0 "" "a long report" long_to_file
lines 5458 "a long report"
expect 8 "isoform: write fault" "a long report to a full device" long_to_full
expect 8 "isoform: write fault" "a long report to a closed device" long_to_closed

# Standard output closed by its reader before the end of a report, and closed, full and closed early for each command.
long_to_closed_early() {
    long | head -n 1 >out
    return "${PIPESTATUS[0]}"
}
expect 8 "isoform: write fault" "a long report whose reader ends" long_to_closed_early
lines 1 "a long report whose reader ends"
no_notes() { decompose absent.csv >out 2>&-; }
expect 7 "" "standard error closed" no_notes
lines 0 "standard error closed"
cat >co2.txt <<'END'
isoform certificate 1
formula CO2
coverage 990000000000000000
size 2
bound 2
threshold 7691389404043515
cover [12C][16O]2
cover [13C][16O]2
end
END
printf 'mz,intensity\n69.93825,600\n71.9353,400\n' >chlorine.csv
to_closed_command() { "$root/isoform" "$@" >&-; }
to_full_command() { "$root/isoform" "$@" >/dev/full; }
# in_vain WORDS..: a request that has a report, to outputs that don't take it. One that isn't known yet is left out.
in_vain() {
    "$root/isoform" "$@" >out 2>note
    case $? in
    0) ;;
    2) return ;;
    *) expect 0 "" "$*" "$root/isoform" "$@" ;;
    esac
    expect 8 "isoform: write fault" "$* to a closed device" to_closed_command "$@"
    expect 8 "isoform: write fault" "$* to a full device" to_full_command "$@"
}
co2=(--table elements.csv --formula CO2 --coverage 0.99)
chlorine=(rank --table elements.csv --peaks chlorine.csv --adduct '[M]-' --ppm 5 --alphabet Cl --coverage 0.9)
in_vain decompose --table ab.csv --mass 10 --da 0.00001 --alphabet AB
in_vain decompose --table ab.csv --mass 10 --da 0.00001 --alphabet AB --json
in_vain envelope "${co2[@]}"
in_vain envelope "${co2[@]}" --json
in_vain envelope "${co2[@]}" --certificate
in_vain check --table elements.csv --certificate co2.txt
in_vain "${chlorine[@]}"
in_vain "${chlorine[@]}" --json
in_vain generate --table elements.csv --number 1

# Files of exactly their limits, and of one byte more.
at_limit=16777216
# fill FILE BYTE SIZE: appends the byte up to the size.
fill() { head -c $(($3 - $(stat -c %s "$1"))) /dev/zero | tr '\0' "$2" >>"$1"; }
for kind in ab.csv sugar.csv labelled.csv; do cp "$kind" "full-$kind" && fill "full-$kind" '\n' $at_limit; done
printf 'senior\n#' >full.rules
fill full.rules x $at_limit
for kind in full-ab.csv full-sugar.csv full-labelled.csv full.rules; do { cat "$kind" && echo; } >"over-$kind"; done
expect 0 "" "a table of exactly its limit" of full-ab.csv
lines 4 "a table of exactly its limit"
expect 6 "isoform: limit: file over-full-ab.csv" "a table of one byte more" of over-full-ab.csv
expect 0 "" "peaks of exactly their limit" peaks full-sugar.csv golden
lines 3 "peaks of exactly their limit"
expect 6 "isoform: limit: file over-full-sugar.csv" "peaks of one byte more" peaks over-full-sugar.csv golden
expect 0 "" "rules of exactly their limit" peaks sugar.csv full.rules
expect 6 "isoform: limit: file over-full.rules" "rules of one byte more" peaks sugar.csv over-full.rules
expect 0 "" "a tracer of exactly its limit" traced full-labelled.csv
expect 6 "isoform: limit: file over-full-labelled.csv" "a tracer of one byte more" traced over-full-labelled.csv
expect 6 "isoform: limit: file /dev/zero" "a table without end" of /dev/zero
expect 3 "isoform: table: record 1: header" "a device that is empty" of /dev/null
rm -f full-* over-full* full.rules
# Lighter than any atom with the adduct, so that the peaks have no formulas.
{ echo mz,intensity; for number in $(seq 10000); do printf '23.%05d,1\n' "$number"; done; } >tenthousand.csv
expect 0 "" "10,000 peaks" peaks tenthousand.csv golden
lines 10001 "10,000 peaks"
head -c $at_limit /dev/zero | tr '\0' , >commas.csv
expect 3 "isoform: table: record 1: header" "a table of commas" of commas.csv
expect 4 "isoform: peaks: record 1: header" "peaks of commas" peaks commas.csv golden
expect 5 "isoform: rules: line 1: bad line" "rules of commas" peaks sugar.csv commas.csv
{ printf 'mz,intensity\n"' && cat commas.csv; } | head -c $at_limit >quoted.csv
expect 4 "isoform: peaks: record 2: field count" "a quote that isn't closed" peaks quoted.csv golden
rm -f commas.csv quoted.csv
for number in $(seq 64); do echo senior; done >rules64.rules
{ cat rules64.rules && echo senior; } >rules65.rules
expect 0 "" "64 rules" peaks sugar.csv rules64.rules
expect 5 "isoform: rules: line 65: too many" "65 rules" peaks sugar.csv rules65.rules

# Words of a hundred thousand bytes.
nines=$(head -c 100000 /dev/zero | tr '\0' 9)
expect 5 "isoform: formula: too many atoms" "a count of 100,000 digits" envelope elements.csv "C$nines" 0.5
expect 2 "isoform: value: --mass" "an m/z of 100,000 digits" \
    "$root/isoform" decompose --table ab.csv --mass "$nines" --da 0 --alphabet AB
expect 5 "isoform: alphabet: bad text at 3" "a range of 100,000 digits" symbols "A0-$nines"
expect 7 "isoform: read fault: $nines" "a file name of 100,000 bytes" of "$nines"

# An alphabet whose tables find no memory.
in_little_memory() {
    (ulimit -v 16000
    "$root/crates/isoform/out/isoform" decompose --table elements120.csv --mass 10 --da 0 \
        --alphabet "$(printf %s C{a..t})")
}
expect 9 "isoform: memory" "too little memory" in_little_memory

# Reports in JSON beside those of lines.
if command -v python3 >python; then
    if ! python3 "$root/checks/json_reports.py"; then failed=$((failed + 1)); fi
else
    echo "no python3: reports in JSON aren't held against those of lines"
fi

echo "program: $passed passed, $failed failed"
[ "$failed" = 0 ]
