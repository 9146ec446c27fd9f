#!/usr/bin/env bash
# Feeds the listing program tables and texts that aren't tables, and compares what it prints byte for byte. The outputs expected are made
# here, from the ids alone: nothing of the library enters them. Run it behind examples/run, which builds the program.
# It prints how many inputs were compared, or the first difference, and then exits with 1.
set -eu
cd "$(dirname "$0")/.."
program=${1:-crates/listing/out/listing}
work=$(mktemp -d)
trap 'rm -rf "$work"' EXIT
compared=0

fail() {
    echo "tests/listing.sh: $1"
    exit 1
}

# Compares the output for $work/in with $work/want.
compare() {
    "$program" < "$work/in" > "$work/got" || fail "$1: exit status $?"
    cmp "$work/got" "$work/want" || fail "$1: printed something else"
    compared=$((compared + 1))
}

# $1 says what the input is, $2 is the input as printf takes it.
refuses() {
    printf "$2" > "$work/in"
    printf 'refused\n' > "$work/want"
    compare "$1"
}

# $3 is the output behind the header.
prints() {
    printf "$2" > "$work/in"
    printf "doc freq unpacked\n$3" > "$work/want"
    compare "$1"
}

# A row for each of $2 documents: id $3, $3 + 1, ..; frequency place mod 200 + 1. Columns in the order $1, `doc` or `freq` first.
rows() {
    awk -v first="$1" -v n="$2" -v start="$3" 'BEGIN {
        print (first == "doc" ? "doc freq" : "freq doc")
        for (i = 0; i < n; i++) {
            f = i % 200 + 1
            if (first == "doc") print start + i, f; else print f, start + i
        }
    }' > "$work/in"
}

# What is printed of such a table: position p lies in block p div 128, the end too, and every block up to it is unpacked.
listed() {
    awk -v n="$1" -v start="$2" 'BEGIN {
        print "doc freq unpacked"
        for (i = 0; i < n; i++) print start + i, i % 200 + 1, int(i / 128) + 1
        print "2147483647 0", int(n / 128) + 1
    }' > "$work/want"
}

# Puts zeros in front of the last number until the input has $1 bytes.
pad() {
    local size missing
    size=$(wc -c < "$work/in")
    missing=$(($1 - size))
    [ "$missing" -ge 0 ] || fail "the input is longer than $1 bytes already"
    awk -v missing="$missing" '
        NR > 1 { print last }
        { last = $0 }
        END {
            split(last, part, " ")
            printf "%s ", part[1]
            for (i = 0; i < missing; i++) printf "0"
            print part[2]
        }' "$work/in" > "$work/padded"
    mv "$work/padded" "$work/in"
    [ "$(wc -c < "$work/in")" -eq "$1" ] || fail "the input has not $1 bytes"
}

# Document 01's own, and the same with the columns the other way round.
prints "the worked table" 'doc freq\n3 1\n7 2\n300 130\n' '3 1 1\n7 2 1\n300 130 1\n2147483647 0 1\n'
prints "the other order" 'freq doc\n1 3\n2 7\n130 300\n' '3 1 1\n7 2 1\n300 130 1\n2147483647 0 1\n'

# Taken.
prints "no rows" 'doc freq\n' '2147483647 0 1\n'
prints "no rows, the other order" 'freq doc\n' '2147483647 0 1\n'
prints "no rows and no line feed" 'doc freq' '2147483647 0 1\n'
prints "last line without line feed" 'doc freq\n3 1\n7 2' '3 1 1\n7 2 1\n2147483647 0 1\n'
prints "leading zeros" 'doc freq\n0003 00000000000000000001\n' '3 1 1\n2147483647 0 1\n'
prints "id 0" 'doc freq\n0 1\n' '0 1 1\n2147483647 0 1\n'
prints "largest id" 'doc freq\n2147483646 1\n' '2147483646 1 1\n2147483647 0 1\n'
prints "largest frequency" 'doc freq\n9 4294967295\n' '9 4294967295 1\n2147483647 0 1\n'
prints "both largest" 'freq doc\n4294967295 2147483646\n' '2147483646 4294967295 1\n2147483647 0 1\n'
prints "every digit" 'doc freq\n1023456789 1987654320\n' '1023456789 1987654320 1\n2147483647 0 1\n'
for n in 1 126 127 128 129 130 255 256 257 383 384 385 1000; do
    for first in doc freq; do
        for start in 0 1 2147480000; do
            rows "$first" "$n" "$start"
            listed "$n" "$start"
            compare "$n documents from $start on, $first first"
        done
    done
done

# Not a table.
refuses "empty input" ''
refuses "a line feed alone" '\n'
refuses "a line feed first" '\ndoc freq\n3 1\n'
refuses "doc doc" 'doc doc\n3 1\n'
refuses "freq freq" 'freq freq\n3 1\n'
refuses "one name" 'doc\n3 1\n'
refuses "three names" 'doc freq unpacked\n3 1\n'
refuses "no names" '3 1\n7 2\n'
refuses "upper case" 'Doc freq\n3 1\n'
refuses "a name cut" 'doc fre\n3 1\n'
refuses "a space in front of the names" ' doc freq\n3 1\n'
refuses "a space behind the names" 'doc freq \n3 1\n'
refuses "two spaces in the names" 'doc  freq\n3 1\n'
refuses "names twice" 'doc freq\ndoc freq\n3 1\n'
refuses "carriage return behind the names" 'doc freq\r\n3 1\n'
refuses "carriage return behind a row" 'doc freq\n3 1\r\n'
refuses "carriage returns alone" 'doc freq\r3 1\r'
refuses "blank line behind the names" 'doc freq\n\n3 1\n'
refuses "blank line between rows" 'doc freq\n3 1\n\n7 2\n'
refuses "blank line at the end" 'doc freq\n3 1\n\n'
refuses "blank line and no row" 'doc freq\n\n'
refuses "a space alone" 'doc freq\n \n'
refuses "missing value" 'doc freq\n3\n'
refuses "missing second value" 'doc freq\n3 \n'
refuses "missing first value" 'doc freq\n 1\n'
refuses "three values" 'doc freq\n3 1 1\n'
refuses "two spaces" 'doc freq\n3  1\n'
refuses "space in front" 'doc freq\n 3 1\n'
refuses "trailing space" 'doc freq\n3 1 \n'
refuses "a tab" 'doc freq\n3\t1\n'
refuses "letters" 'doc freq\nthree 1\n'
refuses "a letter behind digits" 'doc freq\n3 1x\n'
refuses "hexadecimal" 'doc freq\n0x3 1\n'
refuses "a sign" 'doc freq\n+3 1\n'
refuses "a minus" 'doc freq\n-3 1\n'
refuses "a point" 'doc freq\n3.0 1\n'
refuses "byte below the digits" 'doc freq\n3/ 1\n'
refuses "byte above the digits" 'doc freq\n3: 1\n'
refuses "byte 0" 'doc freq\n3\0001 1\n'
refuses "byte 255" 'doc freq\n3 1\377\n'
refuses "a bad last row without line feed" 'doc freq\n3 1\n7'
refuses "frequency 2 ^ 32" 'doc freq\n3 4294967296\n'
refuses "id 2 ^ 32" 'doc freq\n4294967296 1\n'
refuses "2 ^ 32 and 3, which wraps to 3" 'doc freq\n4294967299 1\n'
refuses "2 ^ 64 and 3, which wraps to 3" 'doc freq\n18446744073709551619 1\n'
refuses "forty digits" 'doc freq\n3 1000000000000000000000000000000000000000\n'

# A list that the writer refuses.
refuses "id END" 'doc freq\n2147483647 1\n'
refuses "id above END" 'doc freq\n4294967295 1\n'
refuses "equal ids" 'doc freq\n3 1\n3 1\n'
refuses "falling ids" 'doc freq\n7 1\n3 1\n'
refuses "falling ids, the other order" 'freq doc\n1 7\n1 3\n'
refuses "frequency 0" 'doc freq\n3 0\n'
refuses "frequency 0 in the second row" 'doc freq\n3 1\n7 0\n'
for n in 127 128 129 257; do
    rows doc "$n" 5
    printf '5 1\n' >> "$work/in"
    printf 'refused\n' > "$work/want"
    compare "falling id behind $n documents"
done

# 64 KiB, and one byte more.
rows doc 5000 0
listed 5000 0
pad 65536
compare "65,536 bytes"
pad 65537
printf 'refused\n' > "$work/want"
compare "65,537 bytes"
awk 'BEGIN { printf "doc freq\n"; for (i = 0; i < 65600; i++) printf "0" }' > "$work/in"
compare "65,609 bytes and no row"
head -c 1000000 /dev/zero > "$work/in"
compare "a million bytes"
# the most rows that 65,536 bytes hold, of 4 bytes each: ids don't rise
awk 'BEGIN { printf "doc freq\n"; for (i = 0; i < 16381; i++) printf "0 1\n"; printf "0 1" }' > "$work/in"
[ "$(wc -c < "$work/in")" -eq 65536 ] || fail "the most rows have not 65,536 bytes"
compare "16,382 rows"
# .. and the most with rising ids
awk 'BEGIN {
    printf "freq doc\n"
    size = 9
    for (i = 0; size + length("1 " i) + 1 <= 65536; i++) { printf "1 %d\n", i; size += length("1 " i) + 1 }
}' > "$work/in"
awk 'NR == 1 { print "doc freq unpacked"; next }
    { print $2, $1, int((NR - 2) / 128) + 1 }
    END { print "2147483647 0", int((NR - 1) / 128) + 1 }' "$work/in" > "$work/want"
compare "as many rising ids as fit"

echo "tests/listing.sh: $compared inputs compared, no difference"
