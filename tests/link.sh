#!/usr/bin/env bash
# Runs what README.md shows: the listing of examples/table.txt, and the examples in C and in Rust, linked with the static library. Compares
# what they print. Wants `rt lib` to have been run in crates/exports.
set -euo pipefail
cd "$(dirname "$0")/.."
folder=$(mktemp -d)
trap 'rm -rf "$folder"' EXIT
cat > "$folder/expected" <<'END'
image: 83 84 25 82 81 82 02 81
validate: 0
document 3, frequency 1
document 7, frequency 2
document 300, frequency 130
documents below 300: 2, occurrences: 3
at 3, frequency 1, 1 unpacked
at 7, frequency 2, 1 unpacked, the target itself
at 300, frequency 130, 1 unpacked
at 2147483647, frequency 0, 1 unpacked
refused: a target above 2147483647
END
for shown in "cat examples/table.txt" examples/run; do
    $shown | sed 's/^/    /' > "$folder/shown"
    python3 -c 'import sys; sys.exit(open(sys.argv[1]).read() not in open("README.md").read())' "$folder/shown" || {
        echo "tests/link.sh: README.md doesn't show what '$shown' prints"
        exit 1
    }
done
cc -Iinclude examples/first.c crates/exports/out/libexports.a -o "$folder/first-c"
"$folder/first-c" | diff "$folder/expected" -
rustc --edition 2024 -O -L crates/exports/out examples/first.rs -o "$folder/first-rust"
"$folder/first-rust" | diff "$folder/expected" -
echo "README's listing, and linked from C and from Rust: 3 programs, no difference"
