#!/usr/bin/env bash
# How deep each public call goes into the stack: worked out from the library's compiled code (rust/stack), and seen on a painted stack
# (tests/c/painted.c). Prints the table that docs/CALLS.md has. Fails where a call passes 1 KiB, half of what the smallest user has (02 §3);
# where the library calls anything outside itself; where the painted stack was written further down than was worked out, or holds a copy
# of lent bytes; where a function below the C interface has an array of its own; and where the document's table is another.
# Usage: bash tests/stack.sh [LIBRARY]: without it, proves and builds crates/ch11/out/libch11.a first. Installs what it needs.
set -euo pipefail
cd "$(dirname "$0")/.."
# shellcheck source=rust/x86.sh
source rust/x86.sh
limit=1024
library=${1:-$x86_library}
room=$(mktemp -d)
trap 'rm -rf "$room"' EXIT
faults=0
fault() { echo "stack: $*" >&2 && faults=1; }

x86_tools
[ $# -gt 0 ] || x86_make_library >"$room/log" 2>&1 </dev/null || { cat "$room/log" >&2; exit 1; }

# The source: what is lent is read where it is. (The compiler takes small copies out again, so that its code would not show them.) With the types of
# slices left out, an array shows by a semicolon in brackets, or by a bracket that follows no name. None are a constant of at most 8 bytes, and of the
# renewal table its type, a row that is made to be set in place, a free row, and the empty table, which no call hands out.
brackets=$(grep -rn --include='*.rt' --exclude-dir=out '\[' crates) || fault "the source was not searched"
arrays=$(sed -E 's/\[(u(8|16|32|64|size)|Row)?\]//g' <<<"$brackets" | grep -E '\[[^]]*;|[(,&:=] *\[' |
    grep -vE '^crates/(ch11|ch11_words|listing|promises)/|:const [A-Z]+: \[u8; [1-8]\] = ' |
    grep -vE '^crates/renewal/.*:(pub type Table = \[Row; 64\];|    \[Row::FREE; 64\]|    pub words: \[u64; 7\],|            words: \[|    pub\(crate\) const FREE: Row = Row \{ words: \[0; 7\] \};)$' || true)
[ -z "$arrays" ] || fault "a function below the C interface has an array of its own: $arrays"

# The code: name, bytes, arguments and deepest way of each call.
$x86_objdump -tr "$library" >"$room/code"
$x86_objdump -dw --no-show-raw-insn "$library" >>"$room/code"
x86_host_cargo run --release --quiet --manifest-path rust/Cargo.toml -p stack -- $limit <"$room/code" >"$room/worked" || fault "it was not worked out"

# The stack itself: name and bytes of each call.
$x86_cc -std=c11 -O2 -Wall -Wextra -Werror -pedantic -I include tests/c/painted.c "$library" -o "$room/painted"
$x86_runner "$room/painted" samples/flight.ch11 >"$room/seen" || fault "a copy was seen, or a call was not run"
[ "$(wc -l <"$room/worked")" -eq "$(wc -l <"$room/seen")" ] || fault "another number of calls was painted than was worked out"

while read -r call bytes arguments way; do
    seen=$(awk -v call="$call" '$1 == call { print $2 }' "$room/seen")
    [ "${seen:-$limit}" -le "$bytes" ] || fault "$call wrote ${seen:-nothing} bytes, and $bytes were worked out"
    echo "| \`$call\` | $bytes | ${seen:-none} | $arguments | ${way// > /, then } |"
done <"$room/worked" >"$room/table"
cat "$room/table"
# The rows of the section's table, below its two first lines.
awk '/^## / { inside = /^## Stack$/ } inside && /^[|]/ && ++row > 2' docs/CALLS.md | cmp -s - "$room/table" || fault "docs/CALLS.md has another table"
exit $faults
