#!/usr/bin/env bash
# The tests beside rt's: the C interface from C and from Rust, the stack, the samples, the command ch11, the comparison with the second
# program, and the benchmark's instructions.
# Usage: bash tests/run.sh [CALLS]: compares at least so many calls (165,000). Installs what it needs (Debian packages), and proves and
# builds the library and the listing program first.
set -euo pipefail
cd "$(dirname "$0")/.."
# shellcheck source=rust/x86.sh
source rust/x86.sh
log=$(mktemp)
trap 'rm -f "$log"' EXIT

# Runs a command; what it writes is shown only where it fails.
quietly() {
    "$@" >"$log" 2>&1 </dev/null || { cat "$log" >&2; echo "failed: $*" >&2; exit 1; }
}

# Runs a command and holds what it writes, its line ends as spaces, to the first argument.
says() {
    local wanted=$1
    shift
    quietly "$@"
    [ "$(paste -sd' ' "$log")" = "$wanted" ] || { cat "$log" >&2; echo "not as wanted, $wanted: $*" >&2; exit 1; }
}

quietly bash tests/prepare.sh
quietly x86_make_library
quietly x86_make_listing

echo "C: every field of every call on case L; a withdrawn packet's story"
mkdir -p target/c
for source in tests/c/case_l.c tests/c/story.c examples/c/channels.c; do
    quietly $x86_cc -std=c11 -Wall -Wextra -Werror -pedantic -I include "$source" "$x86_library" -o "target/c/$(basename "$source" .c)"
done
says 'case L: all fields right' $x86_runner target/c/case_l
other='live: slot 0, place 700000000000, bytes as read'
says "kept in slot 0 kept in slot 1 renewed: lives the buffer still holds it behind the fill withdrawn: dropped (2) $other the other: lives \
put back: refused (20) kept in slot 1 $other live: slot 1, place 700000000080, bytes as read" $x86_runner target/c/story
says '0 1 7 9 9 12 20' $x86_runner target/c/channels samples/flight.ch11
says 'refused with 13 at byte 156 of the recording' bash -c "! $x86_runner target/c/channels samples/altered.ch11 2>&1 >/dev/null"

echo "Stack: each call, worked out and painted, held to docs/CALLS.md"
quietly x86_host_cargo test --release --quiet --manifest-path rust/Cargo.toml -p stack
bash tests/stack.sh "$x86_library"

echo "The samples, listed as samples/README.md says"
while read -r sample last; do
    # What is proved meanwhile is told on standard error.
    quietly bash -c "./list 'samples/$sample.ch11' >target/listed"
    says "$last" tail -3 target/listed
done <<'END'
flight packets=7 bytes=636 answer=0
cut packets=6 bytes=504 answer=10
altered packets=3 bytes=156 answer=13
END

echo "The command ch11: its tests, and its listings against the listing program's"
bash tests/tool.sh

cd rust
echo "Rust: the second program's own tests, the wrapper's, and its examples"
quietly x86_cargo test --release --quiet -p second -p ch11
# Debian's cargo leaves doctests out where it builds for another machine, unless told.
[ -z "$x86_runner" ] || RUSTC_BOOTSTRAP=1 quietly x86_cargo test --release --quiet -p ch11 --doc -Z doctest-xcompile
mkdir -p ../target/samples
x86_cargo run --release --quiet -p ch11 --example samples -- ../target/samples
for sample in flight cut altered; do
    cmp "../target/samples/$sample.ch11" "../samples/$sample.ch11"
done

echo "Comparison with the second program: calls"
x86_cargo build --release --quiet -p compare -p bench
quietly $x86_runner "$x86_built/compare" "${1:-165000}"
tail -1 "$log"
echo "Benchmark: library and the same method in Rust agree on its inputs"
quietly $x86_runner "$x86_built/bench" 1 'a trial'
echo "Benchmark: instructions, held to docs/BENCH.md"
bash bench/count.sh
echo "Comparison with the second program: listings"
x86_host_cargo run --release --quiet -p listings -- 300 $x86_runner "$x86_listing"
