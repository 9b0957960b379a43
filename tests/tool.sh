#!/usr/bin/env bash
# The tests of the command ch11 (rust/tool): its own, and its listings against those of the proved listing program.
# Needs what tests/prepare.sh installs and builds, the library and the listing program. Usage: bash tests/tool.sh
set -euo pipefail
cd "$(dirname "$0")/.."
# shellcheck source=rust/x86.sh
source rust/x86.sh
# Where the tool is built, and cargo finds the configuration that names Debian's crates.
in_tool() { (cd rust/tool && "$@"); }
scratch=$(mktemp -d)
trap 'rm -rf "$scratch"' EXIT

fail() {
    echo "tool.sh: $*" >&2
    exit 1
}

in_tool x86_cargo build --release --quiet --bins --examples
in_tool x86_cargo test --release --quiet --lib --tests >"$scratch/tests" 2>&1 || { cat "$scratch/tests" >&2; fail "cargo test"; }
ch11() { $x86_runner "$x86_built/ch11" "$@"; }

# Runs ch11 and holds its status to the first argument; what it writes is in "$scratch/out" and "$scratch/err".
status() {
    local wanted=$1 got=0
    shift
    ch11 "$@" >"$scratch/out" 2>"$scratch/err" || got=$?
    [ "$got" -eq "$wanted" ] || { cat "$scratch/err" >&2; fail "status $got, not $wanted: ch11 $*"; }
}

# The listing program itself, on the samples and on made recordings, whole and at odd windows.
for kind in uart mixed; do
    $x86_runner "$x86_built/examples/make" $kind 1 >"$scratch/made"
    head -c 60000 "$scratch/made" >"$scratch/$kind"
done
for sample in samples/flight.ch11:0 samples/cut.ch11:1 samples/altered.ch11:1 "$scratch/uart:0" "$scratch/mixed:1"; do
    file=${sample%:*}
    $x86_runner "$x86_listing" <"$file" >"$scratch/listing"
    for window in '' 1 3 24 41 100 997; do
        status "${sample#*:}" list ${window:+--window "$window"} "$file"
        cmp "$scratch/listing" "$scratch/out" || fail "another listing of $file, window ${window:-as it is}"
    done
    status "${sample#*:}" list - <"$file"
    cmp "$scratch/listing" "$scratch/out" || fail "another listing of $file from standard input"
done

# What can't be read, and what can't be written.
status 2 list "$scratch/missing"
grep -q ': No such file or directory$' "$scratch/err" || fail "a missing file is not told"
status 2 check "$scratch" samples/flight.ch11
grep -q ': is a directory$' "$scratch/err" || fail "a directory is not told"
grep -q 'flight.ch11: 7 packets, 636 bytes, whole$' "$scratch/out" || fail "the file behind a directory is not checked"
for _ in $(seq 2000); do cat samples/flight.ch11; done >"$scratch/long"
[ "$( (ch11 list "$scratch/long"; echo "status $?" >&2) 2>"$scratch/err" | head -1)" = packet=0 ] || fail "the first line of a long listing"
says=$(paste -sd' ' "$scratch/err")
[ "$says" = 'ch11: standard output was closed status 2' ] || fail "a closed pipe is not told: $says"
