#!/bin/bash
# Counts the instructions of one pass over each input, by the emulator, and holds the counts to those that docs/BENCH.md states.
# Usage: bash rust/bench/count.sh [--markdown | --own]: only prints the tables, as docs/BENCH.md has them, or by the machine's own Rust.
# Otherwise Debian's rustc and emulator are used on every machine, so that the counts are the same on all.
set -euo pipefail
shopt -s inherit_errexit
cd "$(dirname "$0")"
# shellcheck source=rust/x86.sh
source ../x86.sh
x86_tools
x86_counting_tools
mode=${1:-}
rust=debian
case $mode in
    '' | --markdown) ;;
    --own) rust=own ;;
    *) echo "count.sh: no option $mode" >&2 && exit 2 ;;
esac
# Counts are those of the plain build, whatever flags its user has set.
unset RUSTFLAGS CARGO_ENCODED_RUSTFLAGS RUSTC_WRAPPER

# Builds the program with these options of cargo in a folder of its own.
built() {
    local folder=$CARGO_TARGET_DIR/$1 cargo=x86_debian_cargo
    shift
    [ "$rust" = debian ] || cargo=x86_cargo
    CARGO_TARGET_DIR=$folder $cargo build --release --quiet --package bench "$@"
    echo "$folder/$CARGO_BUILD_TARGET/release/bench"
}
bench=$(built $rust)
inlined=$(built $rust-inlined --features inlined)
plugin=$CARGO_TARGET_DIR/libcount.so
cc -O2 -shared -fPIC count.c -o "$plugin"
document=$x86_root/docs/BENCH.md

# A plain x86-64. For the emulator's own choice of processor libc copies by `rep movsb`, of which each byte would count.
emulate() {
    qemu-x86_64 -cpu qemu64 "$@"
}

# All instructions of a program when it makes so many passes over an input on a side; the plugin prints them behind everything else.
# A program that fails, or prints anything else, stops the script.
instructions() {
    local printed code=0
    printed=$(emulate -plugin "$plugin" "$1" count "$2" "$3" "$4" 2>&1) || code=$?
    if [ $code -ne 0 ] || ! [[ $printed =~ ^[0-9]+$ ]]; then
        echo "$2, side $3: not counted; the program ended with $code and printed: $printed" >&2
        return 1
    fi
    echo "$printed"
}

# One pass: what 3 passes take more than 1, halved, so that starting and making the input drop out.
one_pass() {
    local one three
    one=$(instructions "$@" 1)
    three=$(instructions "$@" 3)
    echo $(((three - one) / 2))
}

# A line for each input: name, packets of a pass, counts of library, Rust, inlined Rust and read-only pass (- where it is no measure).
count_all() {
    local name packets read_only library rust forced
    while read -r name packets read_only; do
        library=$(one_pass "$bench" "$name" library)
        rust=$(one_pass "$bench" "$name" rust)
        forced=$(one_pass "$inlined" "$name" rust)
        [ "$read_only" = - ] || read_only=$(one_pass "$bench" "$name" read)
        echo "$name $packets $library $rust $forced $read_only"
    done <<<"$inputs"
}

# A number with commas; - as it is.
commas() {
    sed -E ':more; s/([0-9])([0-9]{3})(,|$)/\1,\2\3/; t more' <<<"$1"
}

# The count for one of so many packets, rounded.
share() {
    echo $((($1 + $2 / 2) / $2))
}

# The same with commas; - where there is only one.
each() {
    if [ "$2" -gt 1 ]; then commas "$(share "$@")"; else echo -; fi
}

# The first count in parts of the second, to two places.
ratio() {
    local hundredths=$((($1 * 100 + $2 / 2) / $2))
    printf '%d.%02d' $((hundredths / 100)) $((hundredths % 100))
}

# Prints each input's figures by this format of nine strings.
print_table() {
    local name packets library rust inlined read_only
    while read -r name packets library rust inlined read_only; do
        # shellcheck disable=SC2059
        printf "$1" "$name" "$(commas "$library")" "$(commas "$rust")" "$(ratio "$library" "$rust")" \
            "$(commas "$inlined")" "$(ratio "$library" "$inlined")" \
            "$(each "$library" "$packets")" "$(each "$rust" "$packets")" "$(commas "$read_only")"
    done <<<"$counts"
}

# The recording of the packet that the renewal table's rows take. It has no sum: to read it takes the same at any length.
reader=64-byte-none

# Prints what one call of the renewal table takes without the reader: each row's name and counts, by this format of four strings.
print_apart() {
    local name packets library rust one_library one_rust
    read -r _ packets library rust _ <<<"$(grep "^$reader " <<<"$counts")"
    one_library=$(share "$library" "$packets")
    one_rust=$(share "$rust" "$packets")
    while read -r name packets library rust _; do
        [[ $name =~ ^(add|new|renew|drop)- ]] || continue
        library=$(($(share "$library" "$packets") - one_library))
        rust=$(($(share "$rust" "$packets") - one_rust))
        # shellcheck disable=SC2059
        printf "$1" "$name" "$library" "$rust" "$(ratio "$library" "$rust")"
    done <<<"$counts"
}

# Each row of the document's table of instructions: the input and the library's count.
stated_rows() {
    awk -F ' *[|] *' '
        /^## / { inside = /^## Instructions/ }
        inside && $3 ~ /^[0-9]/ { gsub(",", "", $3); print $2, $3 }' "$document"
}

# The library's count that the document states for an input; nothing if it has no such row.
stated_for() {
    awk -v input="$1" '$1 == input { print $2 }' <<<"$stated"
}

# Says what is wrong with an input's counts, if anything is.
faults_of() {
    local name=$1 library=$2 rust=$3 limit
    limit=$(stated_for "$name")
    if ! [[ $limit =~ ^[0-9]+$ ]]; then
        echo "$name: the library took $library, and docs/BENCH.md has no such row"
    elif [ $((library * 100)) -gt $((limit * 103)) ]; then
        echo "$name: the library took $library, over 3 % more than the $limit that docs/BENCH.md states"
    fi
    if [[ $name == 512K-sum* ]] && [ $((library * 2)) -gt $((rust * 3)) ]; then
        echo "$name: the library took $library, over 1.5 times Rust's $rust"
    fi
}

# Names the rows of the document that were not counted.
uncounted() {
    local name
    while read -r name _; do
        grep -q "^$name " <<<"$counts" || echo "$name: docs/BENCH.md has this row, and it was not counted"
    done <<<"$stated"
}

inputs=$(emulate "$bench" inputs)
stated=$(stated_rows)
counts=$(count_all)
if [ "$mode" = --markdown ]; then
    echo '| Input | Library | Rust | Ratio | Rust, inlined | Ratio | Library, a packet | Rust, a packet | Read-only |'
    echo '|---|---|---|---|---|---|---|---|---|'
    print_table '| %s | %s | %s | %s | %s | %s | %s | %s | %s |\n'
    echo
    echo '| Input | Library | Rust | Ratio |'
    echo '|---|---|---|---|'
    print_apart '| %s | %s | %s | %s |\n'
    exit
fi
echo "Rust by $(emulate "$bench" compiler)"
echo "counted by $(qemu-x86_64 --version | head -1), processor qemu64"
echo "instructions of one pass; ratios = library / Rust, left to the compiler and inlined"
echo
format='%-16s %10s %10s %6s %10s %6s %9s %9s %9s\n'
# shellcheck disable=SC2059
printf "$format" input library Rust ratio inlined ratio library/1 Rust/1 read-only
print_table "$format"
echo
echo "one call of the renewal table, reader apart"
print_apart '%-16s %10s %10s %6s\n'
[ "$rust" = debian ] || exit 0
faults=$(while read -r name _ library rust _; do faults_of "$name" "$library" "$rust"; done <<<"$counts"; uncounted)
[ -z "$faults" ] || { echo "$faults" >&2; exit 1; }
