#!/bin/bash
# Times the library against the same method in Rust: bash rust/bench/run.sh [rounds]
set -euo pipefail
cd "$(dirname "$0")"
# shellcheck source=rust/x86.sh
source ../x86.sh
x86_tools
x86_cargo build --release --quiet --package bench
if [ -n "$x86_runner" ]; then
    place="emulated, on $(uname -m) by $($x86_runner --version | head -1)"
else
    place="on this machine's own processor: $(sed -n 's/^model name.*: //p' /proc/cpuinfo | head -1)"
fi
exec $x86_runner "$x86_built/bench" "${1:-31}" "$place"
