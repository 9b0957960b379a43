#!/usr/bin/env bash
# Installs what tests/run.sh needs (Debian packages), and builds what it needs of Rust that does not link the library.
set -euo pipefail
cd "$(dirname "$0")/../rust"
# shellcheck source=rust/x86.sh
source x86.sh
x86_tools
x86_counting_tools
x86_crates
x86_cargo test --release --quiet --no-run -p second
x86_cargo build --release --quiet -p generate -p second
# These run on the machine itself: one starts the listing program, the other reads what objdump prints.
x86_host_cargo build --release --quiet -p listings -p stack
x86_host_cargo test --release --quiet --no-run -p stack
# What the command ch11 depends on; the command itself needs the library.
(cd tool && x86_cargo build --release --quiet -p clap -p console -p indicatif -p serde -p serde_json)
