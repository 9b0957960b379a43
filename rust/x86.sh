# shellcheck shell=bash
# Sourced by the scripts that build and run Rust and C for x86-64, which Rattle compiles for. On x86-64 the machine's own tools do it;
# on another machine Debian's cross compiler, its Rust for amd64 and its emulator. `x86_tools` installs what is missing (Debian packages).

x86_root=$(cd "$(dirname "${BASH_SOURCE[0]}")/.." && pwd)
export CARGO_TARGET_DIR=$x86_root/rust/target CARGO_NET_OFFLINE=true CARGO_BUILD_TARGET=x86_64-unknown-linux-gnu
x86_built=$CARGO_TARGET_DIR/$CARGO_BUILD_TARGET/release

# What Rattle makes: the library and the listing program.
x86_library=$x86_root/crates/ch11/out/libch11.a
x86_listing=$x86_root/crates/listing/out/listing

# Each proves what it makes, and what that stands on, and compiles it for every x86-64. A program is linked where it is run: here on nothing.
x86_make_library() { (cd "$x86_root/crates/ch11" && rt lib --cpu=x86-64); }
x86_make_listing() { (cd "$x86_root/crates/listing" && rt run --cpu=x86-64 </dev/null); }

x86_install() {
    DEBIAN_FRONTEND=noninteractive apt-get install -y -qq --no-install-recommends "$@" >/dev/null
}

# Debian's Rust, and with the emulator beside it what instructions are counted with: the same on every machine.
x86_counting_tools() {
    local missing=()
    [ -x /usr/bin/cargo ] || missing+=(cargo)
    [ -x /usr/bin/rustc ] || missing+=(rustc)
    command -v qemu-x86_64 >/dev/null || missing+=(qemu-user)
    [ ${#missing[@]} -eq 0 ] || { apt-get update -qq && x86_install "${missing[@]}"; }
}

# The crates that rust/tool depends on: sources under /usr/share/cargo/registry, the same on every machine.
x86_crates() {
    local packages=(librust-clap-dev librust-console-dev librust-indicatif-dev librust-serde-derive-dev librust-serde-json-dev) there
    there=$(dpkg-query -W -f '${db:Status-Status} ${Package}\n' "${packages[@]}" 2>/dev/null | grep '^installed ' | sort -u | wc -l || true)
    [ "$there" -eq ${#packages[@]} ] || { apt-get update -qq && x86_install "${packages[@]}"; }
}
x86_debian_cargo() { RUSTC=/usr/bin/rustc RUSTDOC=/usr/bin/rustdoc /usr/bin/cargo "$@"; }

if [ "$(uname -m)" = x86_64 ]; then
    x86_cc=cc
    x86_objdump=objdump
    x86_runner=
    x86_tools() {
        local missing=()
        command -v cargo >/dev/null || missing+=(cargo rustc)
        command -v cc >/dev/null || missing+=(gcc libc6-dev)
        command -v objdump >/dev/null || missing+=(binutils)
        [ ${#missing[@]} -eq 0 ] || { apt-get update -qq && x86_install "${missing[@]}"; }
    }
    x86_cargo() { cargo "$@"; }
else
    x86_cc=x86_64-linux-gnu-gcc
    x86_objdump=x86_64-linux-gnu-objdump
    x86_runner=qemu-x86_64
    export CARGO_TARGET_X86_64_UNKNOWN_LINUX_GNU_LINKER=$x86_cc CARGO_TARGET_X86_64_UNKNOWN_LINUX_GNU_RUNNER=$x86_runner
    x86_tools() {
        local packages=(cargo rustc libstd-rust-dev:amd64 gcc-x86-64-linux-gnu libc6-dev-amd64-cross qemu-user libc6:amd64)
        local there
        there=$(dpkg-query -W -f '${db:Status-Status}\n' "${packages[@]}" 2>/dev/null | grep -c '^installed$' || true)
        [ "$there" -eq ${#packages[@]} ] && return
        dpkg --add-architecture amd64 && apt-get update -qq && x86_install "${packages[@]}"
    }
    x86_cargo() { x86_debian_cargo "$@"; }
fi

# The same cargo for a program that runs on this machine itself.
x86_host_cargo() { (unset CARGO_BUILD_TARGET && x86_cargo "$@"); }
