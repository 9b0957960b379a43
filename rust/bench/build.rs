//! Hands the compiler's version, the target and the optimisation level to the program, which prints them above its table.
use std::env;
use std::process::Command;

fn main() {
    let rustc = env::var_os("RUSTC").expect("cargo sets it");
    let answer = Command::new(rustc).arg("-vV").output().expect("rustc runs");
    let text = String::from_utf8_lossy(&answer.stdout).into_owned();
    let first = text.lines().next().unwrap_or("rustc unknown");
    let llvm = text
        .lines()
        .find(|line| line.starts_with("LLVM"))
        .unwrap_or("LLVM unknown");
    println!("cargo:rustc-env=BENCH_RUSTC={}, {}", first, llvm);
    println!(
        "cargo:rustc-env=BENCH_TARGET={}",
        env::var("TARGET").expect("cargo sets it")
    );
    println!(
        "cargo:rustc-env=BENCH_OPT_LEVEL={}",
        env::var("OPT_LEVEL").expect("cargo sets it")
    );
    println!("cargo:rerun-if-changed=build.rs");
}
