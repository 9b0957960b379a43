//! Finds libch11.a: in the folder that CH11_LIB_DIR names, or where `rt lib --cpu=x86-64` in crates/ch11 puts it.
use std::env;
use std::path::PathBuf;

fn main() {
    println!("cargo:rerun-if-env-changed=CH11_LIB_DIR");
    let folder = match env::var_os("CH11_LIB_DIR") {
        Some(folder) => PathBuf::from(folder),
        None => PathBuf::from(env::var_os("CARGO_MANIFEST_DIR").expect("cargo sets it"))
            .join("../../crates/ch11/out"),
    };
    if env::var_os("CARGO_CFG_TARGET_ARCH").as_deref() != Some("x86_64".as_ref()) {
        println!(
            "cargo:warning=libch11.a is for x86-64: build with --target x86_64-unknown-linux-gnu"
        );
    }
    let library = folder.join("libch11.a");
    println!("cargo:rerun-if-changed={}", library.display());
    if !library.exists() {
        panic!(
            "{} is not there: make it by `rt lib --cpu=x86-64` in crates/ch11, or name its folder in CH11_LIB_DIR",
            library.display()
        );
    }
    println!("cargo:rustc-link-search=native={}", folder.display());
    println!("cargo:rustc-link-lib=static=ch11");
}
