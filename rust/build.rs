//! Tells cargo where the archive of the target stands: in the folder SIMMERSTOAT_LIB, or in this repository in target/staticlib for x86-64
//! Linux and in target/box for what bin/box builds. libvalve.a is asked for only with the feature `valve`, libsimmerstoat_whole.a
//! only with the feature `whole`.
use std::path::PathBuf;
use std::{env, process};

/// Rust's name of a target, the folder of its archive below target/, and what writes it.
const FOLDERS: [(&str, &str, &str); 10] = [
    ("x86_64-unknown-linux-gnu", "staticlib", "bin/link"),
    ("x86_64-unknown-linux-musl", "staticlib", "bin/link"),
    ("aarch64-unknown-linux-gnu", "box/aarch64", "bin/box aarch64"),
    ("aarch64-unknown-none", "box/aarch64", "bin/box aarch64"),
    ("thumbv6m-none-eabi", "box/cortex-m0plus", "bin/box cortex-m0plus"),
    ("thumbv7m-none-eabi", "box/cortex-m3", "bin/box cortex-m3"),
    ("thumbv7em-none-eabihf", "box/cortex-m4f", "bin/box cortex-m4f"),
    ("thumbv8m.main-none-eabi", "box/cortex-m33", "bin/box cortex-m33"),
    ("riscv32imac-unknown-none-elf", "box/rv32imac", "bin/box rv32imac"),
    ("riscv32imc-unknown-none-elf", "box/rv32imc", "bin/box rv32imc"),
];

fn fail(why: String) -> ! {
    eprintln!("{why}");
    process::exit(1)
}

fn main() {
    println!("cargo:rerun-if-env-changed=SIMMERSTOAT_LIB");
    let target = env::var("TARGET").unwrap();
    let (folder, command) = match (env::var_os("SIMMERSTOAT_LIB"), FOLDERS.iter().find(|(name, ..)| *name == target)) {
        (Some(folder), _) => (PathBuf::from(folder), "bin/link or bin/box"),
        (None, Some((_, folder, command))) => {
            (PathBuf::from(env::var_os("CARGO_MANIFEST_DIR").unwrap()).join("../target").join(folder), *command)
        }
        (None, None) => {
            let why = "bin/box lists those that there are; SIMMERSTOAT_LIB may name a folder";
            fail(format!("there is no archive for {target}: {why}"))
        }
    };
    println!("cargo:rustc-link-search=native={}", folder.display());
    let valve = env::var_os("CARGO_FEATURE_VALVE").map(|_| "valve");
    let whole = env::var_os("CARGO_FEATURE_WHOLE").map(|_| "simmerstoat_whole");
    for name in ["simmerstoat"].into_iter().chain(valve).chain(whole) {
        let archive = folder.join(format!("lib{name}.a"));
        println!("cargo:rerun-if-changed={}", archive.display());
        if !archive.is_file() {
            fail(format!("{} is not there: run {command}, or set SIMMERSTOAT_LIB to its folder", archive.display()));
        }
        println!("cargo:rustc-link-lib=static={name}");
    }
}
