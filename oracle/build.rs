//! With the feature `linked`: links libllq.a from the folder that LLQ_LIB names.
//! With the feature `bench`: compiles ../bench/plain.c and links it too. LLQ_PLAIN_SHIFT puts as many
//! bytes before its code: its time depends on where it lies.
//! With the feature `before`: links an earlier libllq.a, from the folder that LLQ_BEFORE names, its calls renamed. LLQ_SHIFT
//! puts the code of both archives as many bytes behind a multiple of 64: their time too depends on where it lies.

use std::env;
use std::fs;
use std::path::PathBuf;
use std::process::Command;

fn main() {
    let with = |feature: &str| env::var_os(format!("CARGO_FEATURE_{feature}")).is_some();
    if with("BEFORE") {
        link_as("LLQ_LIB", "llq");
        link_as("LLQ_BEFORE", "before");
    } else if with("LINKED") {
        let folder = folder_of("LLQ_LIB");
        println!("cargo:rustc-link-search=native={folder}");
        println!("cargo:rustc-link-lib=static=llq");
    }
    if with("BENCH") {
        plain();
    }
}

/// The folder of libllq.a that the variable names.
fn folder_of(variable: &str) -> String {
    println!("cargo:rerun-if-env-changed={variable}");
    let folder =
        env::var(variable).unwrap_or_else(|_| panic!("{variable} names libllq.a's folder"));
    println!("cargo:rerun-if-changed={folder}/libllq.a");
    folder
}

/// That archive under this name, with which its calls start.
fn link_as(variable: &str, archive: &str) {
    let from = folder_of(variable);
    let folder = PathBuf::from(env::var_os("OUT_DIR").expect("cargo sets OUT_DIR"));
    let renamed =
        ["make", "tick", "serve"].map(|call| format!("--redefine-sym=llq_{call}={archive}_{call}"));
    let to = folder.join(format!("lib{archive}.a"));
    let mut command = Command::new("objcopy");
    println!("cargo:rerun-if-env-changed=LLQ_SHIFT");
    if let Ok(shift) = env::var("LLQ_SHIFT") {
        // The section before those of the functions, which is empty.
        let space = folder.join("space");
        fs::write(&space, vec![0x90; shift.parse().expect("a number of bytes")]).expect("written");
        command.arg(format!("--update-section=.text={}", space.display()));
        command.arg("--set-section-alignment=.text=64");
        println!("cargo:rustc-link-arg-bins=-Wl,--no-gc-sections");
    }
    run(command.args(renamed).arg(PathBuf::from(from).join("libllq.a")).arg(to));
    println!("cargo:rustc-link-search=native={}", folder.display());
    println!("cargo:rustc-link-lib=static={archive}");
}

/// The plain C, its calls renamed so that they stand beside the library's.
fn plain() {
    for file in ["../bench/plain.c", "../include/llq.h"] {
        println!("cargo:rerun-if-changed={file}");
    }
    let folder = PathBuf::from(env::var_os("OUT_DIR").expect("cargo sets OUT_DIR"));
    let (object, archive) = (folder.join("plain.o"), folder.join("libplain.a"));
    println!("cargo:rerun-if-env-changed=LLQ_PLAIN_SHIFT");
    let shift = env::var("LLQ_PLAIN_SHIFT").unwrap_or("0".into());
    let space = folder.join("space.h");
    let skipped = format!("__asm__(\".text\\n\\t.skip {shift}, 0x90\\n\");\n");
    fs::write(&space, skipped).expect("OUT_DIR is written");
    let renamed = ["make", "tick", "serve"].map(|call| format!("-Dllq_{call}=plain_{call}"));
    let flags = ["-std=gnu11", "-O3", "-march=x86-64", "-fPIE", "-c", "../bench/plain.c", "-o"];
    run(Command::new("gcc").args(renamed).arg("-include").arg(&space).args(flags).arg(&object));
    // ar adds to an archive that is there already.
    let _ = fs::remove_file(&archive);
    run(Command::new("ar").arg("rcs").arg(&archive).arg(&object));
    println!("cargo:rustc-link-search=native={}", folder.display());
    println!("cargo:rustc-link-lib=static=plain");
}

fn run(command: &mut Command) {
    match command.status() {
        Ok(status) => assert!(status.success(), "{command:?}: {status}"),
        Err(error) => panic!("{command:?}: {error}"),
    }
}
