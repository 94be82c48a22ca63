//! Links the archive of the proved library: `libexport.a` in the folder named by
//! `HAMZULAPH_STATICLIB`, or in `crates/export/out`, where `rt lib` leaves it. It is compiled for
//! x86-64; for another processor the toolchain makes programs of it, with `server.c` and with
//! `counted.c`.

use std::env;
use std::path::{Path, PathBuf};
use std::process::Command;

const VARIABLE: &str = "HAMZULAPH_STATICLIB";

fn main() {
    let folder = folder();
    let archive = folder.join("libexport.a");
    println!("cargo:rerun-if-env-changed={VARIABLE}");
    println!("cargo:rerun-if-changed={}", archive.display());
    if !archive.exists() {
        panic!("there is no {}: run 'rt lib' in crates/export", archive.display());
    }
    if env::var("CARGO_CFG_TARGET_ARCH").is_ok_and(|processor| processor == "x86_64") {
        println!("cargo:rustc-link-search=native={}", folder.display());
        println!("cargo:rustc-link-lib=static=export");
    } else {
        make_programs(&archive);
    }
}

fn folder() -> PathBuf {
    match env::var_os(VARIABLE) {
        Some(folder) => PathBuf::from(folder),
        None => PathBuf::from(env!("CARGO_MANIFEST_DIR")).join("../../crates/export/out"),
    }
}

/// Makes both programs. `src/emulated.rs` is told where they stand, and the toolchain, which has the emulator.
fn make_programs(archive: &Path) {
    let own = toolchain().join("on").join(env::consts::ARCH);
    let emulator = own.join("toolchain/bin/qemu-x86_64");
    println!("cargo:rerun-if-changed={}", emulator.display());
    if !emulator.exists() {
        panic!("the library is for x86-64, and there is no emulator {}", emulator.display());
    }
    println!("cargo:rustc-env=HAMZULAPH_TOOLS={}", own.join("toolchain").display());
    for (name, variable) in [("server", "HAMZULAPH_SERVER"), ("counted", "HAMZULAPH_COUNTED")] {
        println!("cargo:rustc-env={variable}={}", make(name, &own, archive).display());
    }
}

/// Compiles a C file and links it with the archive, as `rt` does with a program.
fn make(name: &str, own: &Path, archive: &Path) -> PathBuf {
    let (source, tools) = (format!("{name}.c"), own.join("toolchain"));
    println!("cargo:rerun-if-changed={source}");
    let out = PathBuf::from(env::var_os("OUT_DIR").expect("cargo names a folder"));
    let (object, program) = (out.join(format!("{name}.o")), out.join(name));
    let mut compile = Command::new(tools.join("bin/clang"));
    compile.args(["--target=x86_64-linux-gnu", "-O2", "-Wall", "-c", &source, "-o"]);
    run(compile.arg(&object));
    let mut link = Command::new(own.join("bin/rattle-link"));
    link.args(["--target", "x86_64-unknown-linux-gnu", "--toolchain"]).arg(&tools);
    run(link.arg("-o").arg(&program).arg(&object).arg(archive));
    program
}

fn run(command: &mut Command) {
    let ended = command.status();
    if !ended.as_ref().is_ok_and(|status| status.success()) {
        panic!("{command:?}: {ended:?}");
    }
}

/// The folder of the Rattle toolchain: `RATTLE_HOME`, or that of the `rt` on the PATH.
fn toolchain() -> PathBuf {
    println!("cargo:rerun-if-env-changed=RATTLE_HOME");
    if let Some(folder) = env::var_os("RATTLE_HOME") {
        return PathBuf::from(folder);
    }
    let path = env::var_os("PATH").unwrap_or_default();
    let rt = env::split_paths(&path).find_map(|folder| folder.join("rt").canonicalize().ok());
    let folder = rt.as_ref().and_then(|rt| rt.parent()?.parent());
    folder.expect("the Rattle toolchain (the command 'rt') is not on the PATH").to_path_buf()
}
