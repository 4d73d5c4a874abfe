//! Compiles the board in C, its calls under names of their own: the archive
//! has the others.

use std::path::PathBuf;
use std::process::Command;
use std::{env, fs};

fn main() {
    for file in ["c_board/board.c", "../include/session_board.h"] {
        println!("cargo:rerun-if-changed={file}");
    }
    let out = PathBuf::from(env::var_os("OUT_DIR").expect("cargo sets OUT_DIR"));
    let (object, library) = (out.join("c_board.o"), out.join("libc_board.a"));
    // What every x86-64 has and no more, as the archive is built.
    run(Command::new("gcc")
        .args(["-std=c11", "-O2", "-msse2", "-fno-builtin-memset", "-I../include"])
        // On some Intel processors branches that cross 32 bytes are slow; then the times would
        // depend on where the linker puts the code.
        .args(["-falign-functions=64", "-Wa,-mbranches-within-32B-boundaries"])
        .args(["-DCALL(name)=c_board_##name", "-c", "c_board/board.c", "-o"])
        .arg(&object));
    let _ = fs::remove_file(&library);
    run(Command::new("ar").arg("crs").arg(&library).arg(&object));
    println!("cargo:rustc-link-search=native={}", out.display());
    println!("cargo:rustc-link-lib=static=c_board");
}

fn run(command: &mut Command) {
    let status = command.status().unwrap_or_else(|error| panic!("{command:?}: {error}"));
    assert!(status.success(), "{command:?}: {status}");
}
