//! Links libsession_board.a from the directory that SESSION_BOARD_LIB names.
//!
//! The archive may contain a runtime of its own (a panic handler, for example)
//! under names that this program's runtime uses too. So the calls of the header
//! and all they need are first linked into one object in which only their names
//! are global: the linker cannot confuse the two runtimes.

use std::path::{Path, PathBuf};
use std::process::Command;
use std::{env, fs};

fn main() {
    println!("cargo:rerun-if-env-changed=SESSION_BOARD_LIB");
    let archive = archive();
    println!("cargo:rerun-if-changed={}", archive.display());
    let out = PathBuf::from(env::var_os("OUT_DIR").expect("cargo sets OUT_DIR"));
    close(&archive, &calls(), &out);
    println!("cargo:rustc-link-search=native={}", out.display());
    println!("cargo:rustc-link-lib=static=board");
}

fn archive() -> PathBuf {
    let named = env::var("SESSION_BOARD_LIB")
        .expect("SESSION_BOARD_LIB must name the directory of libsession_board.a");
    fs::canonicalize(Path::new(&named).join("libsession_board.a"))
        .unwrap_or_else(|error| panic!("{named}/libsession_board.a: {error}"))
}

/// The names that the header declares.
fn calls() -> Vec<String> {
    let header = Path::new(env!("CARGO_MANIFEST_DIR")).join("../../include/session_board.h");
    println!("cargo:rerun-if-changed={}", header.display());
    let text = fs::read_to_string(&header).expect("the header");
    let declared = text.lines().filter_map(|line| line.strip_prefix("uint32_t ")?.split_once('('));
    declared.map(|(name, _)| name.to_string()).collect()
}

/// Makes libboard.a: the archive with only these names global.
fn close(archive: &Path, calls: &[String], out: &Path) {
    let (object, library) = (out.join("board.o"), out.join("libboard.a"));
    let wanted = calls.iter().map(|call| format!("--undefined={call}"));
    run(Command::new("ld")
        .args(["-r", "--force-group-allocation"])
        .args(wanted)
        .arg(archive)
        .arg("-o")
        .arg(&object));
    let open = calls.iter().map(|call| format!("--keep-global-symbol={call}"));
    // ar may not understand embedded bitcode of another compiler version.
    let bitcode = ["--remove-section=.llvmbc", "--remove-section=.llvmcmd"];
    run(Command::new("objcopy").args(open).args(bitcode).arg(&object));
    let _ = fs::remove_file(&library);
    run(Command::new("ar").arg("crs").arg(&library).arg(&object));
}

fn run(command: &mut Command) {
    let status = command.status().unwrap_or_else(|error| panic!("{command:?}: {error}"));
    assert!(status.success(), "{command:?}: {status}");
}
