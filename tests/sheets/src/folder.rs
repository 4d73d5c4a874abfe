//! A folder for the sheets and the lines of a run.

use std::path::{Path, PathBuf};
use std::{env, fs, process};

/// Runs with a new folder, and removes it. In memory if possible: there are many
/// small files.
pub fn with_folder<T>(run: impl FnOnce(&Path) -> T) -> T {
    let folder = new_folder();
    let result = run(&folder);
    let _ = fs::remove_dir_all(&folder);
    result
}

fn new_folder() -> PathBuf {
    let name = format!("sheets-{}", process::id());
    let in_memory = Path::new("/dev/shm").join(&name);
    if fs::create_dir(&in_memory).is_ok() {
        return in_memory;
    }
    let folder = env::temp_dir().join(name);
    fs::create_dir_all(&folder).expect("a folder for the sheets");
    folder
}
