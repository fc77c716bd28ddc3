//! Links the static library: the one in the folder that PLAITGATE_LIB_DIR names, else the one that Plaitgate's tools make
//! in this repository. They make it anew where one of its sources is newer, which takes the Rattle kit and some minutes
//! of proving. Where there is no kit, the archive that is there is linked as it is, with a warning.

use std::env;
use std::path::{Path, PathBuf};
use std::process::Command;

const ARCHIVE: &str = "libplaitgate.a";

fn main() {
    println!("cargo:rerun-if-env-changed=PLAITGATE_LIB_DIR");
    let folder = match env::var_os("PLAITGATE_LIB_DIR") {
        Some(named) => handed_in(PathBuf::from(named)),
        None => made_beside_this_crate(),
    };
    println!("cargo:rustc-link-search=native={}", folder.display());
    println!("cargo:rustc-link-lib=static=plaitgate");
}

fn handed_in(folder: PathBuf) -> PathBuf {
    let archive = folder.join(ARCHIVE);
    println!("cargo:rerun-if-changed={}", archive.display());
    if !archive.is_file() {
        stop(&format!("there is no {}, and PLAITGATE_LIB_DIR names its folder.", archive.display()));
    }
    folder
}

/// The folder of the archive for the target: `rt lib` makes one for x86-64, and on another machine the same proved
/// code is compiled once more, for that machine.
fn made_beside_this_crate() -> PathBuf {
    let target = env::var("CARGO_CFG_TARGET_ARCH").unwrap_or_default();
    let (tool, folder) = match target.as_str() {
        "x86_64" => ("tools/library", "target/staticlib"),
        _ if target == env::consts::ARCH => ("tools/native-library", "target/native"),
        _ => stop(&format!("no {ARCHIVE} for {target} can be made here: set PLAITGATE_LIB_DIR to the folder of one.")),
    };
    let project = Path::new(&env::var_os("CARGO_MANIFEST_DIR").unwrap_or_default()).join("..");
    for source in ["crates", "crates.txt"] {
        println!("cargo:rerun-if-changed={}", project.join(source).display());
    }
    let folder = project.join(folder);
    if kit_is_here() {
        make(&project, tool);
    } else if folder.join(ARCHIVE).is_file() {
        println!("cargo:warning=no rt on PATH: {} is linked as it is, and may be older than its sources", ARCHIVE);
    } else {
        stop(&format!("no rt on PATH: {tool} makes {ARCHIVE} with the Rattle kit; or set PLAITGATE_LIB_DIR."));
    }
    folder
}

fn kit_is_here() -> bool {
    env::split_paths(&env::var_os("PATH").unwrap_or_default()).any(|folder| folder.join("rt").is_file())
}

/// Runs the tool, which decides by itself whether the archive has to be made.
fn make(project: &Path, tool: &str) {
    match Command::new(project.join(tool)).current_dir(project).status() {
        Ok(status) if status.success() => {}
        Ok(status) => stop(&format!("{tool} did not make {ARCHIVE} ({status}).")),
        Err(error) => stop(&format!("{tool} could not be run: {error}.")),
    }
}

fn stop(why: &str) -> ! {
    eprintln!("plaitgate: {why}");
    std::process::exit(1)
}
