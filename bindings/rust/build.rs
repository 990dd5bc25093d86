//! Links the proved library libgromavelush.a.
//!
//! GROMAVELUSH_LIB names the folder that has it. Without that, this runs bindings/build of the project, which makes it
//! with the Rattle kit, and links target/native.

use std::path::{Path, PathBuf};
use std::process::{Command, exit};
use std::{env, fs};

/// The project's folder, as seen from this package.
const ROOT: &str = "../..";
const LIBRARY: &str = "libgromavelush.a";

/// Ends the build with lines for the reader. Cargo fails a script that logged an error; with another status it would
/// print all of the script's output as well.
fn stop(lines: &[String]) -> ! {
    for line in lines {
        println!("cargo::error={line}");
    }
    exit(0)
}

/// What a reader may do who has no library.
fn advice() -> String {
    format!("build it with bindings/build, or set GROMAVELUSH_LIB to the folder that has {LIBRARY}")
}

fn root() -> PathBuf {
    let Some(package) = env::var_os("CARGO_MANIFEST_DIR") else { stop(&["run this by cargo".into()]) };
    Path::new(&package).join(ROOT)
}

/// The library is made of these; an edit to one makes it anew.
fn watch(root: &Path) {
    println!("cargo::rerun-if-changed={}", root.join("crates.txt").display());
    println!("cargo::rerun-if-changed={}", root.join("bindings/build").display());
    println!("cargo::rerun-if-changed={}", root.join("target/native").join(LIBRARY).display());
    let Ok(crates) = fs::read_dir(root.join("crates")) else { return };
    for folder in crates.flatten().map(|found| found.path().join("src")).filter(|src| src.is_dir()) {
        println!("cargo::rerun-if-changed={}", folder.display());
    }
}

/// The library made by the project, which must be around this package.
fn built() -> PathBuf {
    let root = root();
    watch(&root);
    let script = root.join("bindings/build");
    let ran = Command::new(&script).current_dir(&root).output();
    match ran {
        Err(error) => stop(&[format!("{} did not run: {error}", script.display()), advice()]),
        Ok(output) if !output.status.success() => {
            let said = String::from_utf8_lossy(&output.stderr).into_owned();
            let mut lines: Vec<String> = said.lines().map(String::from).collect();
            lines.push(advice());
            stop(&lines)
        }
        Ok(_) => root.join("target/native"),
    }
}

fn main() {
    println!("cargo::rerun-if-env-changed=GROMAVELUSH_LIB");
    let named = env::var_os("GROMAVELUSH_LIB").filter(|folder| !folder.is_empty());
    let folder = named.map_or_else(built, PathBuf::from);
    // the linker is run in another folder
    let folder = folder.canonicalize().unwrap_or(folder);
    let library = folder.join(LIBRARY);
    if !library.is_file() {
        stop(&[format!("the library is not there: {}", library.display()), advice()]);
    }
    println!("cargo::rerun-if-changed={}", library.display());
    println!("cargo::rustc-link-search=native={}", folder.display());
    println!("cargo::rustc-link-lib=static=gromavelush");
}
