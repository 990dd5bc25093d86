//! Points the module tree at the crate's text where it lies, and links the port if it is wanted.
//!
//! M68K_SRC names the crate's folder src/core (default: see `DEFAULT_SOURCE`). The text is compiled in
//! place, never copied or changed. `#[path]` takes only a literal, hence a script that writes the lines.

use std::path::{Path, PathBuf};
use std::process::exit;
use std::{env, fs};

/// The crate's folder src/core, as seen from this project.
const DEFAULT_SOURCE: &str = "../../shared/docs/src/src/core";

const CORE: [&str; 4] = ["cpu", "ea", "exceptions", "types"];
const INSTRUCTIONS: [&str; 4] = ["bit_manip", "data_movement", "integer_arith", "shift_rotate"];

/// Ends the build with lines for a reader who set something wrong. Cargo fails a script that logged an
/// error; with another status it would print all of the script's output as well.
fn stop(lines: &[String]) -> ! {
    for line in lines {
        println!("cargo::error={line}");
    }
    exit(0)
}

fn variable(name: &str) -> String {
    env::var(name).unwrap_or_else(|_| stop(&[format!("{name} is not set")]))
}

fn source() -> PathBuf {
    println!("cargo::rerun-if-env-changed=M68K_SRC");
    let folder = env::var("M68K_SRC").unwrap_or(DEFAULT_SOURCE.into());
    Path::new(&variable("CARGO_MANIFEST_DIR")).join(folder)
}

/// The `mod` lines of the files in `folder`.
fn modules(folder: &Path, names: &[&str]) -> String {
    let line = |name: &&str| {
        let path = folder.join(name).with_extension("rs");
        if !path.is_file() {
            stop(&[
                format!("the source text of crate m68k is not there: {}", path.display()),
                "set M68K_SRC to the crate's folder src/core".into(),
            ]);
        }
        println!("cargo::rerun-if-changed={}", path.display());
        format!("#[path = {path:?}]\npub mod {name};\n")
    };
    names.iter().map(line).collect()
}

fn write(file: &str, text: String) {
    let path = Path::new(&variable("OUT_DIR")).join(file);
    if let Err(error) = fs::write(&path, text) {
        stop(&[format!("{}: {error}", path.display())]);
    }
}

/// RATTLE_LIB: the folder of those of the port's libraries that are wanted; those that tools/archive made of single functions
/// stand in its folder `functions`.
fn link_port(name: &str) {
    println!("cargo::rerun-if-env-changed=RATTLE_LIB");
    let file = format!("lib{name}.a");
    let main = Path::new(&variable("RATTLE_LIB")).to_path_buf();
    let folder =
        [main.join("functions"), main.clone()].into_iter().find(|folder| folder.join(&file).is_file());
    let Some(folder) = folder else {
        stop(&[format!("the port's library is not there: {} (RATTLE_LIB)", main.join(&file).display())]);
    };
    println!("cargo::rerun-if-changed={}", folder.join(&file).display());
    println!("cargo::rustc-link-search=native={}", folder.display());
    println!("cargo::rustc-link-lib=static={name}");
}

fn main() {
    // the crate's text names a feature that is off here
    println!("cargo::rustc-check-cfg=cfg(feature, values(\"serde\"))");
    let folder = source();
    write("core.rs", modules(&folder, &CORE));
    write("instructions.rs", modules(&folder.join("instructions"), &INSTRUCTIONS));
    for (feature, name) in [
        ("CARGO_FEATURE_PORT", "calls_c"),
        ("CARGO_FEATURE_C_FUNCTIONS", "recipe_archive"),
        ("CARGO_FEATURE_STEP", "step"),
        ("CARGO_FEATURE_RECIPES", "recipes"),
    ] {
        if env::var_os(feature).is_some() {
            link_port(name);
        }
    }
}
