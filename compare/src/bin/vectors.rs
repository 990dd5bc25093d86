//! Writes the frozen lists of the crate's answers, one file for each operation.
//!
//!   vectors FOLDER

use compare::packed::OPS;
use compare::vectors;
use std::path::Path;
use std::process::ExitCode;
use std::{fs, io};

fn write_all(folder: &Path) -> io::Result<()> {
    fs::create_dir_all(folder)?;
    for op in OPS {
        let text = vectors::text(op);
        let path = folder.join(op.name()).with_extension("tsv");
        fs::write(&path, &text)?;
        println!("{}: {} lines, {} bytes", path.display(), text.lines().count(), text.len());
    }
    Ok(())
}

fn main() -> ExitCode {
    let Some(folder) = std::env::args().nth(1) else {
        eprintln!("usage: vectors FOLDER");
        return ExitCode::from(2);
    };
    match write_all(Path::new(&folder)) {
        Ok(()) => ExitCode::SUCCESS,
        Err(error) => {
            eprintln!("vectors: {folder}: {error}");
            ExitCode::FAILURE
        }
    }
}
