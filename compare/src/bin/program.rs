//! The program `recipe` itself, a process for each text, against the reading of document 01 in src/recipes.rs.
//!
//!   program [TEXTS]   texts as those of `recipes agree`
//!
//! RECIPE is the program's command, `./run recipe` if it isn't set; the shell runs it in the repository's folder.

use compare::cases::Random;
use compare::check::Tally;
use compare::recipes::{answer, taken};
use compare::texts::KINDS;
use std::io::{Error, ErrorKind, Write};
use std::process::{Command, ExitCode, Stdio};

const ROOT: &str = concat!(env!("CARGO_MANIFEST_DIR"), "/..");

/// What the command writes for this input.
fn output(command: &str, input: &[u8]) -> Result<Vec<u8>, Error> {
    let mut child = Command::new("sh")
        .args(["-c", command])
        .current_dir(ROOT)
        .stdin(Stdio::piped())
        .stdout(Stdio::piped())
        .spawn()?;
    if let Some(mut pipe) = child.stdin.take() {
        // the program may end without having read all of a long text
        pipe.write_all(input).or_else(|e| if e.kind() == ErrorKind::BrokenPipe { Ok(()) } else { Err(e) })?;
    }
    let output = child.wait_with_output()?;
    // `./run` ends with 1 where the answer is a refusal
    match output.status.code() {
        Some(0 | 1) => Ok(output.stdout),
        _ => Err(Error::other(output.status.to_string())),
    }
}

fn compare(texts: u64, mut random: Random) -> Result<Tally, String> {
    let command = std::env::var("RECIPE").unwrap_or("./run recipe".into());
    let mut tally = Tally::default();
    for kind in KINDS.iter().cycle().take(texts as usize) {
        let input = kind.text(&mut random);
        let got = output(&command, &input).map_err(|error| format!("{command}: {error}"))?;
        let want = answer(taken(&input));
        tally.count(got == want.as_bytes(), || {
            format!(
                "text \"{}\"\n  program  \"{}\"\n  reading  \"{}\"",
                input.escape_ascii(),
                got.escape_ascii(),
                want.as_bytes().escape_ascii()
            )
        });
    }
    Ok(tally)
}

fn usage() -> ExitCode {
    eprintln!("program: usage: program [TEXTS]; SEED, if it is set, is a number");
    ExitCode::from(2)
}

fn main() -> ExitCode {
    let words: Vec<String> = std::env::args().skip(1).collect();
    let count = words.first().map_or(Some(200), |word| word.parse().ok());
    let (Some(count), 0 | 1) = (count, words.len()) else { return usage() };
    let Some(random) = Random::seeded() else { return usage() };
    match compare(count, random) {
        Ok(tally) => {
            println!("total: {} texts, {} differ", tally.cases, tally.differing);
            if tally.differing == 0 { ExitCode::SUCCESS } else { ExitCode::FAILURE }
        }
        Err(error) => {
            eprintln!("program: {error}");
            ExitCode::from(2)
        }
    }
}
