//! Two readings of a counter, and what was counted between them.
//!
//!   cargo run --example difference -- EARLIER LATER
//!
//! Each is 1, 2 or 4 long words of 8 hexadecimal digits, the highest first, with blanks, tabs or underscores between. Without
//! arguments the two stand on the first two lines of standard input. Status 2: they cannot be read.

use gromavelush::{State, run_text};
use std::io::Read;
use std::process::ExitCode;

/// A counter: its long words, the highest first.
type Words = Vec<u32>;

fn word(digits: &str) -> Result<u32, String> {
    let hexadecimal = digits.bytes().all(|byte| byte.is_ascii_hexdigit());
    match u32::from_str_radix(digits, 16) {
        Ok(word) if digits.len() == 8 && hexadecimal => Ok(word),
        _ => Err(format!("{digits:?} is not a long word of 8 hexadecimal digits")),
    }
}

fn counter(text: &str) -> Result<Words, String> {
    let fields = text.split(['_', ' ', '\t', '\r', '\n']).filter(|field| !field.is_empty());
    let words = fields.map(word).collect::<Result<Words, String>>()?;
    match words.len() {
        1 | 2 | 4 => Ok(words),
        count => Err(format!("a counter has 1, 2 or 4 long words, and {:?} has {count}", text.trim_end())),
    }
}

/// The two texts: the arguments, or the lines of standard input.
fn texts() -> Result<(String, String), String> {
    let mut given: Vec<String> = std::env::args().skip(1).collect();
    if given.is_empty() {
        let mut input = Vec::new();
        std::io::stdin().read_to_end(&mut input).map_err(|error| format!("standard input: {error}"))?;
        given = String::from_utf8_lossy(&input).lines().take(2).map(String::from).collect();
    }
    match <[String; 2]>::try_from(given) {
        Ok([earlier, later]) => Ok((earlier, later)),
        Err(given) => {
            Err(format!("two counters are wanted, the earlier and the later, and there are {}", given.len()))
        }
    }
}

fn number(words: &Words) -> u128 {
    words.iter().fold(0, |number, &word| number << 32 | u128::from(word))
}

fn shown(number: u128, width: usize) -> String {
    let word = |at: usize| format!("{:08X}", (number >> (32 * at)) as u32);
    (0..width).rev().map(word).collect::<Vec<String>>().join("_")
}

/// The later less the earlier, by the recipe `sub`; and X, which is set if the later is below.
fn difference(earlier: &Words, later: &Words) -> Result<(u128, bool), Box<dyn std::error::Error>> {
    let width = earlier.len() as u8;
    let mut state = State::default();
    state.set_number(width, 0, number(earlier))?;
    state.set_number(width, 1, number(later))?;
    let ran = run_text(format!("width\t{width}\nsub\t0\t1\n").as_bytes(), &mut state)?;
    Ok((state.number(width, 1).unwrap_or_default(), ran.x))
}

fn told() -> Result<(), Box<dyn std::error::Error>> {
    let (earlier, later) = texts()?;
    let (earlier, later) = (counter(&earlier)?, counter(&later)?);
    let width = earlier.len();
    if later.len() != width {
        let (one, other) = (width, later.len());
        return Err(format!("the counters have {one} and {other} long words; give both the same").into());
    }
    let (difference, below) = difference(&earlier, &later)?;
    println!("earlier     {}", shown(number(&earlier), width));
    println!("later       {}", shown(number(&later), width));
    println!("difference  {}", shown(difference, width));
    println!("decimal     {difference}");
    if below {
        println!(
            "the later counter is below the earlier: it was set back, or it went round, and this is the way round"
        );
    }
    Ok(())
}

fn main() -> ExitCode {
    match told() {
        Ok(()) => ExitCode::SUCCESS,
        Err(error) => {
            eprintln!("difference: {error}");
            ExitCode::from(2)
        }
    }
}
