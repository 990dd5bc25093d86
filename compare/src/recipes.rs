//! A reading of document 01's recipes, with items 1, 3 and 4 of document 02: from a text to a recipe, from that to a listing,
//! from that to what is printed. It is written from the documents alone, with lists and strings. Of the port it has the layout
//! of the records, as in `steps`, and what the reader fills unused ones with.

use crate::steps::{Count, Form, One, Shift, Size, Step, Two};
use std::cmp::Ordering;
use std::fmt::Write;
use std::iter::{once, repeat};

/// As many lines as a recipe may have.
pub const LINES_MAX: usize = 32;

/// As many steps as a recipe may have: `LINES_MAX` copies at width 4 have as many.
pub const STEPS_MAX: usize = 256;

/// The slots of a listing in an array, and of one in words: steps past them are not run.
pub const SLOTS: usize = 256;

/// As many boxes as a rack may have.
pub const BOXES_MAX: usize = 64;

/// As many bytes of its input as the program reads.
pub const TEXT_MAX: usize = 1024;

/// As many bytes as the program has room for in what it prints.
pub const PRINT_MAX: usize = 24_576;

#[derive(Clone, Copy, PartialEq, Debug)]
#[repr(u8)]
pub enum Verb {
    Clear,
    Copy,
    Add,
    Sub,
    Neg,
    Not,
    Halve,
    Down,
    Up,
}

/// Each verb with its word, and how many numbers it takes.
pub const VERBS: [(Verb, &str, usize); 9] = [
    (Verb::Clear, "clear", 1),
    (Verb::Copy, "copy", 2),
    (Verb::Add, "add", 2),
    (Verb::Sub, "sub", 2),
    (Verb::Neg, "neg", 1),
    (Verb::Not, "not", 1),
    (Verb::Halve, "halve", 1),
    (Verb::Down, "down", 1),
    (Verb::Up, "up", 1),
];

/// A verb that takes one number has it in `a`; the reader makes its `b` 0.
#[derive(Clone, Copy, PartialEq, Debug)]
#[repr(C)]
pub struct Line {
    pub verb: Verb,
    pub a: u8,
    pub b: u8,
}

impl Line {
    /// The numbers that its verb takes.
    pub fn named(&self) -> impl Iterator<Item = u8> {
        [self.a, self.b].into_iter().take(VERBS[self.verb as usize].2)
    }
}

/// The first `count` lines are the recipe's; the reader makes the others `clear 0`.
#[derive(Clone, Copy, PartialEq, Debug)]
#[repr(C)]
pub struct Recipe {
    pub width: u8,
    pub count: usize,
    pub lines: [Line; LINES_MAX],
}

impl Recipe {
    /// A recipe without lines.
    pub fn empty(width: u8) -> Recipe {
        Recipe { width, count: 0, lines: [Line { verb: Verb::Clear, a: 0, b: 0 }; LINES_MAX] }
    }
}

/// A refusal's number, its text line, and the column of the slip there: of 11 to 14 alone, of others it is 0.
#[derive(Clone, Copy, PartialEq, Debug)]
pub struct Refused {
    pub number: u8,
    pub line: usize,
    pub column: usize,
}

/// What is told of a translation, in the order of the C function recipe_translate: the refusal's number, its line, the
/// number of steps, the refusal's column.
pub type Told = [usize; 4];

impl Refused {
    /// No refusal.
    pub const NONE: Refused = Refused::at(0, 0);

    /// One without a column.
    pub const fn at(number: u8, line: usize) -> Refused {
        Refused { number, line, column: 0 }
    }

    /// Told with so many steps.
    pub fn told(&self, steps: usize) -> Told {
        [self.number.into(), self.line, steps, self.column]
    }
}

/// The widths that there are.
pub const WIDTHS: [u8; 3] = [1, 2, 4];

/// Whether a line that is well written names what isn't there (6), or copies a number onto itself (7).
fn fault(width: u8, line: &Line) -> Option<u8> {
    if line.named().any(|number| number >= 8 / width) {
        Some(6)
    } else if line.verb == Verb::Copy && line.a == line.b {
        Some(7)
    } else {
        None
    }
}

fn digit(field: &[u8]) -> Option<u8> {
    match field {
        [byte @ b'0'..=b'9'] => Some(byte - b'0'),
        _ => None,
    }
}

/// A line with its byte 10: a verb and as many digits as that takes. Or the number and the column of what is wrong, where
/// columns count the line's bytes from 1.
fn line_of(text: &[u8]) -> Result<Line, (u8, usize)> {
    let line = text.strip_suffix(b"\n").ok_or((14, text.len() + 1))?;
    let fields: Vec<&[u8]> = line.split(|&byte| byte == b'\t').collect();
    let first_byte = |at: usize| 1 + fields[..at].iter().map(|field| field.len() + 1).sum::<usize>();
    let known = VERBS.iter().find(|(_, name, _)| name.as_bytes() == fields[0]);
    let &(verb, _, takes) = known.ok_or((11, first_byte(0)))?;
    let number = |at: usize| digit(fields[at]).ok_or((13, first_byte(at)));
    match fields.len().cmp(&(1 + takes)) {
        // the byte 10 is the last byte
        Ordering::Less => Err((12, text.len())),
        Ordering::Greater => Err((12, first_byte(1 + takes))),
        Ordering::Equal => Ok(Line { verb, a: number(1)?, b: if takes == 2 { number(2)? } else { 0 } }),
    }
}

/// The reader. A text has begun a line if there is a byte of it.
pub fn read(text: &[u8]) -> Result<Recipe, Refused> {
    let mut lines = text.split_inclusive(|&byte| byte == b'\n');
    let first = lines.next().unwrap_or_default();
    let width = WIDTHS.into_iter().find(|width| first == format!("width\t{width}\n").as_bytes());
    let mut recipe = Recipe::empty(width.ok_or(Refused::at(4, 1))?);
    for (at, text) in lines.enumerate() {
        let here = at + 2;
        if at == LINES_MAX {
            return Err(Refused::at(8, here));
        }
        let line = line_of(text).map_err(|(number, column)| Refused { number, line: here, column })?;
        if let Some(number) = fault(recipe.width, &line) {
            return Err(Refused::at(number, here));
        }
        recipe.lines[at] = line;
        recipe.count += 1;
    }
    Ok(recipe)
}

/// The operation on the register that comes first, then that on each other.
fn in_turn<T: Copy>(first: T, others: T) -> impl Iterator<Item = T> {
    once(first).chain(repeat(others))
}

fn steps_of(width: u8, line: &Line) -> Vec<Form> {
    let registers = |number: u8| number * width..(number + 1) * width;
    let pairs = || registers(line.a).zip(registers(line.b));
    let two = |first, others| {
        in_turn(first, others).zip(pairs()).map(|(op, (from, to))| Form::Two(op, from, to)).collect()
    };
    let one = |first, others| {
        in_turn(first, others).zip(registers(line.a)).map(|(op, on)| Form::One(op, on)).collect()
    };
    let by_one = |(op, on)| Form::Shift(op, Count::Small(1), on);
    let upwards = |first, others| in_turn(first, others).zip(registers(line.a)).map(by_one).collect();
    let downwards = |first, others| in_turn(first, others).zip(registers(line.a).rev()).map(by_one).collect();
    match line.verb {
        Verb::Clear => one(One::Clr, One::Clr),
        Verb::Copy => {
            pairs().flat_map(|(from, to)| [Form::One(One::Clr, to), Form::Two(Two::Add, from, to)]).collect()
        }
        Verb::Add => two(Two::Add, Two::Addx),
        Verb::Sub => two(Two::Sub, Two::Subx),
        Verb::Neg => one(One::Neg, One::Negx),
        Verb::Not => one(One::Not, One::Not),
        Verb::Halve => downwards(Shift::Asr, Shift::Roxr),
        Verb::Down => downwards(Shift::Lsr, Shift::Roxr),
        Verb::Up => upwards(Shift::Lsl, Shift::Roxl),
    }
}

/// The translator, for a listing of that many slots. Lines past `count` don't count, nor does a `b` that isn't taken.
pub fn translate(recipe: &Recipe, slots: usize) -> Result<Vec<Step>, Refused> {
    if !WIDTHS.contains(&recipe.width) {
        return Err(Refused::at(4, 1));
    }
    if recipe.count > LINES_MAX {
        return Err(Refused::at(8, 0));
    }
    let lines = &recipe.lines[..recipe.count];
    for (at, line) in lines.iter().enumerate() {
        if let Some(number) = fault(recipe.width, line) {
            return Err(Refused::at(number, at + 2));
        }
    }
    let steps: Vec<Step> = lines
        .iter()
        .zip(2..)
        .flat_map(|(line, at)| steps_of(recipe.width, line).into_iter().map(move |form| (form, at)))
        .map(|(form, line)| Step { size: Size::Long, form, line })
        .collect();
    if steps.len() > slots { Err(Refused::at(9, 0)) } else { Ok(steps) }
}

/// A step's operation, source, destination and clock figure.
fn told(step: &Step) -> (String, String, u8, u64) {
    match step.form {
        Form::Two(op, from, to) => (format!("{op:?}"), format!("D{from}"), to, 8),
        Form::One(op, on) => (format!("{op:?}"), "-".into(), on, 6),
        Form::Shift(op, Count::Small(by), on) => {
            (format!("{op:?}"), format!("#{by}"), on, 8 + 2 * u64::from(by))
        }
        form => unreachable!("no recipe has the step {form:?}"),
    }
}

/// The sum of a listing's figures.
pub fn clocks(listing: &[Step]) -> u64 {
    listing.iter().map(|step| told(step).3).sum()
}

fn print(width: u8, listing: &[Step]) -> String {
    let mut out = format!("width\t{width}\t{}\n", listing.len());
    for (place, step) in listing.iter().enumerate() {
        let (operation, source, destination, _) = told(step);
        let operation = operation.to_uppercase();
        // A string takes all that is written to it.
        let _ = writeln!(out, "{place}\t{operation}\tL\t{source}\tD{destination}\t{}", step.line);
    }
    out + &format!("clocks\t{}\n", clocks(listing))
}

/// What the program reads of its input.
pub fn taken(input: &[u8]) -> &[u8] {
    &input[..input.len().min(TEXT_MAX)]
}

/// Whether a text longer than that may be refused so where its cut is refused so: on the same line, and with the same
/// number and column. But where the cut has no byte 10, the whole's number is any of 11 to 14, and its column any.
pub fn refused_alike(cut: &Refused, whole: &Refused) -> bool {
    match cut.number {
        14 => whole.line == cut.line && (11..=14).contains(&whole.number),
        _ => whole == cut,
    }
}

/// What it prints.
pub fn answer(text: &[u8]) -> String {
    match read(text).and_then(|recipe| Ok((recipe.width, translate(&recipe, SLOTS)?))) {
        Ok((width, listing)) => print(width, &listing),
        Err(Refused { number, line, column }) => format!("refused\t{number}\t{line}\t{column}\n"),
    }
}
