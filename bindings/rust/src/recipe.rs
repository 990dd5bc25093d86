//! Counter recipes: texts that are translated, printed and run.

use crate::limits::{RECIPE_STEPS, ROOM};
use crate::listing::Listing;
use crate::state::State;
use crate::step::Step;
use crate::sys;
use crate::types::{Flags, Refusal};
use std::error::Error;
use std::fmt::{self, Display, Formatter};

/// What a recipe line does. M is 2 to the power of 32 times the width.
#[derive(Clone, Copy, PartialEq, Eq, Hash, Debug)]
pub enum Verb {
    /// `clear a`: a = 0.
    Clear,
    /// `copy a b`: b = a.
    Copy,
    /// `add a b`: b = (b + a) mod M.
    Add,
    /// `sub a b`: b = (b - a) mod M.
    Sub,
    /// `neg a`: a = -a mod M.
    Neg,
    /// `not a`: a = M - 1 - a.
    Not,
    /// `halve a`: the signed half, rounded down.
    Halve,
    /// `down a`: a divided by 2, rounded down.
    Down,
    /// `up a`: a = 2a mod M.
    Up,
}

impl Verb {
    /// The nine verbs.
    pub const ALL: [Verb; 9] = [
        Verb::Clear,
        Verb::Copy,
        Verb::Add,
        Verb::Sub,
        Verb::Neg,
        Verb::Not,
        Verb::Halve,
        Verb::Down,
        Verb::Up,
    ];

    /// Whether it takes two numbers.
    pub fn takes_two(self) -> bool {
        matches!(self, Verb::Copy | Verb::Add | Verb::Sub)
    }
}

/// The verb's word in a recipe text.
impl Display for Verb {
    fn fmt(&self, f: &mut Formatter) -> fmt::Result {
        f.write_str(match self {
            Verb::Clear => "clear",
            Verb::Copy => "copy",
            Verb::Add => "add",
            Verb::Sub => "sub",
            Verb::Neg => "neg",
            Verb::Not => "not",
            Verb::Halve => "halve",
            Verb::Down => "down",
            Verb::Up => "up",
        })
    }
}

/// A line of a recipe made by hand. A verb that takes one number has it in `a`, and `b` isn't printed.
#[derive(Clone, Copy, PartialEq, Eq, Hash, Debug)]
pub struct Line {
    /// What it does.
    pub verb: Verb,
    /// The only number, or the first.
    pub a: u8,
    /// The second number.
    pub b: u8,
}

/// The line as a recipe text has it, without its byte 10.
impl Display for Line {
    fn fmt(&self, f: &mut Formatter) -> fmt::Result {
        let Line { verb, a, b } = self;
        if verb.takes_two() { write!(f, "{verb}\t{a}\t{b}") } else { write!(f, "{verb}\t{a}") }
    }
}

/// A recipe made by hand. Its text is what [`translate`], [`run_text`] and [`answer`] take, and they tell what is wrong with
/// it; a number above 9 isn't one digit there.
///
/// ```
/// use gromavelush::{Line, Recipe, Refusal, Verb, translate};
///
/// let mut recipe = Recipe { width: 2, lines: vec![Line { verb: Verb::Add, a: 0, b: 1 }] };
/// let text = recipe.to_string();
/// assert_eq!(text, "width\t2\nadd\t0\t1\n");
/// assert_eq!(translate(text.as_bytes())?.steps().len(), 2);
///
/// recipe.lines.push(Line { verb: Verb::Neg, a: 4, b: 0 });
/// let refused = translate(recipe.to_string().as_bytes()).unwrap_err();
/// assert_eq!((refused.refusal, refused.line), (Refusal::NoSuchNumber, 3));
/// # Ok::<(), gromavelush::Refused>(())
/// ```
#[derive(Clone, PartialEq, Eq, Hash, Debug)]
pub struct Recipe {
    /// The width of its numbers: 1, 2 or 4 registers.
    pub width: u8,
    /// Its lines, at most [`MOST_LINES`](crate::MOST_LINES).
    pub lines: Vec<Line>,
}

/// The recipe's text.
impl Display for Recipe {
    fn fmt(&self, f: &mut Formatter) -> fmt::Result {
        writeln!(f, "width\t{}", self.width)?;
        self.lines.iter().try_for_each(|line| writeln!(f, "{line}"))
    }
}

/// Why a recipe is refused, and where.
#[derive(Clone, Copy, PartialEq, Eq, Hash, Debug)]
pub struct Refused {
    /// Why.
    pub refusal: Refusal,
    /// The text line, counted from 1: the width is on line 1, a recipe's first line on line 2. Refusal 9 is of the slots, and
    /// has line 0.
    pub line: usize,
    /// The column, in bytes from 1 at the line's start, of refusals 11 to 14: the bad field's first byte, the first field too
    /// many, or the place where the line ends too early. 0 of every other.
    pub column: usize,
}

impl Refused {
    /// A refusal with its line and column as the library tells them.
    fn told(number: u64, line: u64, column: u64) -> Result<(), Refused> {
        match Refusal::told(number) {
            Some(refusal) => Err(Refused { refusal, line: line as usize, column: column as usize }),
            None => Ok(()),
        }
    }
}

impl Display for Refused {
    fn fmt(&self, f: &mut Formatter) -> fmt::Result {
        match (self.line, self.column) {
            (0, _) => self.refusal.fmt(f),
            (line, 0) => write!(f, "line {line}: {}", self.refusal),
            (line, column) => write!(f, "line {line}, column {column}: {}", self.refusal),
        }
    }
}

impl Error for Refused {}

/// Translates into words: how many steps.
fn translate_words(text: &[u8], words: &mut [u64]) -> Result<usize, Refused> {
    let [number, line, steps, column, ..] = sys::recipe_translate(text, words);
    Refused::told(number, line, column)?;
    Ok(steps as usize)
}

/// The listing of a recipe text: `width`, a tab and 1, 2 or 4 on the first line, then up to
/// [`MOST_LINES`](crate::MOST_LINES) lines of a [`Verb`] and its numbers, one digit each. Fields are parted by one tab, and
/// each line ends with byte 10. Each step has the text line that it comes from.
///
/// ```
/// use gromavelush::{Refusal, translate};
///
/// let listing = translate(b"width\t2\nneg\t1\n")?;
/// assert_eq!(listing.steps()[1].to_string(), "NEGX\tL\t-\tD3\t2");
/// let refused = translate(b"width\t4\nadd\t0\tx\n").unwrap_err();
/// assert_eq!((refused.refusal, refused.line, refused.column), (Refusal::NotADigit, 2, 7));
/// # Ok::<(), gromavelush::Refused>(())
/// ```
pub fn translate(text: &[u8]) -> Result<Listing, Refused> {
    let mut words = [0; RECIPE_STEPS];
    let steps = translate_words(text, &mut words)?;
    Ok(Listing::written(words.get(..steps).unwrap_or(&words)))
}

/// Translates a recipe text into slots, and answers how many steps it has. The slots past them stay; a refusal leaves all.
/// Too few slots are refused with 9.
///
/// ```
/// use gromavelush::{D, Form, OneOp, Refusal, Size, Step, translate_into};
///
/// let blank = Step::new(Size::Long, Form::One(OneOp::Clr, D(7)));
/// let mut slots = [blank; 3];
/// assert_eq!(translate_into(b"width\t2\nneg\t1\n", &mut slots)?, 2);
/// assert_eq!(slots[2], blank);
/// let refused = translate_into(b"width\t2\nneg\t1\n", &mut slots[..1]).unwrap_err();
/// assert_eq!((refused.refusal, refused.line), (Refusal::NoSpace, 0));
/// # Ok::<(), gromavelush::Refused>(())
/// ```
pub fn translate_into(text: &[u8], slots: &mut [Step]) -> Result<usize, Refused> {
    let mut words = [0; RECIPE_STEPS];
    let length = slots.len().min(RECIPE_STEPS);
    let row = words.get_mut(..length).unwrap_or_default();
    let steps = translate_words(text, row)?;
    for (slot, &word) in slots.iter_mut().zip(&words).take(steps) {
        *slot = Step::of(word);
    }
    Ok(steps)
}

/// What is printed into a row of bytes.
fn printed(print: impl FnOnce(&mut [u8]) -> usize) -> String {
    let mut out = vec![0; ROOM];
    let length = print(&mut out);
    out.truncate(length);
    String::from_utf8_lossy(&out).into_owned()
}

/// A listing as the program `recipe` prints it, with this width in the first line; the last field of a step is its line.
///
/// The sum in the last line is of the figures that the steps have with all registers and flags 0. A step of a recipe has
/// the same figure always; a shift, BSET, BCLR or BCHG by a data register, or a CHK, may take other clocks in a run, and a step that is refused
/// there has 0.
///
/// ```
/// use gromavelush::{print, translate};
///
/// let listing = translate(b"width\t2\nadd\t0\t1\n")?;
/// assert_eq!(print(2, &listing), "width\t2\t2\n0\tADD\tL\tD0\tD2\t2\n1\tADDX\tL\tD1\tD3\t2\nclocks\t16\n");
/// # Ok::<(), gromavelush::Refused>(())
/// ```
pub fn print(width: u8, listing: &Listing) -> String {
    printed(|out| sys::listing_print(width, listing.words(), out))
}

/// What the program `recipe` prints for a text that it reads whole, of at most 1,024 bytes: the listing, or `refused`, number, line
/// and column. A longer text is read whole here.
///
/// ```
/// assert_eq!(gromavelush::answer(b"width\t1\n"), "width\t1\t0\nclocks\t0\n");
/// assert_eq!(gromavelush::answer(b""), "refused\t4\t1\t0\n");
/// ```
pub fn answer(text: &[u8]) -> String {
    printed(|out| sys::recipe_answer(text, out))
}

/// What came of a recipe that was run.
#[derive(Clone, Copy, PartialEq, Eq, Hash, Debug)]
pub struct RecipeRun {
    /// X after it.
    pub x: bool,
    /// All five flags where document 01 promises them: after add, sub and neg, those of the whole number, and with no line
    /// as they were. After another last line X alone is promised.
    pub flags: Option<Flags>,
    /// The steps.
    pub steps: u32,
    /// The sum of their clock figures.
    pub clocks: u64,
}

/// Reads a recipe text and runs it on a state. In the state's flags one that isn't promised is left clear. A refused text
/// leaves the state.
///
/// ```
/// use gromavelush::{State, run_text};
///
/// let mut state = State::default();
/// state.set_number(2, 0, 0x1_FFFF_FFFF)?;
/// state.set_number(2, 1, 0x2_0000_0004)?;
/// let ran = run_text(b"width\t2\nsub\t0\t1\n", &mut state)?;
/// assert_eq!(state.number(2, 1), Some(5));
/// assert_eq!((ran.x, ran.steps, ran.clocks), (false, 2, 16));
/// # Ok::<(), Box<dyn std::error::Error>>(())
/// ```
pub fn run_text(text: &[u8], state: &mut State) -> Result<RecipeRun, Refused> {
    let [number, line, promised, steps, clocks, column, ..] =
        state.lent(|registers| sys::recipe_run(text, registers));
    Refused::told(number, line, column)?;
    let flags = (promised == 31).then_some(state.flags);
    Ok(RecipeRun { x: state.flags.x, flags, steps: steps as u32, clocks })
}
