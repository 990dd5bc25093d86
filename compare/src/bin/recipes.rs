//! The port's recipes against the reading of documents 01 and 02 in src/recipes.rs.
//!
//!   recipes agree [TEXTS]   the rows of examples/refusals.tsv and of `BY_HAND`; random texts, and a tenth as many recipes made by hand
//!
//! SEED is the random numbers' seed. How often each refusal, each of src/slips.rs and each of `CASES` was met is printed; if one never
//! was, the status is 2.

use compare::c_functions::{recipe_answer, recipe_translate};
use compare::cases::Random;
use compare::check::Tally;
use compare::ported_recipes as ported;
use compare::recipes::{LINES_MAX, Line, PRINT_MAX, Recipe, Refused, SLOTS, STEPS_MAX, Told, Verb};
use compare::recipes::{answer, read, refused_alike, taken, translate};
use compare::refusals;
use compare::slips::{self, Slip};
use compare::steps::{Form, Size, Step, TOLD};
use compare::texts::{self, KINDS, LONGEST};
use std::collections::BTreeMap;
use std::fmt::Debug;
use std::process::ExitCode;

/// The row for what is printed, before anything is.
static UNTOUCHED: [u8; PRINT_MAX] = [0xA5; PRINT_MAX];

/// A slot for a word, before anything is laid there.
const EMPTY: u64 = 0xA5A5_A5A5_A5A5_A5A5;

/// How often each refusal number was met, and at 0 acceptance.
type Met = BTreeMap<usize, u64>;

/// The numbers that a text or a row can be refused with, and 0.
const NUMBERS: [usize; 10] = [0, 4, 6, 7, 8, 9, 11, 12, 13, 14];

/// Prints it; whether all of `wanted` were met.
fn are_met(name: &str, met: &Met, wanted: &[usize]) -> bool {
    let counts = NUMBERS.map(|number| met.get(&number).copied().unwrap_or(0).to_string());
    println!("{name}\t{}", counts.join("\t"));
    let missing: Vec<&usize> = wanted.iter().filter(|number| !met.contains_key(number)).collect();
    if !missing.is_empty() {
        println!("NEVER MET: {name}: {missing:?}; 0 is acceptance");
    }
    let others: Vec<&usize> = met.keys().filter(|number| !NUMBERS.contains(number)).collect();
    if !others.is_empty() {
        println!("NO SUCH NUMBER: {name}: {others:?}");
    }
    missing.is_empty() && others.is_empty()
}

/// Prints how often each was met; whether all were.
fn all_met(counts: impl Iterator<Item = (String, u64)>) -> bool {
    counts.fold(true, |met, (name, count)| {
        println!("{}{name}\t{count}", if count == 0 { "NEVER MET: " } else { "" });
        met && count > 0
    })
}

/// What is printed, byte for byte, with nothing written behind it.
fn compare_printed(text: &[u8], out: &mut [u8; PRINT_MAX], tally: &mut Tally) {
    let want = answer(text);
    let length = recipe_answer(text, out);
    let (got, rest) = out.split_at(length.min(PRINT_MAX));
    let whole = rest == &UNTOUCHED[got.len()..];
    tally.count(length == got.len() && got == want.as_bytes() && whole, || {
        let behind = if whole { "nothing" } else { "something" };
        let (text, got, want) = (text.escape_ascii(), got.escape_ascii(), want.as_bytes().escape_ascii());
        format!(
            "text \"{text}\"\n  port     {length} bytes \"{got}\", {behind} behind\n  reading  \"{want}\""
        )
    });
    *out = UNTOUCHED;
}

/// What is read; of a refused text a recipe of width 1 without lines.
fn compare_read(text: &[u8], tally: &mut Tally) {
    let want = read(text).map_or_else(|r| (r, Recipe::empty(1)), |recipe| (Refused::NONE, recipe));
    let got = ported::read(text);
    tally.count(got == want, || {
        format!("text \"{}\"\n  port     {got:?}\n  reading  {want:?}", text.escape_ascii())
    });
}

/// The listing in words, into a row with a slot too few, one with just enough and a long one; nothing is written behind it. What the
/// reading tells of each.
fn compare_listings(text: &[u8], tally: &mut Tally) -> [Told; 3] {
    let recipe = read(text);
    let made = |slots| recipe.and_then(|recipe| translate(&recipe, slots));
    let needed = made(STEPS_MAX).map_or(0, |steps| steps.len());
    [needed.saturating_sub(1), needed, LONGEST].map(|slots| {
        let mut row = vec![EMPTY; LONGEST];
        let want = wanted(made(slots), &row, Step::word);
        let [number, line, count, column, rest @ ..] =
            recipe_translate(text, &mut row[..slots]).map(|word| word as usize);
        let got = Laid { told: [number, line, count, column], row };
        tally.count(got == want && rest == [0; TOLD - 4], || {
            let (text, shown) = (text.escape_ascii(), got.shown_against(&want));
            format!(
                "text \"{text}\", {slots} slots\n  port     {shown}, then {rest:x?}\n  reading  {:?}",
                want.told
            )
        });
        want.told
    })
}

/// What the reading tells of the listings.
fn compare_text(text: &[u8], out: &mut [u8; PRINT_MAX], tally: &mut Tally) -> [Told; 3] {
    compare_printed(text, out, tally);
    compare_read(text, tally);
    compare_listings(text, tally)
}

/// The rows of texts and what is printed for them: the port and the reading print it.
fn compare_rows(tally: &mut Tally) -> usize {
    let rows = refusals::rows(concat!(env!("CARGO_MANIFEST_DIR"), "/../examples/refusals.tsv"));
    let mut out = UNTOUCHED;
    for row in &rows {
        compare_text(&row.text, &mut out, tally);
        let got = answer(&row.text);
        tally.count(got.as_bytes() == row.printed, || {
            format!(
                "row \"{}\"\n  reading  {:?}\n  row      \"{}\"",
                row.name,
                got,
                row.printed.escape_ascii()
            )
        });
    }
    rows.len()
}

/// A text longer than the program reads is compared whole too: cut and whole are refused alike. What the whole is refused with.
fn compare_whole(
    input: &[u8],
    cut: Option<Refused>,
    out: &mut [u8; PRINT_MAX],
    tally: &mut Tally,
) -> Option<Refused> {
    compare_text(input, out, tally);
    let whole = read(input).err();
    let alike = cut.zip(whole).is_some_and(|(cut, whole)| refused_alike(&cut, &whole));
    tally.count(alike, || format!("{} bytes: {whole:?}, cut {cut:?}", input.len()));
    whole
}

/// Random texts, as many of each kind. Refusal 9 is that of a row with a slot too few for an accepted text.
fn compare_texts(count: u64, random: &mut Random, tally: &mut Tally) -> bool {
    let mut out = UNTOUCHED;
    let mut met = [const { Met::new() }; KINDS.len()];
    // no line is refused; or the recipe's first (or the width line), one between, the text's last
    let mut places = [const { Met::new() }; 4];
    let mut slips = [0; slips::CASES.len()];
    let mut long = 0;
    for at in 0..count {
        let kind = (at % KINDS.len() as u64) as usize;
        let input = KINDS[kind].text(random);
        let text = taken(&input);
        let [[short, ..], _, [number, line, ..]] = compare_text(text, &mut out, tally);
        let refused = read(text).err();
        let mut whole = None;
        if text.len() < input.len() {
            whole = compare_whole(&input, refused, &mut out, tally);
            long += 1;
        }
        if let Some(refused) = refused {
            let slip = Slip::of(text, refused, whole);
            slips.iter_mut().zip(&slips::CASES).for_each(|(sum, case)| *sum += u64::from(slip.is(case)));
        }
        let last = text.split_inclusive(|&byte| byte == b'\n').count();
        let place = if line <= 2 { line.min(1) } else { 2 + usize::from(line == last) };
        for met in [&mut met[kind], &mut places[place]] {
            *met.entry(number).or_default() += 1;
            if short == 9 {
                *met.entry(9).or_default() += 1;
            }
        }
    }
    println!("longer than the program reads\t{long}");
    println!("texts\taccepted\t{}", NUMBERS[1..].iter().map(usize::to_string).collect::<Vec<_>>().join("\t"));
    KINDS.iter().zip(met).for_each(|(kind, met)| _ = are_met(kind.name, &met, &[]));
    let names = slips::CASES.iter().map(|(number, name, _)| format!("{number}: {name}"));
    all_met(names.zip(slips))
        & are_met("accepted", &places[0], &[0, 9])
        & are_met("refused on the first line", &places[1], &[4, 6, 7, 11, 12, 13, 14])
        & are_met("refused on a line between", &places[2], &[6, 7, 8, 11, 12, 13])
        & are_met("refused on the last line", &places[3], &[6, 7, 8, 11, 12, 13, 14])
}

/// What a translation tells, and the row that it leaves.
#[derive(PartialEq)]
struct Laid<T> {
    told: Told,
    row: Vec<T>,
}

impl<T: PartialEq + Debug> Laid<T> {
    /// What is told, and where the row differs first.
    fn shown_against(&self, want: &Laid<T>) -> String {
        let slot = (0..want.row.len()).find(|&at| self.row[at] != want.row[at]);
        let slot = slot.map(|at| format!("; slot {at} {:x?}, wanted {:x?}", self.row[at], want.row[at]));
        format!("{:?}{}", self.told, slot.unwrap_or_default())
    }
}

/// Of what the reading made for such a row; `laid` is what a slot gets of a step.
fn wanted<T: Copy>(made: Result<Vec<Step>, Refused>, before: &[T], laid: impl Fn(&Step) -> T) -> Laid<T> {
    let refused = *made.as_ref().err().unwrap_or(&Refused::NONE);
    let mut row: Vec<T> = made.unwrap_or_default().iter().map(laid).collect();
    let count = row.len();
    row.extend(&before[count..]);
    Laid { told: refused.told(count), row }
}

/// A recipe translated into a row, and by value; what the reading tells of the first.
fn compare_recipe(recipe: &Recipe, before: &[Step], tally: &mut Tally) -> Told {
    let mut row = before.to_vec();
    let told = ported::translate(recipe, &mut row);
    let made = |slots| translate(recipe, slots);
    let (lent, want_lent) = (Laid { told, row }, wanted(made(before.len()), before, Step::clone));
    let (told, array) = ported::translate_array(recipe);
    let row = array.to_vec();
    let (by_value, want_by_value) = (Laid { told, row }, wanted(made(SLOTS), &[ported::BLANK; SLOTS], Step::clone));
    tally.count(lent == want_lent && by_value == want_by_value, || {
        format!(
            "{recipe:?}\n  {} slots: {}\n  reading    {:?}\n  by value   {}\n  reading    {:?}",
            before.len(),
            lent.shown_against(&want_lent),
            want_lent.told,
            by_value.shown_against(&want_by_value),
            want_by_value.told
        )
    });
    want_lent.told
}

/// A recipe made by hand: its width; the number of its lines; what these are, the 18th, and the last that there is room for; the slots
/// that it is translated into; and what comes of it: refusal, its line, steps. The translator's refusals have no column.
type ByHand = (u8, usize, [Line; 3], usize, [usize; 3]);

const fn line(verb: Verb, a: u8, b: u8) -> Line {
    Line { verb, a, b }
}

const NOT: Line = line(Verb::Not, 0, 0);
const PAST: Line = line(Verb::Neg, 9, 0);
const COPIES: [Line; 3] = [line(Verb::Copy, 0, 1); 3];

#[rustfmt::skip]
const BY_HAND: [ByHand; 21] = [
    (0, LINES_MAX, [NOT; 3], SLOTS, [4, 1, 0]),
    (3, 0, [NOT; 3], SLOTS, [4, 1, 0]),
    (255, 99, [NOT; 3], SLOTS, [4, 1, 0]),
    // a line too many; a line past the count doesn't count
    (1, LINES_MAX + 1, [NOT, NOT, PAST], SLOTS, [8, 0, 0]),
    (1, usize::MAX, [NOT; 3], SLOTS, [8, 0, 0]),
    (4, LINES_MAX, [NOT; 3], SLOTS, [0, 0, 4 * LINES_MAX]),
    (4, LINES_MAX - 1, [NOT, NOT, PAST], SLOTS, [0, 0, 4 * (LINES_MAX - 1)]),
    // the source, the target, the last line; b of a verb with one number
    (2, LINES_MAX, [NOT, line(Verb::Add, 4, 0), PAST], SLOTS, [6, 19, 0]),
    (2, LINES_MAX, [NOT, NOT, line(Verb::Sub, 0, 255)], SLOTS, [6, LINES_MAX + 1, 0]),
    (2, LINES_MAX, [NOT, line(Verb::Neg, 3, 255), NOT], SLOTS, [0, 0, 2 * LINES_MAX]),
    // copies onto itself, and 6 before 7
    (2, LINES_MAX, [NOT, line(Verb::Copy, 3, 3), PAST], SLOTS, [7, 19, 0]),
    (2, LINES_MAX, [NOT, NOT, line(Verb::Copy, 0, 0)], SLOTS, [7, LINES_MAX + 1, 0]),
    (2, LINES_MAX, [NOT, line(Verb::Copy, 4, 4), NOT], SLOTS, [6, 19, 0]),
    // copies of four long words, each eight steps: too few slots, just enough, more
    (4, LINES_MAX, COPIES, STEPS_MAX - 1, [9, 0, 0]),
    (4, LINES_MAX, COPIES, STEPS_MAX, [0, 0, STEPS_MAX]),
    (4, LINES_MAX, COPIES, STEPS_MAX + 1, [0, 0, STEPS_MAX]),
    (4, LINES_MAX - 1, COPIES, STEPS_MAX - 9, [9, 0, 0]),
    (4, LINES_MAX - 1, COPIES, STEPS_MAX - 8, [0, 0, STEPS_MAX - 8]),
    (4, 1, COPIES, 7, [9, 0, 0]),
    (4, 1, COPIES, 0, [9, 0, 0]),
    (4, 0, COPIES, 0, [0, 0, 0]),
];

/// The recipes of `BY_HAND`, into rows of a step that no recipe has.
fn compare_by_hand(tally: &mut Tally) {
    for (width, count, [line, one, last], slots, told) in BY_HAND {
        let mut recipe = Recipe { width, count, lines: [line; LINES_MAX] };
        (recipe.lines[17], recipe.lines[LINES_MAX - 1]) = (one, last);
        let row = vec![Step { size: Size::Word, form: Form::Chk(1, 2), line: 68 }; slots];
        let reading = compare_recipe(&recipe, &row, tally);
        let alike = reading[..3] == told && reading[3] == 0;
        tally.count(alike, || format!("{recipe:?}: the reading {reading:?}, the row {told:?}"));
    }
}

/// Whether a recipe is such a case, by itself and by what the reading tells of it.
type Case = fn(&Recipe, Told) -> bool;

/// What must be met in recipes made by hand. Most of it no text can say.
const CASES: [(&str, Case); 12] = [
    ("accepted", |_, told| told[0] == 0),
    ("accepted, with all lines", |recipe, told| told[0] == 0 && recipe.count == LINES_MAX),
    ("a number above 9 that isn't taken", |recipe, told| {
        told[0] == 0 && recipe.lines[..recipe.count].iter().any(|line| line.b > 9)
    }),
    ("width 0", |recipe, told| told[0] == 4 && recipe.width == 0),
    ("width 3", |recipe, told| told[0] == 4 && recipe.width == 3),
    ("width 255", |recipe, told| told[0] == 4 && recipe.width == 255),
    ("a line too many", |recipe, told| told[0] == 8 && recipe.count == LINES_MAX + 1),
    ("more lines", |recipe, told| told[0] == 8 && recipe.count > LINES_MAX + 1),
    ("a digit past the numbers", |recipe, [number, line, ..]| {
        number == 6 && recipe.lines[line - 2].named().any(|n| (8 / recipe.width..10).contains(&n))
    }),
    ("a number above 9", |recipe, [number, line, ..]| {
        number == 6 && recipe.lines[line - 2].named().any(|n| n > 9)
    }),
    ("a copy onto itself", |_, told| told[0] == 7),
    ("too few slots", |_, told| told[0] == 9),
];

/// Recipes made by hand, at random.
fn compare_recipes(count: u64, random: &mut Random, tally: &mut Tally) -> bool {
    let mut met = [0; CASES.len()];
    for _ in 0..count {
        let recipe = texts::recipe(random);
        let needed = translate(&recipe, STEPS_MAX).map_or(0, |steps| steps.len());
        let row = texts::row(random, needed);
        let told = compare_recipe(&recipe, &row, tally);
        met.iter_mut().zip(CASES).for_each(|(sum, (_, is))| *sum += u64::from(is(&recipe, told)));
    }
    all_met(CASES.iter().map(|(name, _)| format!("by hand: {name}")).zip(met))
}

fn agree(texts: u64, mut random: Random) -> ExitCode {
    let recipes = texts / 10;
    let (mut of_texts, mut of_recipes) = (Tally::default(), Tally::default());
    let rows = compare_rows(&mut of_texts);
    compare_by_hand(&mut of_recipes);
    let texts_met = compare_texts(texts, &mut random, &mut of_texts);
    let recipes_met = compare_recipes(recipes, &mut random, &mut of_recipes);
    let differing = of_texts.differing + of_recipes.differing;
    let fixed = BY_HAND.len();
    println!("total: {rows} rows, {texts} texts, {fixed} and {recipes} recipes by hand, {differing} differ");
    match (differing, texts_met && recipes_met) {
        (0, true) => ExitCode::SUCCESS,
        (0, false) => ExitCode::from(2),
        _ => ExitCode::FAILURE,
    }
}

fn main() -> ExitCode {
    let words: Vec<String> = std::env::args().skip(1).collect();
    let count = words.get(1).map_or(Some(1_000_000), |word| word.parse().ok());
    if let (Some("agree"), 1 | 2, Some(count)) = (words.first().map(String::as_str), words.len(), count)
        && let Some(random) = Random::seeded()
    {
        return agree(count, random);
    }
    eprintln!("recipes: usage: recipes agree [TEXTS]; SEED, if it is set, is a number");
    ExitCode::from(2)
}
