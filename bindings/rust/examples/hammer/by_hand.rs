//! Recipes made by hand, which the package prints as texts: of any width and any numbers, with too many lines, and with copies of a
//! number onto itself.

use crate::cases::Random;
use crate::recipes::{self, LINES_MAX, Line, Recipe, Refused, WIDTHS};
use crate::tally::Tally;
use crate::texts;
use crate::translated::{self, Wanted};
use gromavelush as safe;

/// A recipe of the package, of as many lines as `count` says, within reason.
fn made_of(recipe: &Recipe) -> safe::Recipe {
    let line = |line: &Line| safe::Line { verb: safe::Verb::ALL[line.verb as usize], a: line.a, b: line.b };
    let lines = recipe.lines.iter().cycle().take(recipe.count.min(100)).map(line).collect();
    safe::Recipe { width: recipe.width, lines }
}

/// What is wrong with the line at a place, and the column: there are too many, a number has more than one digit, there is no such
/// number, or it is copied onto itself.
fn fault(width: u8, at: usize, line: &safe::Line) -> Option<(u8, usize)> {
    let numbers = if line.verb.takes_two() { vec![line.a, line.b] } else { vec![line.a] };
    let first = |limit: u8| numbers.iter().position(|&number| number >= limit);
    if at == LINES_MAX {
        Some((8, 0))
    } else if let Some(which) = first(10) {
        // behind the verb's tab, and behind a number of one digit and its tab
        Some((13, line.to_string().find('\t').unwrap_or_default() + 2 + 2 * which))
    } else if first(8 / width).is_some() {
        Some((6, 0))
    } else if line.verb == safe::Verb::Copy && line.a == line.b {
        Some((7, 0))
    } else {
        None
    }
}

/// What document 01 says of the text that is printed: the first fault, or the recipe.
fn wanted(recipe: &Recipe, made: &safe::Recipe) -> Wanted {
    if !WIDTHS.contains(&made.width) {
        return Err(Refused { number: 4, line: 1, column: 0 });
    }
    let mut faults = made.lines.iter().enumerate().filter_map(|(at, line)| {
        fault(made.width, at, line).map(|(number, column)| Refused { number, line: at + 2, column })
    });
    faults.next().map_or(Ok(*recipe), Err)
}

pub fn try_one(random: &mut Random, tally: &mut Tally) {
    let recipe = texts::recipe(random);
    let made = made_of(&recipe);
    let want = wanted(&recipe, &made);
    let text = made.to_string().into_bytes().into_boxed_slice();
    let read = recipes::read(&text);
    tally.agrees(read.as_ref().err() == want.as_ref().err(), || {
        format!("the text of {made:?}: {read:?}, wanted {want:?}")
    });
    translated::try_raw(random, &text, &want, tally);
    translated::try_into(random, &text, &want, tally);
    translated::try_whole(&text, &want, tally);
}
