//! Texts translated, by the C function and by the package, into rows of any length up to `LONGEST`.

use crate::cases::Random;
use crate::raw::{self, Row, Told, told_of};
use crate::recipes::{self, Recipe, Refused, STEPS_MAX};
use crate::steps::Step;
use crate::tally::Tally;
use crate::texts::{self, LONGEST};
use gromavelush as safe;

/// What document 01 says of a text: its recipe, or why it is refused.
pub type Wanted = Result<Recipe, Refused>;

/// The words of its listing, with so many slots.
fn words(want: &Wanted, slots: usize) -> Result<Vec<u64>, Refused> {
    let steps = recipes::translate(&(*want)?, slots)?;
    Ok(steps.iter().map(Step::word).collect())
}

pub fn try_raw(random: &mut Random, text: &[u8], want: &Wanted, tally: &mut Tally) {
    let needed = words(want, STEPS_MAX).map_or(0, |words| words.len());
    let length = texts::row(random, needed).len();
    let want = words(want, length);
    let should = match &want {
        Ok(words) => told_of(&[0, 0, words.len() as u64]),
        Err(refused) => told_of(&[refused.number.into(), refused.line as u64, 0, refused.column as u64]),
    };
    let mark = random.bits();
    let mut listing = Row::marked(length, mark);
    let Told(told, whole) = raw::translate(text, &mut listing);
    let steps = want.unwrap_or_default();
    let (laid, rest) = listing.get().split_at(steps.len());
    let filled = laid == steps && rest.iter().all(|&word| word == mark);
    tally.called("recipe_translate");
    tally.refused(should[0]);
    tally.agrees(told == should && filled && whole && listing.is_intact(), || {
        format!("recipe_translate \"{}\" into {length}: {told:?}, wanted {should:?}", text.escape_ascii())
    });
}

fn told(refused: safe::Refused) -> Refused {
    Refused { number: refused.refusal.number(), line: refused.line, column: refused.column }
}

pub fn try_into(random: &mut Random, text: &[u8], want: &Wanted, tally: &mut Tally) {
    let length = random.below(LONGEST + 1);
    let to = safe::D(random.bits() as u8);
    let line = random.bits() as u8;
    let blank = safe::Step { size: safe::Size::Word, form: safe::Form::Chk(safe::D(99), to), line };
    let mut slots = vec![blank; length];
    let into = safe::translate_into(text, &mut slots).map_err(told);
    let want = words(want, length);
    let number = want.as_ref().err().map_or(0, |refused| refused.number.into());
    let agrees = into == want.as_ref().map(Vec::len).map_err(|&refused| refused);
    let steps = want.unwrap_or_default();
    let (laid, rest) = slots.split_at(steps.len());
    let filled = laid.iter().map(|step| step.word()).eq(steps) && rest.iter().all(|slot| *slot == blank);
    tally.called("translate, translate_into");
    tally.refused(number);
    tally.agrees(agrees && filled, || {
        format!("translate_into \"{}\" into {length}: {into:?}", text.escape_ascii())
    });
}

pub fn try_whole(text: &[u8], want: &Wanted, tally: &mut Tally) {
    let whole = safe::translate(text).map(|listing| listing.words().to_vec()).map_err(told);
    tally.called("translate, translate_into");
    tally.agrees(whole == words(want, STEPS_MAX), || {
        format!("translate \"{}\": {whole:x?}", text.escape_ascii())
    });
}
