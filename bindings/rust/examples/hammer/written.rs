//! Texts, sound and damaged: translated, answered into rows of any length, run.

use crate::cases::Random;
use crate::raw::{self, Registers, Row, TOLD, told_of};
use crate::recipes::{self, PRINT_MAX, STEPS_MAX, Verb};
use crate::steps::{Flags, State};
use crate::tally::Tally;
use crate::texts::KINDS;
use crate::translated::{self, Wanted};
use crate::tuned;
use gromavelush as safe;

pub fn some_state(random: &mut Random) -> State {
    let flags = Flags::of(random.bits() as u8);
    State { d: std::array::from_fn(|_| random.number()), a: std::array::from_fn(|_| random.number()), flags }
}

pub fn safe_state(state: &State) -> safe::State {
    safe::State { d: state.d, a: state.a, flags: safe::Flags::of(state.flags.ccr()) }
}

/// Into a row that is too short by some bytes, or just long enough, or long enough for any.
pub fn some_room(random: &mut Random, needed: usize) -> usize {
    match random.below(4) {
        0 => random.below(needed + 1),
        1 => needed,
        2 => needed + random.below(9),
        _ => PRINT_MAX,
    }
}

/// Whether a row holds as much of the text as there is room for, and nothing else.
pub fn holds(out: &Row<u8>, wrote: usize, text: &str, mark: u8) -> bool {
    let most = text.len().min(out.get().len());
    let (written, rest) = out.get().split_at(most);
    wrote == most
        && written == &text.as_bytes()[..most]
        && rest.iter().all(|&byte| byte == mark)
        && out.is_intact()
}

fn try_answer(random: &mut Random, text: &[u8], tally: &mut Tally) {
    let want = recipes::answer(text);
    let mark = random.bits() as u8 | 0x80;
    let mut out = Row::marked(some_room(random, want.len()), mark);
    let wrote = raw::answer(text, &mut out);
    tally.called("recipe_answer");
    tally.agrees(holds(&out, wrote, &want, mark), || {
        let shown = String::from_utf8_lossy(out.get());
        format!("recipe_answer of \"{}\": {wrote} bytes {shown:?}", text.escape_ascii())
    });
    tally.called("answer");
    let got = safe::answer(text);
    tally.agrees(got == want, || format!("answer of \"{}\": {got:?}", text.escape_ascii()));
}

/// What document 01 says of a recipe on a state: all that is told, and the state after it.
fn ran(recipe: &Wanted, mut state: State) -> ([u64; TOLD], State, u8) {
    let recipe = match recipe {
        Ok(recipe) => recipe,
        Err(refused) => {
            let told =
                told_of(&[refused.number.into(), refused.line as u64, 31, 0, 0, refused.column as u64]);
            return (told, state, state.flags.ccr());
        }
    };
    let listing = recipes::translate(recipe, STEPS_MAX).unwrap_or_default();
    let ran = tuned::run(&listing, &mut state, 0, u32::MAX);
    let last = recipe.lines[..recipe.count].last().map(|line| line.verb);
    let promised = if matches!(last, None | Some(Verb::Add | Verb::Sub | Verb::Neg)) { 31 } else { 16 };
    let told = told_of(&[0, 0, promised, ran.steps.into(), ran.clocks]);
    (told, state, state.flags.ccr() & promised as u8)
}

fn try_run(random: &mut Random, text: &[u8], recipe: &Wanted, tally: &mut Tally) {
    let before = some_state(random);
    let (should, after, flags) = ran(recipe, before);
    let dirt = random.bits() as u8 & 0xE0;
    let mut on = Registers::of(&before.d, &before.a, &[before.flags.ccr() | dirt]);
    let raw::Told(told, whole) = raw::run_recipe(text, &mut on);
    let left = (on.d.get(), on.a.get(), on.flags.get()) == (&after.d, &after.a, &[flags]);
    tally.called("recipe_run");
    tally.agrees(told == should && left && whole && on.is_intact(), || {
        format!("recipe_run of \"{}\": {told:?}, wanted {should:?}", text.escape_ascii())
    });
    let mut state = safe_state(&before);
    let got = safe::run_text(text, &mut state);
    let left = (state.d, state.a, state.flags.ccr()) == (after.d, after.a, flags);
    let agrees = match got {
        Ok(run) => {
            let all = run.flags.map_or(16, |_| 31);
            let same = run.flags.is_none_or(|told| told.ccr() == flags);
            let told = told_of(&[0, 0, all, run.steps.into(), run.clocks]);
            run.x == (flags & 16 != 0) && same && told == should
        }
        Err(safe::Refused { refusal, line, column }) => {
            told_of(&[refusal.number().into(), line as u64, 31, 0, 0, column as u64]) == should
        }
    };
    tally.called("run_text");
    tally.agrees(agrees && left, || format!("run_text of \"{}\": {got:?}", text.escape_ascii()));
}

pub fn try_one(random: &mut Random, tally: &mut Tally) {
    let kind = random.below(KINDS.len());
    let text = KINDS[kind].text(random).into_boxed_slice();
    let recipe = recipes::read(&text);
    translated::try_raw(random, &text, &recipe, tally);
    translated::try_whole(&text, &recipe, tally);
    try_answer(random, &text, tally);
    try_run(random, &text, &recipe, tally);
}
