//! What the port's recipes are tried on, made of random numbers: texts, most of them sound ones that are then damaged;
//! recipes made by hand; and rows of steps to translate those into.

use crate::cases::Random;
use crate::recipes::{LINES_MAX, Line, Recipe, SLOTS, TEXT_MAX, VERBS, Verb, WIDTHS};
use crate::steps::{Step, WILD, listing_of};

/// A text before it is written out: lines of fields, the width line first.
struct Draft {
    width: u8,
    lines: Vec<Vec<String>>,
}

/// How a text of some kind is made.
#[derive(Clone, Copy)]
enum Way {
    Whole(fn(&mut Random) -> Vec<u8>),
    /// A sound draft is damaged.
    Fields(fn(&mut Random, &mut Draft)),
    /// A sound text is damaged.
    Bytes(fn(&mut Random, &mut Vec<u8>)),
}

pub struct Kind {
    pub name: &'static str,
    way: Way,
}

use Way::{Bytes, Fields, Whole};

const fn kind(name: &'static str, way: Way) -> Kind {
    Kind { name, way }
}

pub const KINDS: [Kind; 44] = [
    kind("sound", Whole(|random| sound(random).bytes())),
    kind("byte changed", Bytes(|random, text| changed(random, text))),
    kind("byte removed", Bytes(removed)),
    kind("byte inserted", Bytes(inserted)),
    kind("bytes exchanged", Bytes(|random, text| exchanged(random, text))),
    kind("cut", Bytes(|random, text| text.truncate(random.below(text.len() + 1)))),
    kind("last byte 10 missing", Bytes(|_, text| text.truncate(text.len().saturating_sub(1)))),
    kind("13 10 for 10", Bytes(|random, text| replaced(random, text, 10, b"\r\n"))),
    kind("13 for 10", Bytes(|random, text| replaced(random, text, 10, b"\r"))),
    kind("tab for 10", Bytes(|random, text| replaced(random, text, 10, b"\t"))),
    kind("tab before 10", Bytes(|random, text| replaced(random, text, 10, b"\t\n"))),
    kind("space before 10", Bytes(|random, text| replaced(random, text, 10, b" \n"))),
    kind("space after 10", Bytes(|random, text| replaced(random, text, 10, b"\n "))),
    kind("empty lines", Bytes(|random, text| replaced(random, text, 10, b"\n\n"))),
    kind("space for tab", Bytes(|random, text| replaced(random, text, 9, b" "))),
    kind("two tabs", Bytes(|random, text| replaced(random, text, 9, b"\t\t"))),
    kind("no tab", Bytes(|random, text| replaced(random, text, 9, b""))),
    kind("10 for tab", Bytes(|random, text| replaced(random, text, 9, b"\n"))),
    kind("line doubled", Fields(doubled)),
    kind("line removed", Fields(line_removed)),
    kind("field too many", Fields(field_added)),
    kind("field too few", Fields(field_removed)),
    kind("fields left off at the end", Fields(left_off)),
    kind("fields put on at the end", Fields(put_on)),
    kind("field not one digit", Fields(not_one_digit)),
    kind("digit 8 or 9", Fields(|random, draft| *draft.number(random) = random.pick(&["8", "9"]).into())),
    kind("number beyond the width", Fields(beyond)),
    kind("copy onto itself", Fields(onto_itself)),
    kind("verb in capitals", Fields(capitals)),
    kind("verb's beginning", Fields(beginning)),
    kind(
        "verb and more",
        Fields(|random, draft| draft.line(random)[0] += random.pick(&["s", "0", " ", "y", "\0"])),
    ),
    kind("another verb", Fields(|random, draft| draft.line(random)[0] = random.pick(&VERBS).1.into())),
    kind("another word", Fields(|random, draft| draft.line(random)[0] = random.pick(&OTHER_WORDS).into())),
    kind("verb and any digits", Fields(any_digits)),
    kind("width line", Fields(|random, draft| draft.lines[0] = vec![random.pick(&WIDTH_LINES).into()])),
    kind("another width", Fields(|random, draft| draft.lines[0] = width_line(random.pick(&WIDTHS)))),
    kind("any slips on a line", Whole(any_slips)),
    kind("width line, or one too many, without 10", Whole(unended)),
    kind("long line", Whole(long_line)),
    kind("line too many begun", Whole(begun)),
    kind("any bytes", Whole(any_bytes)),
    kind("any words", Whole(any_words)),
    kind("long", Whole(long)),
    kind("several of these", Whole(several)),
];

const OTHER_WORDS: [&str; 12] =
    ["", " ", "width", "move", "swap", "clr", "negx", "shl", "half", "#", "0", "\u{ff41}dd"];

const WIDTH_LINES: [&str; 31] = [
    "",
    "width",
    "width\t",
    "width\t0",
    "width\t3",
    "width\t5",
    "width\t6",
    "width\t7",
    "width\t8",
    "width\t9",
    "width\t10",
    "width\t11",
    "width\t01",
    "width\t+1",
    "width\t 1",
    "width\t1 ",
    "width\t1\t",
    "width\t1\t1",
    "width\t\t1",
    "width\t1\0",
    "width\tI",
    "width 1",
    "width1",
    "\twidth\t1",
    " width\t1",
    "Width\t1",
    "WIDTH\t1",
    "widt\t1",
    "widths\t1",
    "\u{feff}width\t1",
    "clear\t0",
];

impl Kind {
    pub fn text(&self, random: &mut Random) -> Vec<u8> {
        match self.way {
            Whole(make) => make(random),
            Fields(damage) => {
                let mut draft = sound(random);
                damage(random, &mut draft);
                draft.bytes()
            }
            Bytes(damage) => {
                let mut text = sound(random).bytes();
                damage(random, &mut text);
                text
            }
        }
    }
}

/// A place of so many, often the first or the last.
fn place(random: &mut Random, count: usize) -> usize {
    match random.below(4) {
        0 => 0,
        1 => count - 1,
        _ => random.below(count),
    }
}

fn sound_line(random: &mut Random, width: u8, verb: Verb) -> Line {
    let numbers = 8 / usize::from(width);
    let a = random.below(numbers);
    let other = (a + 1 + random.below(numbers - 1)) % numbers;
    let b = if verb != Verb::Copy && random.below(numbers) == 0 { a } else { other };
    Line { verb, a: a as u8, b: b as u8 }
}

fn fields(line: Line) -> Vec<String> {
    let (_, word, takes) = VERBS[line.verb as usize];
    let numbers = [line.a, line.b].map(|number| number.to_string());
    [word.to_string()].into_iter().chain(numbers.into_iter().take(takes)).collect()
}

fn sound_fields(random: &mut Random, width: u8) -> Vec<String> {
    let (verb, _, _) = random.pick(&VERBS);
    fields(sound_line(random, width, verb))
}

fn width_line(width: u8) -> Vec<String> {
    vec!["width".into(), width.to_string()]
}

/// A sound draft, but for a line too many at times. One in eight is of one verb alone.
fn sound(random: &mut Random) -> Draft {
    let width = random.pick(&WIDTHS);
    let count = match random.below(4) {
        0 => random.below(5),
        1 => random.pick(&[LINES_MAX - 1, LINES_MAX, LINES_MAX + 1]),
        _ => random.below(LINES_MAX + 2),
    };
    let only = (random.below(8) == 0).then(|| random.pick(&VERBS).0);
    let mut lines = vec![width_line(width)];
    for _ in 0..count {
        let verb = only.unwrap_or(random.pick(&VERBS).0);
        lines.push(fields(sound_line(random, width, verb)));
    }
    Draft { width, lines }
}

impl Draft {
    fn bytes(&self) -> Vec<u8> {
        self.lines.iter().flat_map(|fields| (fields.join("\t") + "\n").into_bytes()).collect()
    }

    /// A line of the recipe, which gets one if it has none.
    fn line(&mut self, random: &mut Random) -> &mut Vec<String> {
        if self.lines.len() < 2 {
            self.lines.push(sound_fields(random, self.width));
        }
        let at = place(random, self.lines.len() - 1);
        &mut self.lines[1 + at]
    }

    /// A field of a line that is a number.
    fn number(&mut self, random: &mut Random) -> &mut String {
        let line = self.line(random);
        if line.len() < 2 {
            line.push("0".into());
        }
        let at = 1 + random.below(line.len() - 1);
        &mut line[at]
    }
}

/// A byte, often one that means something, or nearly.
fn byte(random: &mut Random) -> u8 {
    match random.below(4) {
        0 | 1 => random.pick(&[0, 255, 9, 10, 13, 32]),
        2 => random.pick(b"0123456789/:"),
        _ => random.bits() as u8,
    }
}

fn changed(random: &mut Random, text: &mut [u8]) {
    if !text.is_empty() {
        let at = random.below(text.len());
        text[at] = byte(random);
    }
}

fn removed(random: &mut Random, text: &mut Vec<u8>) {
    if !text.is_empty() {
        text.remove(random.below(text.len()));
    }
}

fn inserted(random: &mut Random, text: &mut Vec<u8>) {
    text.insert(random.below(text.len() + 1), byte(random));
}

/// Two bytes, half of the time neighbours.
fn exchanged(random: &mut Random, text: &mut [u8]) {
    if text.len() > 1 {
        let one = random.below(text.len() - 1);
        let other = if random.below(2) == 0 { one + 1 } else { random.below(text.len()) };
        text.swap(one, other);
    }
}

/// Bytes `from` replaced, all or one.
fn replaced(random: &mut Random, text: &mut Vec<u8>, from: u8, to: &[u8]) {
    let mut places: Vec<usize> = (0..text.len()).filter(|&at| text[at] == from).collect();
    if places.is_empty() {
        return;
    }
    if random.below(4) != 0 {
        places = vec![places[place(random, places.len())]];
    }
    for at in places.into_iter().rev() {
        text.splice(at..=at, to.iter().copied());
    }
}

/// A line once more, at any place. It may be the width line.
fn doubled(random: &mut Random, draft: &mut Draft) {
    let line = draft.lines[place(random, draft.lines.len())].clone();
    draft.lines.insert(random.below(draft.lines.len() + 1), line);
}

fn line_removed(random: &mut Random, draft: &mut Draft) {
    draft.lines.remove(place(random, draft.lines.len()));
}

fn field_added(random: &mut Random, draft: &mut Draft) {
    let line = draft.line(random);
    let at = random.below(line.len() + 1);
    line.insert(at, random.pick(&["", "0", "1", "7", "x", "copy"]).into());
}

fn field_removed(random: &mut Random, draft: &mut Draft) {
    let line = draft.line(random);
    if line.len() > 1 {
        line.remove(random.below(line.len()));
    }
}

fn not_one_digit(random: &mut Random, draft: &mut Draft) {
    let field = draft.number(random);
    let digit = field.clone();
    *field = match random.below(13) {
        0 | 1 => String::new(),
        2 => format!("0{digit}"),
        3 => format!("{digit}0"),
        4 => format!("{digit}{digit}"),
        5 => format!(" {digit}"),
        6 => format!("+{digit}"),
        7 => format!("-{digit}"),
        8 => format!("D{digit}"),
        9 => format!("{digit}\r"),
        // the bytes next to the digits, and a digit that is none here
        10 => random.pick(&["/", ":", "a", "A"]).into(),
        11 => random.pick(&["\r", " ", "\0", "\u{7f}"]).into(),
        _ => "\u{661}".into(),
    };
}

/// The verb stays.
fn left_off(random: &mut Random, draft: &mut Draft) {
    let line = draft.line(random);
    let count = random.below(line.len().saturating_sub(1).max(1));
    line.truncate(1 + count);
}

/// One to three, the first of them often empty.
fn put_on(random: &mut Random, draft: &mut Draft) {
    let line = draft.line(random);
    for _ in 0..1 + random.below(3) {
        line.push(random.pick(&["", "", "0", "9", "12", "x", "\r", " "]).into());
    }
}

fn beyond(random: &mut Random, draft: &mut Draft) {
    let numbers = 8 / usize::from(draft.width);
    *draft.number(random) = (numbers + random.below(10 - numbers)).to_string();
}

fn onto_itself(random: &mut Random, draft: &mut Draft) {
    let number = random.below(8 / usize::from(draft.width)).to_string();
    *draft.line(random) = vec!["copy".into(), number.clone(), number];
}

/// All letters, or one.
fn capitals(random: &mut Random, draft: &mut Draft) {
    let word = &mut draft.line(random)[0];
    let one = random.below(word.len().max(1));
    let all = random.below(2) == 0;
    *word = word
        .chars()
        .enumerate()
        .map(|(at, letter)| if all || at == one { letter.to_ascii_uppercase() } else { letter })
        .collect();
}

fn beginning(random: &mut Random, draft: &mut Draft) {
    let word = &mut draft.line(random)[0];
    let letters = random.below(word.chars().count().max(1));
    *word = word.chars().take(letters).collect();
}

/// Any line of a verb and up to three digits. It may have more than one fault, or none.
fn any_digits(random: &mut Random, draft: &mut Draft) {
    let (_, word, takes) = random.pick(&VERBS);
    let count = if random.below(4) == 0 { random.below(4) } else { takes };
    let mut line = vec![word.to_string()];
    for _ in 0..count {
        line.push(random.below(10).to_string());
    }
    *draft.line(random) = line;
}

/// A word that mostly is a verb, and fields, half of the time as many as the verb takes, each as often a digit as not: several
/// slips, one or none.
fn any_line(random: &mut Random) -> String {
    let other = random.pick(&["", "mul", "Add", "negx", "hal", "add 0", " up", "width", "sub\r", "no\0t"]);
    let (_, verb, takes) = random.pick(&VERBS);
    let mut line = random.pick(&[verb, verb, verb, other]).to_string();
    let count = random.below(5);
    for _ in 0..random.pick(&[takes, count]) {
        let digit = random.pick(&["0", "1", "2", "4", "7", "8", "9"]);
        let other = random.pick(&["", "", "00", "10", "x", "0\r", "\r", " 1", "1 ", "-1", "\0", "/", ":"]);
        line = line + "\t" + random.pick(&[digit, other]);
    }
    line
}

/// A sound text with such a line among its lines, or as its last, with its byte 10 or without.
fn any_slips(random: &mut Random) -> Vec<u8> {
    let mut draft = sound(random);
    let at = 1 + place(random, draft.lines.len());
    draft.lines.insert(at, vec![any_line(random)]);
    if random.below(2) == 0 {
        return draft.bytes();
    }
    draft.lines.truncate(at + 1);
    let mut text = draft.bytes();
    text.truncate(text.len() - random.below(2));
    text
}

/// The width line alone, or all lines that there may be and one more, with no byte 10 at the end.
fn unended(random: &mut Random) -> Vec<u8> {
    let mut draft = sound(random);
    if random.below(2) == 0 {
        draft.lines.truncate(1);
        if random.below(2) == 0 {
            draft.lines[0] = vec![random.pick(&WIDTH_LINES).into()];
        }
    } else {
        draft.lines.resize_with(1 + LINES_MAX, || sound_fields(random, draft.width));
        draft.lines.push(vec![any_line(random)]);
    }
    let mut text = draft.bytes();
    text.pop();
    text
}

/// A sound text with a line that ends about where the program stops to read, or behind it, and has its slip in front of
/// what makes it long, or in that. The line is the text's last, and then may have no byte 10, or it is followed by others.
fn long_line(random: &mut Random) -> Vec<u8> {
    let draft = sound(random);
    let at = random.pick(&[0, 1, 1, 1, 1, 2, LINES_MAX, LINES_MAX + 1]).min(draft.lines.len());
    let written = |lines: &[Vec<String>]| Draft { width: draft.width, lines: lines.to_vec() }.bytes();
    let mut text = written(&draft.lines[..at]);
    let heads =
        ["", "x", "width\t", "neg", "neg\t", "add\t0", "add\t0\t", "neg\t0\t", "add\tx\t1\t", "copy\t\t"];
    text.extend(if random.below(4) == 0 { any_line(random) } else { random.pick(&heads).into() }.bytes());
    let past = if random.below(4) == 0 { random.below(TEXT_MAX) } else { random.below(7) };
    let length = TEXT_MAX - 4 + past;
    let fill = random.pick(b"xx00\t \r\0\xff\n");
    while text.len() < length {
        // byte 10 stands for any byte but that
        text.push(if fill == b'\n' { 11 + random.below(245) as u8 } else { fill });
    }
    let ends: [&[u8]; 6] = [b"", b"\n", b"\n", b"\t0\n", b"\t\n", b"0\n"];
    text.extend(random.pick(&ends));
    if text.ends_with(b"\n") && random.below(2) == 0 {
        text.extend(written(&draft.lines[at..]));
    }
    text
}

/// As many lines as there may be, mostly sound, and the beginning of another, or more.
fn begun(random: &mut Random) -> Vec<u8> {
    let mut draft = sound(random);
    while draft.lines.len() < 1 + LINES_MAX {
        draft.lines.push(sound_fields(random, draft.width));
    }
    draft.lines.truncate(1 + LINES_MAX);
    if random.below(4) == 0 {
        any_digits(random, &mut draft);
    }
    let mut text = draft.bytes();
    let tails = [
        "\n",
        "\0",
        "\t",
        "c",
        "clear",
        "clear\t0",
        "clear\t0\n",
        "copy\t1\t1\n",
        "width\t1\n",
        "\n\n\n",
        "",
    ];
    text.extend(random.pick(&tails).bytes());
    for _ in 0..random.below(3) {
        text.extend(random.pick(&tails).bytes());
    }
    text
}

/// The width line, half of the time.
fn headed(random: &mut Random) -> Vec<u8> {
    if random.below(2) == 0 { Vec::new() } else { format!("width\t{}\n", random.pick(&WIDTHS)).into_bytes() }
}

/// Of any bytes, or of those of one alphabet.
fn bytes_of_one_alphabet(random: &mut Random, count: usize) -> Vec<u8> {
    const ALPHABETS: [&[u8]; 8] = [
        b"",
        b"\t\n",
        b"\r\n\t ",
        b"\x00\xff",
        b"0123456789\t\n",
        b"widthcopyclearaddsubnegnothalvedownup\t\t\t01234567\n\n",
        b"up\t\t0\n",
        b" !\"#$%&'()*+,-./0123456789:;<=>?@ABCDEFGHIJKLMNOPQRSTUVWXYZ[\\]^_`abcdefghijklmnopqrstuvwxyz{|}~\t\n",
    ];
    let alphabet = random.pick(&ALPHABETS);
    (0..count)
        .map(|_| if alphabet.is_empty() { random.bits() as u8 } else { random.pick(alphabet) })
        .collect()
}

fn any_bytes(random: &mut Random) -> Vec<u8> {
    let most = random.pick(&[4, 40, TEXT_MAX + 77]);
    let count = random.below(most);
    let mut text = headed(random);
    text.extend(bytes_of_one_alphabet(random, count));
    text
}

/// Verbs, digits and what parts them, mostly in an order that makes lines.
fn any_words(random: &mut Random) -> Vec<u8> {
    let mut text = headed(random);
    for _ in 0..random.below(40) {
        let mut words = sound_fields(random, 1).join(" \t ").split(' ').map(String::from).collect::<Vec<_>>();
        words.push("\n".into());
        for word in words {
            let other = match random.below(160) {
                0 => random.pick(&VERBS).1.to_string(),
                1 => random.below(10).to_string(),
                2 => random.pick(&["\t", "\n", " ", "", "width"]).to_string(),
                _ => word,
            };
            text.extend(other.bytes());
        }
    }
    text
}

/// Of about as many bytes as the program reads, and more.
fn long(random: &mut Random) -> Vec<u8> {
    let count = TEXT_MAX - 44 + random.below(100);
    let mut text = sound(random).bytes();
    match random.below(4) {
        0 => {
            while text.len() < count {
                text.extend(
                    sound(random).lines[1..].iter().flat_map(|line| (line.join("\t") + "\n").into_bytes()),
                );
            }
        }
        1 => text = bytes_of_one_alphabet(random, count),
        2 => text.extend(bytes_of_one_alphabet(random, count)),
        _ => {
            let at = random.below(text.len() + 1);
            text.splice(at..at, vec![random.pick(b"\n\t 0x"); count]);
        }
    }
    text
}

/// Two to four damages.
fn several(random: &mut Random) -> Vec<u8> {
    let mut draft = sound(random);
    let ways: Vec<Way> = (0..2 + random.below(3)).map(|_| KINDS[random.below(KINDS.len())].way).collect();
    for way in &ways {
        if let (Fields(damage), false) = (way, draft.lines.is_empty()) {
            damage(random, &mut draft);
        }
    }
    let mut text = draft.bytes();
    for way in &ways {
        if let Bytes(damage) = way {
            damage(random, &mut text);
        }
    }
    text
}

/// A line that is sound at this width, with any `b` where that doesn't count; or one that may be unsound.
fn line_by_hand(random: &mut Random, width: u8, is_sound: bool) -> Line {
    let (verb, _, takes) = random.pick(&VERBS);
    if is_sound && WIDTHS.contains(&width) {
        let line = sound_line(random, width, verb);
        return if takes == 1 { Line { b: random.bits() as u8, ..line } } else { line };
    }
    let mut number = || if random.below(8) == 0 { random.bits() as u8 } else { random.below(9) as u8 };
    let (a, b) = (number(), number());
    match random.below(4) {
        0 => Line { verb: Verb::Copy, a: a % 8, b: a % 8 },
        1 => Line { verb: Verb::Copy, a: a % 2, b: a % 2 },
        _ => Line { verb, a, b },
    }
}

/// A recipe made by hand: mostly of a width that there is, and of lines that are sound but for one in none, 32 or 2.
pub fn recipe(random: &mut Random) -> Recipe {
    let width = match random.below(16) {
        0 => random.bits() as u8,
        1 => random.pick(&[0, 3, 5, 6, 7, 8, 9, 255]),
        _ => random.pick(&WIDTHS),
    };
    let count = match random.below(16) {
        0 => random.pick(&[LINES_MAX + 1, 0xFF, 0x100, 1 << 32, (1 << 32) + 1, usize::MAX - 1, usize::MAX]),
        1 => random.below(41),
        2 => LINES_MAX,
        _ => random.below(LINES_MAX + 1),
    };
    let unsound = random.pick(&[0, 1, 16]);
    let mut recipe = Recipe { width, count, ..Recipe::empty(width) };
    for (at, line) in recipe.lines.iter_mut().enumerate() {
        let is_sound = at < count && random.below(32) >= unsound;
        *line = line_by_hand(random, width, is_sound);
    }
    recipe
}

/// The longest row to translate into, or to run: longer than a listing.
pub const LONGEST: usize = SLOTS + 44;

/// A row to translate into: of about so many slots as are needed, or of any number up to `LONGEST`.
pub fn row(random: &mut Random, needed: usize) -> Vec<Step> {
    let length = match random.below(3) {
        0 => (needed + random.below(3)).saturating_sub(1),
        1 => needed + random.below(LONGEST + 1 - needed),
        _ => random.below(LONGEST + 1),
    };
    let seeds = [random.bits() as u32, random.bits() as u32];
    seeds.into_iter().flat_map(|seed| listing_of(WILD, seed)).take(length).collect()
}
