//! The racks of examples/racks.tsv, and exactly what becomes of each; the file's head says how it stands there. In plain numbers,
//! so that other tests can take this file too.

#[derive(Clone, Copy, PartialEq, Debug, Default)]
pub struct Set {
    pub d: [u32; 8],
    pub a: [u32; 8],
    /// X 16, N 8, Z 4, V 2, C 1
    pub flags: u8,
}

/// One set of a rack, and its start place.
#[derive(Clone)]
pub struct Boxed {
    pub set: Set,
    pub start: usize,
    /// Of a rack that is run: what `listing_run` tells of the box, and the set as it is left.
    pub left: Option<([u64; 6], Set)>,
}

pub struct Example {
    pub name: String,
    /// operation, size, the source's kind and number, the destination's number
    pub steps: Vec<[u8; 5]>,
    pub budget: u32,
    /// how many start places and slots there are
    pub starts: usize,
    pub slots: usize,
    pub number: u64,
    /// how many boxes are run
    pub run: usize,
    pub boxes: Vec<Boxed>,
}

fn step(text: &str) -> Option<[u8; 5]> {
    let numbers: Result<Vec<u8>, _> = text.split(' ').map(str::parse).collect();
    numbers.ok()?.try_into().ok()
}

fn steps(field: &str) -> Option<Vec<[u8; 5]>> {
    if field.is_empty() { Some(vec![]) } else { field.split(", ").map(step).collect() }
}

fn hex(digits: &str) -> Option<u32> {
    let plain = (1..=8).contains(&digits.len()) && digits.bytes().all(|byte| byte.is_ascii_hexdigit());
    u32::from_str_radix(digits, 16).ok().filter(|_| plain)
}

/// A set in the bench's words; what isn't named is 0.
fn set(field: &str) -> Option<Set> {
    let mut set = Set::default();
    for word in field.split(' ').filter(|word| !word.is_empty()) {
        let (name, value) = word.split_once('=')?;
        match *name.as_bytes() {
            [b'D', number @ b'0'..=b'7'] => set.d[usize::from(number - b'0')] = hex(value)?,
            [b'A', number @ b'0'..=b'7'] => set.a[usize::from(number - b'0')] = hex(value)?,
            [flag] => {
                let at = b"XNZVC".iter().position(|&name| name == flag)?;
                set.flags |= u8::from(["0", "1"].iter().position(|&bit| bit == value)? == 1) << (4 - at);
            }
            _ => return None,
        }
    }
    Some(set)
}

/// Which end, the trap's class or the refusal's number, and the place.
fn end(field: &str) -> Option<[u64; 3]> {
    let words: Vec<&str> = field.split(' ').collect();
    Some(match words[..] {
        ["Finished"] => [0, 0, 0],
        ["Budget"] => [1, 0, 0],
        ["Trapped", class, place] => [2, class.parse().ok()?, place.parse().ok()?],
        ["Refused", number, place] => [3, number.parse().ok()?, place.parse().ok()?],
        _ => return None,
    })
}

/// A rack without its boxes; of so many sets.
fn rack(fields: &[&str]) -> Option<(Example, usize)> {
    let [name, listing, budget, sets, starts, slots, number, run] = *fields else { return None };
    let example = Example {
        name: name.into(),
        steps: steps(listing)?,
        budget: budget.parse().ok()?,
        starts: starts.parse().ok()?,
        slots: slots.parse().ok()?,
        number: number.parse().ok()?,
        run: run.parse().ok()?,
        boxes: vec![],
    };
    Some((example, sets.parse().ok()?))
}

/// Some boxes that are alike.
fn boxes(fields: &[&str]) -> Option<Vec<Boxed>> {
    let (count, before, start, rest) = match *fields {
        [count, before, start, ref rest @ ..] => {
            (count.parse().ok()?, set(before)?, start.parse().ok()?, rest)
        }
        _ => return None,
    };
    let left = match *rest {
        [] => None,
        [how, next, steps, clocks, after] => {
            let ([end, which, place], after) = (end(how)?, set(after)?);
            let rest = [next, steps, clocks].map(|field| field.parse().ok());
            Some(([end, which, place, rest[0]?, rest[1]?, rest[2]?], after))
        }
        _ => return None,
    };
    Some(vec![Boxed { set: before, start, left }; count])
}

/// One line; `sets` has how many each rack must have in the end.
fn take(line: &str, found: &mut Vec<Example>, sets: &mut Vec<usize>) -> Option<()> {
    let fields: Vec<&str> = line.split('\t').collect();
    match fields[0] {
        "rack" => {
            let (example, count) = rack(&fields[1..])?;
            found.push(example);
            sets.push(count);
        }
        "box" => found.last_mut()?.boxes.extend(boxes(&fields[1..])?),
        _ => return None,
    }
    Some(())
}

/// All racks of the file at that path. A line that doesn't read, a rack with other boxes than it says, or no rack is a fault of the
/// tests' own.
pub fn examples(path: &str) -> Vec<Example> {
    let file = std::fs::read_to_string(path).unwrap_or_else(|error| panic!("{path}: {error}"));
    let (mut found, mut sets) = (vec![], vec![]);
    for line in file.lines().filter(|line| !line.starts_with('#')) {
        take(line, &mut found, &mut sets).unwrap_or_else(|| panic!("{path}: no row: {line}"));
    }
    assert!(!found.is_empty(), "{path}: no rack");
    for (example, sets) in found.iter().zip(sets) {
        let run = example.boxes.iter().filter(|each| each.left.is_some()).count();
        let whole = example.boxes.len() == sets && run == example.run;
        assert!(whole, "{path}: not the boxes of the rack: {}", example.name);
    }
    found
}
