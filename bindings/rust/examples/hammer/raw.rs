//! The C functions as C calls them, on rows that stand between guards.

unsafe extern "C" {
    /// Numbers in, a number out.
    pub safe fn alu_call(operation: u8, size: u8, src: u32, dst: u32, flags: u8) -> u64;
    fn listing_run(
        listing: *const u64,
        length: usize,
        d: *mut u32,
        a: *mut u32,
        flags: *mut u8,
        start: usize,
        budget: u32,
        told: *mut u64,
    );
    fn rack_run(
        listing: *const u64,
        length: usize,
        d: *mut u32,
        d_length: usize,
        a: *mut u32,
        a_length: usize,
        flags: *mut u8,
        boxes: usize,
        starts: *const usize,
        starts_length: usize,
        budget: u32,
        answers: *mut u64,
        answers_length: usize,
        told: *mut u64,
    );
    fn listing_print(width: u8, listing: *const u64, length: usize, out: *mut u8, room: usize) -> usize;
    fn recipe_translate(
        text: *const u8,
        text_length: usize,
        listing: *mut u64,
        length: usize,
        told: *mut u64,
    );
    fn recipe_answer(text: *const u8, length: usize, out: *mut u8, room: usize) -> usize;
    fn recipe_run(text: *const u8, length: usize, d: *mut u32, a: *mut u32, flags: *mut u8, told: *mut u64);
}

/// Elements before and after a row.
const GUARD: usize = 16;

/// A row between guards, in memory of just that size.
pub struct Row<T> {
    cells: Vec<T>,
    mark: T,
}

impl<T: Copy + PartialEq> Row<T> {
    pub fn of(elements: &[T], mark: T) -> Row<T> {
        let guard = [mark; GUARD];
        Row { cells: [&guard, elements, &guard].concat(), mark }
    }

    pub fn marked(length: usize, mark: T) -> Row<T> {
        Row { cells: vec![mark; length + 2 * GUARD], mark }
    }

    pub fn get(&self) -> &[T] {
        &self.cells[GUARD..self.cells.len() - GUARD]
    }

    fn get_mut(&mut self) -> &mut [T] {
        let end = self.cells.len() - GUARD;
        &mut self.cells[GUARD..end]
    }

    /// Whether the guards are as they were.
    pub fn is_intact(&self) -> bool {
        let end = self.cells.len() - GUARD;
        let marked = |cells: &[T]| cells.iter().all(|cell| *cell == self.mark);
        marked(&self.cells[..GUARD]) && marked(&self.cells[end..])
    }
}

/// A register set, each row of it between guards.
pub struct Registers {
    pub d: Row<u32>,
    pub a: Row<u32>,
    pub flags: Row<u8>,
}

impl Registers {
    pub fn of(d: &[u32], a: &[u32], flags: &[u8]) -> Registers {
        Registers { d: Row::of(d, 0xA5A5_A5A5), a: Row::of(a, 0x5A5A_5A5A), flags: Row::of(flags, 0xC3) }
    }

    pub fn is_intact(&self) -> bool {
        self.d.is_intact() && self.a.is_intact() && self.flags.is_intact()
    }
}

/// The numbers that a call tells: `GRO_TOLD`.
pub const TOLD: usize = 8;

/// What is told, and whether the guards around it are whole.
pub struct Told(pub [u64; TOLD], pub bool);

/// What should be told: these numbers, and 0 in the places without a meaning.
pub fn told_of(numbers: &[u64]) -> [u64; TOLD] {
    let mut told = [0; TOLD];
    told[..numbers.len()].copy_from_slice(numbers);
    told
}

/// All ones between guards.
fn told_row() -> Row<u64> {
    Row::of(&[u64::MAX; TOLD], 0xA5A5_A5A5_A5A5_A5A5)
}

fn told(row: &Row<u64>) -> Told {
    Told(told_of(row.get()), row.is_intact())
}

pub fn run(listing: &Row<u64>, on: &mut Registers, start: usize, budget: u32) -> Told {
    let mut row = told_row();
    let Registers { d, a, flags } = on;
    // SAFETY: every pointer is of a slice, with its own length or the length that the function takes; no two rows overlap.
    unsafe {
        listing_run(
            listing.get().as_ptr(),
            listing.get().len(),
            d.get_mut().as_mut_ptr(),
            a.get_mut().as_mut_ptr(),
            flags.get_mut().as_mut_ptr(),
            start,
            budget,
            row.get_mut().as_mut_ptr(),
        );
    }
    told(&row)
}

/// The rows of a rack.
pub struct Rack {
    pub on: Registers,
    pub answers: Row<u64>,
}

pub fn rack(listing: &Row<u64>, rack: &mut Rack, starts: &Row<usize>, budget: u32) -> Told {
    let mut row = told_row();
    let Registers { d, a, flags } = &mut rack.on;
    let [d, a] = [d, a].map(Row::get_mut);
    let (flags, answers) = (flags.get_mut(), rack.answers.get_mut());
    // SAFETY: every pointer is of a slice, with its own length or the length that the function takes; no two rows overlap.
    unsafe {
        rack_run(
            listing.get().as_ptr(),
            listing.get().len(),
            d.as_mut_ptr(),
            d.len(),
            a.as_mut_ptr(),
            a.len(),
            flags.as_mut_ptr(),
            flags.len(),
            starts.get().as_ptr(),
            starts.get().len(),
            budget,
            answers.as_mut_ptr(),
            answers.len(),
            row.get_mut().as_mut_ptr(),
        );
    }
    told(&row)
}

pub fn print(width: u8, listing: &Row<u64>, out: &mut Row<u8>) -> usize {
    let (words, out) = (listing.get(), out.get_mut());
    // SAFETY: both rows are slices with their own lengths; they don't overlap.
    unsafe { listing_print(width, words.as_ptr(), words.len(), out.as_mut_ptr(), out.len()) }
}

pub fn translate(text: &[u8], listing: &mut Row<u64>) -> Told {
    let mut row = told_row();
    let slots = listing.get_mut();
    // SAFETY: text and listing are slices with their own lengths, `row` has the length that the function takes; none overlap.
    unsafe {
        recipe_translate(
            text.as_ptr(),
            text.len(),
            slots.as_mut_ptr(),
            slots.len(),
            row.get_mut().as_mut_ptr(),
        );
    }
    told(&row)
}

pub fn answer(text: &[u8], out: &mut Row<u8>) -> usize {
    let out = out.get_mut();
    // SAFETY: both rows are slices with their own lengths; they don't overlap.
    unsafe { recipe_answer(text.as_ptr(), text.len(), out.as_mut_ptr(), out.len()) }
}

pub fn run_recipe(text: &[u8], on: &mut Registers) -> Told {
    let mut row = told_row();
    let Registers { d, a, flags } = on;
    // SAFETY: the text is a slice with its own length; the other rows have the lengths that the function takes; none overlap.
    unsafe {
        recipe_run(
            text.as_ptr(),
            text.len(),
            d.get_mut().as_mut_ptr(),
            a.get_mut().as_mut_ptr(),
            flags.get_mut().as_mut_ptr(),
            row.get_mut().as_mut_ptr(),
        );
    }
    told(&row)
}
