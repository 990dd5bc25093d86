//! The same code at several places. It differs by 3 to 30 % with its place in a program, so that one place says little.
//! compare/run makes shared objects of one archive, each with another number of bytes before the code that are never run,
//! and here they are all opened.

use crate::timing::{Way, best};
use std::ffi::{CStr, CString, c_char, c_int, c_void};
use std::marker::PhantomData;
use std::path::Path;
use std::process::ExitCode;

unsafe extern "C" {
    fn dlopen(path: *const c_char, mode: c_int) -> *mut c_void;
    fn dlsym(object: *mut c_void, name: *const c_char) -> *mut c_void;
    fn dlerror() -> *const c_char;
}

/// What is missing is found when it is opened, not when it is called.
const NOW: c_int = 2;

/// So many pairs of runs of what lies there, a listing or a text; a digest of the last one.
type Rounds = unsafe extern "C" fn(*const c_void, usize, usize) -> u64;

/// Rounds by their name, and what they are to run.
#[derive(Clone, Copy)]
pub struct Ask<'a> {
    name: &'a str,
    at: *const c_void,
    length: usize,
    input: PhantomData<&'a ()>,
}

impl<'a> Ask<'a> {
    /// The rounds of that name must be for T's.
    pub fn new<T>(name: &'a str, input: &'a [T]) -> Ask<'a> {
        Ask { name, at: input.as_ptr().cast(), length: input.len(), input: PhantomData }
    }
}

/// A shared object at one place.
pub struct Place(*mut c_void);

fn wanted(found: *mut c_void) -> Result<*mut c_void, String> {
    if found.is_null() {
        // SAFETY: after a failure it is a text, which is copied at once.
        return Err(unsafe { CStr::from_ptr(dlerror()) }.to_string_lossy().into_owned());
    }
    Ok(found)
}

fn text(name: &str) -> Result<CString, String> {
    CString::new(name).map_err(|error| error.to_string())
}

impl Place {
    fn open(path: &Path) -> Result<Place, String> {
        let path = text(&path.to_string_lossy())?;
        // SAFETY: a shared object of this project, whose code does nothing when it is opened.
        wanted(unsafe { dlopen(path.as_ptr(), NOW) }).map(Place)
    }

    fn rounds(&self, name: &str) -> Result<Rounds, String> {
        let name = text(name)?;
        // SAFETY: the object is open, and stays so.
        let found = wanted(unsafe { dlsym(self.0, name.as_ptr()) })?;
        // SAFETY: all functions that are asked for have this type.
        Ok(unsafe { std::mem::transmute::<*mut c_void, Rounds>(found) })
    }
}

/// All shared objects of a folder, in the order of their names.
pub fn opened(folder: &str) -> Result<Vec<Place>, String> {
    let entries = std::fs::read_dir(folder).map_err(|error| format!("{folder}: {error}"))?;
    let mut paths: Vec<_> = entries.flatten().map(|entry| entry.path()).collect();
    paths.retain(|path| path.extension().is_some_and(|end| end == "so"));
    paths.sort();
    paths.iter().map(|path| Place::open(path)).collect()
}

/// Nanoseconds a run: for all that is asked, those at each place. The best of so many turns counts; all take turns, and must
/// have the same digest.
pub fn costs(places: &[Place], asked: &[Ask], pairs: usize, turns: u32) -> Result<Vec<Vec<f64>>, String> {
    let mut rounds = Vec::new();
    for place in places {
        for ask in asked {
            let run = place.rounds(ask.name)?;
            // SAFETY: the pointer and the length are of one slice, and these rounds are for such slices.
            rounds.push(move || unsafe { run(ask.at, ask.length, pairs) });
        }
    }
    let ways: Vec<Way> = rounds.iter().map(|run| run as Way).collect();
    let seconds = best(turns, &ways).ok_or_else(|| format!("DIFFERS: {}", names(asked)))?;
    let ns = |way| seconds.iter().skip(way).step_by(asked.len()).map(|s| s / (2 * pairs) as f64 * 1e9);
    Ok((0..asked.len()).map(|way| ns(way).collect()).collect())
}

fn names(asked: &[Ask]) -> String {
    asked.iter().map(|ask| ask.name).collect::<Vec<&str>>().join(", ")
}

/// The end of a program that measures: 1 if ways differ, 2 if they could not be compared.
pub fn ended(measured: Result<(), String>) -> ExitCode {
    let Err(why) = measured else { return ExitCode::SUCCESS };
    println!("{why}");
    if why.starts_with("DIFFERS") { ExitCode::FAILURE } else { ExitCode::from(2) }
}

pub fn mean(costs: &[f64]) -> f64 {
    costs.iter().sum::<f64>() / costs.len() as f64
}

/// The least and the greatest.
pub fn spread(costs: &[f64]) -> String {
    let by = |pick: fn(f64, f64) -> f64| costs.iter().copied().reduce(pick).unwrap_or_default();
    format!("{:.2}-{:.2}", by(f64::min), by(f64::max))
}
