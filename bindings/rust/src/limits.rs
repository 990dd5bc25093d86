//! The limits. `bindings/c/gromavelush.h` has the same.

/// As many lines as a recipe may have.
pub const MOST_LINES: usize = 32;

/// As many steps as a listing may have: `GRO_SLOTS`, and `SLOTS` of the crate step.
pub const MOST_STEPS: usize = 256;

/// As many steps as a recipe may have, so that so many slots are enough for any: `GRO_STEPS`, and `STEPS_MAX` of recipes.
pub const RECIPE_STEPS: usize = 256;

/// As many boxes as a rack may have: `GRO_BOXES`, and `BOXES_MAX` of the crate step.
pub const MOST_BOXES: usize = 64;

/// Bytes enough for what is printed of any listing.
pub(crate) const ROOM: usize = 24_576;

/// The numbers that a call of the library tells: `GRO_TOLD`. Those without a meaning are 0.
pub(crate) const TOLD: usize = 8;

// what a recipe is translated to is a listing
const _: () = assert!(RECIPE_STEPS <= MOST_STEPS);

#[cfg(test)]
mod tests {
    use super::*;

    /// What the header defines a name as.
    fn defined(name: &str) -> Option<usize> {
        let header = include_str!("../../c/gromavelush.h");
        header.lines().find_map(|line| match line.split_whitespace().collect::<Vec<_>>()[..] {
            ["#define", defined, number, ..] if defined == name => number.parse().ok(),
            _ => None,
        })
    }

    #[test]
    fn the_header_has_the_same_limits() {
        let limits = [
            ("GRO_LINES", MOST_LINES),
            ("GRO_SLOTS", MOST_STEPS),
            ("GRO_STEPS", RECIPE_STEPS),
            ("GRO_ROOM", ROOM),
            ("GRO_TOLD", TOLD),
            ("GRO_BOXES", MOST_BOXES),
        ];
        for (name, limit) in limits {
            assert_eq!(defined(name), Some(limit), "{name}");
        }
    }
}
