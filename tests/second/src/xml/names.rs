//! The list of names that a reader is lent, and the numbers that it gives.

use super::chars::is_name;
use super::MOST_NAME_BYTES;
use std::collections::HashMap;

/// "It has at most 65,533 names."
pub const MOST_NAMES: usize = 65_533;
/// "65,534 for a name that the list has not"
pub const UNKNOWN: u16 = 65_534;

/// Why a list is refused: 47, 48 or 49, and the first line at fault, from 1.
#[derive(Clone, Copy, Debug, PartialEq, Eq)]
pub struct Refused {
    pub number: u8,
    pub line: usize,
}

/// An admitted list: each name's first place, from 1.
#[derive(Clone, Debug)]
pub struct Names<'l>(HashMap<&'l [u8], u16>);

impl Names<'_> {
    pub fn read(list: &[u8]) -> Result<Names<'_>, Refused> {
        let mut places = HashMap::new();
        for (place, line) in (1..).zip(lines_of(list)) {
            if let Some(number) = fault(place, line) {
                return Err(Refused { number, line: place });
            }
            places.entry(line).or_insert(place as u16);
        }
        Ok(Names(places))
    }

    pub fn number(&self, name: &[u8]) -> u16 {
        self.0.get(name).copied().unwrap_or(UNKNOWN)
    }
}

/// "one name a line, each line ended by a line feed, which may be missing after the last"
pub fn lines_of(list: &[u8]) -> impl Iterator<Item = &[u8]> {
    list.split_inclusive(|byte| *byte == b'\n').map(|line| line.strip_suffix(b"\n").unwrap_or(line))
}

/// "of a line that is both over the 65,533 and at fault otherwise, 47"
fn fault(place: usize, line: &[u8]) -> Option<u8> {
    match line {
        _ if place > MOST_NAMES => Some(47),
        _ if !is_name(line) => Some(49),
        _ if line.len() > MOST_NAME_BYTES => Some(48),
        _ => None,
    }
}
