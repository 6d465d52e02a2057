//! Request (k) of document 02: the recordings of one run by the blender and by the tank gauge, each a volume, and from which entry
//! on they are not the same. Both are read into lists of entries first, and only the lists are compared. Where the rest of a
//! recording begins is found by writing its count and the entries before the rest once more and counting their bytes.

use crate::calls;
use crate::volume::{self, Fault};

/// One of the two recordings.
#[derive(Clone, Copy, PartialEq, Debug)]
pub enum Recording {
    Blender,
    Gauge,
}

/// Why the part that is handed back is of the one recording and not of the other.
#[derive(Clone, Copy, PartialEq, Debug)]
pub enum Why {
    BothEnded,
    OtherEnded,
    SmallerRatio,
    EqualRatios,
}

/// A part of the buffer of a recording: so many bytes from this byte on.
#[derive(Clone, Copy, PartialEq, Debug)]
pub struct Part {
    pub recording: Recording,
    pub from: usize,
    pub length: usize,
}

/// What is handed back for a refused pair: the empty beginning of the blender's buffer.
pub const OF_REFUSED: Part = Part { recording: Recording::Blender, from: 0, length: 0 };

impl Part {
    /// The three numbers that the C header has for a part.
    pub fn numbers(self) -> [u64; 3] {
        let recording = match self.recording {
            Recording::Blender => 0,
            Recording::Gauge => 1,
        };
        [recording, self.from as u64, self.length as u64]
    }
}

/// What is found where neither recording is refused.
pub struct Found {
    /// The entries of the blender's recording as one list.
    pub blender: Vec<u32>,
    /// The entries of the gauge's.
    pub gauge: Vec<u32>,
    /// How many entries come before the first place where the recordings don't have the same entry.
    pub same: usize,
    pub why: Why,
    pub part: Part,
}

/// The entry in a place of a list, or none where the list has ended.
pub fn entry_at(entries: &[u32], place: usize) -> Option<&[u32]> {
    entries.chunks(4).nth(place)
}

/// The first place where two lists don't have the same entry, or where both have ended.
pub fn first_difference(blender: &[u32], gauge: &[u32]) -> usize {
    let is_same = |place: &usize| entry_at(blender, *place).is_some() && entry_at(blender, *place) == entry_at(gauge, *place);
    (0..).find(|place| !is_same(place)).unwrap()
}

/// The recording of which a part is handed back where these are the entries in that place.
fn chosen(blender: Option<&[u32]>, gauge: Option<&[u32]>) -> (Recording, Why) {
    match (blender, gauge) {
        (None, None) => (Recording::Blender, Why::BothEnded),
        (Some(_), None) => (Recording::Blender, Why::OtherEnded),
        (None, Some(_)) => (Recording::Gauge, Why::OtherEnded),
        (Some([_, _, blender, _]), Some([_, _, gauge, _])) if blender < gauge => (Recording::Blender, Why::SmallerRatio),
        (Some([_, _, blender, _]), Some([_, _, gauge, _])) if gauge < blender => (Recording::Gauge, Why::SmallerRatio),
        _ => (Recording::Blender, Why::EqualRatios),
    }
}

/// The bytes of numbers, one after another.
fn written(numbers: &[u32]) -> Vec<u8> {
    numbers.iter().flat_map(|number| calls::groups_of(*number as u64)).collect()
}

/// Compare recordings where neither is refused, or what is wrong with the pair: with the blender's, else with the gauge's.
pub fn of(blender: &[u8], gauge: &[u8]) -> Result<Found, Fault> {
    let strings = (blender, gauge);
    let (blender, gauge) = (volume::entries_of(blender)?, volume::entries_of(gauge)?);
    let same = first_difference(&blender, &gauge);
    let (recording, why) = chosen(entry_at(&blender, same), entry_at(&gauge, same));
    let (string, entries) = match recording {
        Recording::Blender => (strings.0, &blender),
        Recording::Gauge => (strings.1, &gauge),
    };
    let (before, rest) = entries.split_at(4 * same);
    let from = written(&[entries.len() as u32 / 4]).len() + written(before).len();
    let part = Part { recording, from, length: string.len() - from };
    // Reader and writer undo each other, so the rest, written once more, is the bytes that are left.
    assert!(string[from..] == written(rest), "the rest of {string:x?} from {from} on");
    Ok(Found { blender, gauge, same, why, part })
}
