//! The calls over whole files, kerblist, text in and text out: the library, (a), which asks no number 1 here and so is (b) as well, and
//! for (d) the oracle, which searches the window afresh and takes a text apart line by line. Nobody else knows a group's least hold, or
//! text.

use crate::clocks::worked;
use crate::peer;
use crate::script::for_oracle;
use kerb::{Mounting, Settings, FILE_BYTES, LISTING_BYTES, TEXT_BYTES};
use std::hint::black_box;

/// Makes of a file or a text what goes to the front of an output, and gives its length. The output is lent to run after run, not
/// cleared.
type Make = fn(&[u8], &mut [u8]) -> usize;

/// A call over a whole file.
pub struct Whole {
    pub name: &'static str,
    /// What the call is given of a file.
    given: fn(&[u8]) -> Vec<u8>,
    /// Bytes of an output that is always enough.
    room: usize,
    /// In the order of the contenders.
    by: [Option<Make>; 7],
}

pub const WHOLES: [Whole; 3] = [
    Whole {
        name: "kerblist",
        given: <[u8]>::to_vec,
        room: LISTING_BYTES,
        by: by(
            |file, out| kerb::list(file, out).expect("a long enough output"),
            peer::list,
            |file, out| {
                let text = oracle::listing(file);
                out[..text.len()].copy_from_slice(text.as_bytes());
                text.len()
            },
        ),
    },
    Whole {
        name: "text in",
        given: text_of,
        room: FILE_BYTES,
        by: by(
            |text, out| kerb::text_in(SETTINGS, text, out).expect("a good text"),
            |text, out| peer::text_in(SETTINGS.raw(), text, out).length,
            |text, out| oracle::text_in(for_oracle(SETTINGS), text, out).expect("a good text"),
        ),
    },
    Whole {
        name: "text out",
        given: <[u8]>::to_vec,
        room: TEXT_BYTES,
        by: by(
            |file, out| kerb::text_out(file, out).expect("a good file"),
            |file, out| peer::text_out(file, out).length,
            |file, out| oracle::text_out(file, out).expect("a good file"),
        ),
    },
];

/// The library, (a) and (d).
const fn by(library: Make, same: Make, search: Make) -> [Option<Make>; 7] {
    [
        Some(library),
        Some(same),
        None,
        None,
        None,
        None,
        Some(search),
    ]
}

/// Those given beside a text.
const SETTINGS: Settings = Settings {
    t0: 0,
    b: 100,
    n: 8,
    mounting: Mounting::Plain,
};

/// A file's links as text.
pub fn text_of(file: &[u8]) -> Vec<u8> {
    let mut text = vec![0; TEXT_BYTES];
    let length = kerb::text_out(file, &mut text).expect("a good file");
    text.truncate(length);
    text
}

/// Rounds over all files, in which all contenders take turns.
const ROUNDS: usize = 9;

/// A link file, and what it is called.
pub type Named = (&'static str, Vec<u8>);

impl Whole {
    /// Nanoseconds of the call for each file, for each contender the least of several rounds.
    pub fn times(&self, files: &[Named]) -> Vec<Vec<Option<f64>>> {
        let given: Vec<Vec<u8>> = files.iter().map(|of| (self.given)(&of.1)).collect();
        let mut least = vec![vec![u64::MAX; self.by.len()]; files.len()];
        for _ in 0..ROUNDS {
            for (given, least) in given.iter().zip(&mut least) {
                self.take_turns(given, least);
            }
        }
        let times = |least: Vec<u64>| {
            let all = self.by.iter().zip(least);
            all.map(|(make, least)| make.map(|_| least as f64))
        };
        least
            .into_iter()
            .map(|least| times(least).collect())
            .collect()
    }

    /// Everyone makes the call. Stops where what is made is not the library's.
    fn take_turns(&self, given: &[u8], least: &mut [u64]) {
        let mut expected = vec![0; self.room];
        let library = self.by[0].expect("the library comes first");
        let length = library(given, &mut expected);
        expected.truncate(length);
        let mut out = vec![0; self.room];
        for (make, least) in self.by.iter().zip(least) {
            if let Some(make) = make {
                let mut length = 0;
                let worked = worked(|| length = make(black_box(given), &mut out));
                assert!(out[..length] == expected, "not the library's {}", self.name);
                *least = worked.min(*least);
            }
        }
    }
}

#[cfg(test)]
mod tests {
    use super::WHOLES;
    use crate::scenes::{dense, file, lidar};

    #[test]
    fn all_make_what_the_library_makes() {
        for whole in WHOLES {
            for workload in [lidar(3, 20), dense(5, 70)] {
                let given = (whole.given)(&file(&workload, 1_000));
                whole.take_turns(&given, &mut [0; 7]);
            }
        }
    }
}
