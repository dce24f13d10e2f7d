//! A timetable's words and line tables as they are lent to a call, whole and harmed.
//!
//! Direct queries, store calls and queries from a store are all lent both, and put questions 8 to 10 to them before
//! they come to their own. What their tests have in common stands here: there a call is a function of the host and the
//! two slices, and of what it is asked.

use std::array::from_fn;

use crate::direct::Query;
use crate::examples::M;
use crate::ffi::{self, Reply, Tables};
use crate::host::{lent, longer, Host};
use crate::lines::{self, LINE_WORDS};
use crate::random::Random;
use crate::reference::accepted;
use crate::timetable::Timetable;
use crate::words::{to_words, TIMETABLE_WORDS};

/// Lengths above the least that a slice must have, around those that a word of 16 bits cannot count.
pub const LONGER_LENGTHS: [usize; 5] = [16_385, 65_535, 65_536, 65_537, 2 * 65_536];

/// A timetable's words and line tables as they are lent.
#[derive(Clone)]
pub struct Lent {
    pub timetable: Vec<u16>,
    pub lines: Vec<u16>,
}

impl Lent {
    pub fn new(timetable: &Timetable, random: &mut Random) -> Lent {
        Lent { timetable: lent(to_words(timetable), random), lines: lent(lines::to_words(timetable), random) }
    }

    /// The tables of a text that is accepted.
    pub fn text(text: &str) -> Lent {
        Lent::new(&accepted(text), &mut Random::new(0))
    }

    /// Slices of any words.
    pub fn any(random: &mut Random) -> Lent {
        let [timetable, lines] = [0, 1].map(|_| lent(Vec::new(), random));
        Lent { timetable, lines }
    }

    /// What reading and building write of a timetable, over any words.
    pub fn written(timetable: &Timetable, work: &mut [u32], random: &mut Random) -> Lent {
        let mut written = Lent::any(random);
        assert_eq!(ffi::read(&timetable.to_text(), &mut written.timetable).number, 0);
        assert_eq!(ffi::build_lines(&written.timetable, &mut written.lines, work).number, 0);
        written
    }

    /// A timetable's tables with a word of either changed, often by one.
    pub fn tampered(timetable: &Timetable, random: &mut Random) -> Lent {
        let mut tampered = Lent::new(timetable, random);
        let (words, length) = match random.below(2) {
            0 => (&mut tampered.timetable, to_words(timetable).len()),
            _ => (&mut tampered.lines, lines::to_words(timetable).len()),
        };
        let at = random.below(length);
        words[at] = match random.below(4) {
            0 => random.word(),
            1 => words[at].wrapping_add(1),
            2 => words[at].wrapping_sub(1),
            _ => u16::MAX,
        };
        tampered
    }

    /// The tables, which are M's, where it is asked for with a no to question 9 and with one to question 10.
    pub fn with_noes(&self, timetable: bool, lines: bool) -> Lent {
        let mut with_noes = self.clone();
        if timetable {
            with_noes.timetable = damaged(with_noes.timetable);
        }
        if lines {
            with_noes.lines[55] += 1; // M's last
        }
        with_noes
    }

    /// The tables in slices of a greater length.
    pub fn longer(&self, length: usize, random: &mut Random) -> Lent {
        let [timetable, lines] = [&self.timetable, &self.lines].map(|words| longer(words, length, random));
        Lent { timetable, lines }
    }

    /// The tables with a store beside them.
    pub fn with<'a>(&'a self, store: &'a [u16]) -> Tables<'a> {
        Tables { timetable: &self.timetable, lines: &self.lines, store }
    }

    pub fn direct(&self, host: &mut Host, query: Query) -> Reply {
        host.direct(&self.timetable, &self.lines, query)
    }

    pub fn make_store(&self, host: &mut Host, source: u32) -> Reply {
        host.make_store(&self.timetable, &self.lines, source)
    }

    pub fn cancel(&mut self, host: &mut Host, trip: u32) -> Reply {
        host.cancel_trip(&mut self.timetable, &mut self.lines, trip)
    }

    pub fn add(&mut self, host: &mut Host, trip: u32, text: impl AsRef<[u8]>) -> Reply {
        host.add_trip(&mut self.timetable, &mut self.lines, trip, text.as_ref())
    }

    /// Makes a call with long enough slices or, if there are lengths that are too short, with one slice of each of
    /// these at a time: the timetable's words, the line tables or the working space.
    pub fn lend(&self, shorts: &[usize], seed: u64, call: impl Fn(&mut Host, &[u16], &[u16])) {
        let Lent { timetable, lines } = self;
        for &short in shorts {
            call(&mut Host::new(seed), &timetable[..short], lines);
            call(&mut Host::new(seed + 1), timetable, &lines[..short]);
            call(&mut Host::lending_both(0, short, seed + 2), timetable, lines);
        }
        if shorts.is_empty() {
            call(&mut Host::new(seed + 3), timetable, lines);
        }
    }

    /// Makes a call that asks for a station that is not there: with slices of ones in the place of both tables, then of
    /// the line tables, then of neither. Fails unless it tells of its first no.
    pub fn beside_ones(&self, mut call: impl FnMut(&[u16], &[u16]) -> Reply) {
        let ones = vec![u16::MAX; TIMETABLE_WORDS];
        assert_eq!(call(&ones, &ones).number, 9);
        assert_eq!(call(&self.timetable, &ones).number, 10);
        assert_eq!(call(&self.timetable, &self.lines).number, 11);
    }
}

/// The words of a timetable with one that no text leads to: station 1 has change penalty 0.
pub fn damaged(mut timetable: Vec<u16>) -> Vec<u16> {
    timetable[4] = 0;
    timetable
}

/// For questions of these numbers, in the order in which they are put: each choice of those that have a no, with the
/// number that it must lead to, which is the first of them, or 0.
pub fn noes<const COUNT: usize>(numbers: [u32; COUNT]) -> impl Iterator<Item = ([bool; COUNT], u32)> {
    (0..1 << COUNT).map(move |choice: usize| {
        let noes = from_fn(|no| choice >> no & 1 == 1);
        let number = noes.iter().zip(numbers).find(|(no, _)| **no).map_or(0, |(_, number)| number);
        (noes, number)
    })
}

/// Queries of which a station is not among so many, or both are the same, at minutes that are there and that are not.
pub fn queries_of_wrong_stations(random: &mut Random, stations: usize) -> Vec<Query> {
    let there = random.within(1..=stations) as u32;
    let wrong = [0, stations as u32 + 1, 0xffff, 0x1_0000, 0x1_0001, 0x8000_0000, u32::MAX];
    let twos = wrong.iter().flat_map(|&wrong| [(wrong, there), (there, wrong), (wrong, wrong)]).chain([(there, there)]);
    twos.flat_map(|(from, to)| [0, 2_879, 2_880, u32::MAX].map(|minute| Query { from, to, minute })).collect()
}

/// How often each number was replied to a call for timetables of which a word of either table was tampered with.
pub fn replies_to_tampered(
    seed: u64,
    count: usize,
    timetable: impl Fn(&mut Random) -> Timetable,
    call: impl Fn(&mut Host, &Lent, &mut Random) -> Reply,
) -> [usize; 20] {
    let mut host = Host::new(seed);
    let mut random = Random::new(seed + 1);
    let mut tally = [0; 20];
    for _ in 0..count {
        let timetable = timetable(&mut random);
        let tampered = Lent::tampered(&timetable, &mut random);
        tally[call(&mut host, &tampered, &mut random).number as usize] += 1;
    }
    tally
}

/// Makes a call with any words in the place of either table or both, asking for anything; then with slices of ones,
/// asking for a station that is not there. Fails unless it refuses these tables.
pub fn lend_any_words<A: Copy>(
    seed: u64,
    count: usize,
    anything: impl Fn(&mut Random) -> A,
    not_there: A,
    call: impl Fn(&mut Host, &[u16], &[u16], A) -> Reply,
) {
    let mut host = Host::new(seed);
    let mut random = Random::new(seed + 1);
    let good = Lent::text(M);
    for _ in 0..count {
        let any = Lent::any(&mut random);
        let asked = anything(&mut random);
        let mut number = |timetable: &[u16], lines: &[u16]| call(&mut host, timetable, lines, asked).number;
        assert_eq!(number(&any.timetable, &any.lines), 9);
        assert_eq!(number(&any.timetable, &good.lines), 9);
        assert_eq!(number(&good.timetable, &any.lines), 10);
        assert_eq!(number(&good.timetable, &vec![any.lines[0]; LINE_WORDS]), 10);
        assert_eq!(number(&vec![any.timetable[0]; TIMETABLE_WORDS], &good.lines), 9);
        number(&good.timetable, &good.lines);
    }
    good.beside_ones(|timetable, lines| call(&mut host, timetable, lines, not_there));
}
