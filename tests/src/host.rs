//! A display's host: it lends words to the calls and looks at what they did with them.

use std::fmt::{Debug, Display};
use std::ops::Not;

use crate::direct::{Query, ROW_WORDS};
use crate::expected::{self, Change, Expected};
use crate::ffi::{self, Reply, Tables};
use crate::lines::{self, LINE_WORDS, WORK_WORDS};
use crate::random::Random;
use crate::store::STORE_WORDS_MOST;
use crate::timetable::{trip_text, Timetable, TEXT_BYTES_MOST};
use crate::words::{timetable_of, to_words, TIMETABLE_WORDS};

/// Words on either side of a lent slice, which no call may touch.
const FENCE: usize = 32;
/// The words that are lent for an answer, where a test does not ask for less: those of more rows than there ever are.
pub const ANSWER_WORDS: usize = 512 * ROW_WORDS;

/// The same for the answer of a query from a store.
pub const QUERY_WORDS: usize = 16_384;
/// The words that are lent for a store, where a test does not ask for less: more than any store has.
pub const STORE_WORDS: usize = STORE_WORDS_MOST + 2;

/// Every call is made twice, over words that differ in every bit: whatever a call writes then shows at least once.
pub struct Host {
    loans: [Loan<u16>; 2],
    works: [Loan<u32>; 2],
    answers: [Loan<u32>; 2],
    stores: [Loan<u16>; 2],
}

struct Loan<W> {
    entry: Vec<W>,
    words: Vec<W>,
}

impl Host {
    /// A host that lends `length` words for a result, and `work_length` words of working space.
    pub fn lending_both(length: usize, work_length: usize, seed: u64) -> Host {
        let mut random = Random::new(seed);
        let loans = Loan::pair(length, || random.word());
        let works = Loan::pair(work_length, || random.bits() as u32);
        let answers = Loan::pair(ANSWER_WORDS.max(QUERY_WORDS), || random.bits() as u32);
        let stores = Loan::pair(STORE_WORDS, || random.word());
        Host { loans, works, answers, stores }
    }

    /// A host that lends `length` words for a result.
    pub fn lending(length: usize, seed: u64) -> Host {
        Host::lending_both(length, WORK_WORDS, seed)
    }

    /// A host that lends as many words as question 8 asks for.
    pub fn new(seed: u64) -> Host {
        Host::lending(TIMETABLE_WORDS, seed)
    }

    /// Has `text` read, and fails unless the reply and every word are the reference's. Returns the reply.
    pub fn read(&mut self, text: &[u8]) -> Reply {
        let (expected, result) = expected::read(text, self.loans[0].length());
        for loan in &mut self.loans {
            let reply = ffi::read(text, loan.slice());
            assert_eq!(reply, expected, "the reply (left) and the reference's, for the text\n{}", excerpt(text));
            if let Err(difference) = loan.settle(&result) {
                panic!("{difference} after {reply:?} for the text\n{}", excerpt(text));
            }
        }
        expected
    }

    /// As `read`, and fails unless the reply is the one given, which document 01 asks for.
    pub fn expect_read(&mut self, text: impl AsRef<[u8]>, number: u32, beside: u32) {
        let text = text.as_ref();
        assert_eq!(self.read(text), Reply { number, beside }, "for the text\n{}", excerpt(text));
    }

    /// Asks question 9 of `words`, and fails unless the reply is the reference's and a yes is led to. Returns the
    /// reply's number.
    pub fn check_timetable(&mut self, words: &[u16]) -> u32 {
        let before = words.to_vec();
        let reply = ffi::check_timetable(words);
        assert!(words == before, "the words changed while they were checked");
        let timetable = timetable_of(words);
        let number = match &timetable {
            _ if words.len() < TIMETABLE_WORDS => 8,
            Some(_) => 0,
            None => 9,
        };
        let expected = Reply { number, beside: 0 };
        assert_eq!(reply, expected, "the reply (left) and the reference's, for the words\n{}", first_words(words));
        if let (0, Some(timetable)) = (number, timetable) {
            self.lead_to(&timetable, words);
        }
        number
    }

    /// Fails unless the table that `words` begins with is written by reading or, where there are gaps, by reading the
    /// stations alone and adding the trips.
    fn lead_to(&mut self, timetable: &Timetable, words: &[u16]) {
        let mut written = vec![0; TIMETABLE_WORDS];
        let text = timetable.to_text();
        let numbered = timetable.trips.keys().copied().eq(1..=timetable.trips.len() as u16);
        if numbered && text.len() <= TEXT_BYTES_MOST {
            assert_eq!(self.read(&text).number, 0);
            ffi::read(&text, &mut written);
        } else {
            let (mut lines, mut work) = (vec![0; LINE_WORDS], vec![0; WORK_WORDS]);
            assert_eq!(ffi::read(&timetable.without_trips().to_text(), &mut written).number, 0);
            assert_eq!(ffi::build_lines(&written, &mut lines, &mut work).number, 0);
            for (&trip, stops) in &timetable.trips {
                let text = trip_text(trip.into(), stops);
                let reply = ffi::add_trip(&mut written, &mut lines, &mut work, trip.into(), text.as_bytes());
                assert_eq!(reply.number, 0, "adding\n{text}");
            }
        }
        let length = to_words(timetable).len();
        assert_eq!(written[..length], words[..length], "the words of\n{timetable}");
    }

    /// Has the line tables of a timetable's words built, and fails unless the reply and every word are the
    /// reference's. Returns the reply.
    pub fn build_lines(&mut self, timetable: &[u16]) -> Reply {
        let expected = expected::build_lines(timetable, self.loans[0].length(), self.works[0].length());
        let call = |lines: &mut [u16], work: &mut [u32]| ffi::build_lines(timetable, lines, work);
        compare(&mut self.loans, &mut self.works, &[timetable], &"building", expected, call)
    }

    /// As `build_lines`, and fails unless the reply is the one given, which document 01 asks for.
    pub fn expect_lines(&mut self, timetable: &[u16], number: u32, beside: u32) {
        assert_eq!(self.build_lines(timetable), Reply { number, beside }, "for {}", first_words(timetable));
    }

    /// Asks question 10 of line tables lent with a timetable, and fails unless the reply is the reference's and nothing
    /// but working space was written. Returns the reply's number.
    pub fn check_lines(&mut self, timetable: &[u16], lines: &[u16]) -> u32 {
        let expected = expected::check_lines(timetable, lines, self.works[0].length());
        self.ask(&[timetable, lines], &"question 10", expected, |work| ffi::check_lines(timetable, lines, work)).number
    }

    /// As `check_lines`, of line tables lent alone.
    pub fn check_lines_alone(&mut self, lines: &[u16]) -> u32 {
        let expected = expected::check_lines_alone(lines, self.works[0].length());
        self.ask(&[lines], &"question 10 alone", expected, |work| ffi::check_lines_alone(lines, work)).number
    }

    /// Asks for the piece of one line, and fails unless the reply is the reference's and nothing but working space was
    /// written. Returns the reply.
    pub fn line_trips(&mut self, lines: &[u16], line: u32) -> Reply {
        let expected = expected::line_trips(lines, self.works[0].length(), line);
        self.ask(&[lines], &("line", line), expected, |work| ffi::line_trips(lines, work, line))
    }

    /// Has line tables translated to times by trip, and fails unless the reply and every word are the reference's.
    /// Returns the reply.
    pub fn times_by_trip(&mut self, timetable: &[u16], lines: &[u16]) -> Reply {
        let expected = expected::times_by_trip(timetable, lines, self.works[0].length(), self.loans[0].length());
        let call = |other: &mut [u16], work: &mut [u32]| ffi::times_by_trip(timetable, lines, work, other);
        compare(&mut self.loans, &mut self.works, &[timetable, lines], &"to times by trip", expected, call)
    }

    /// As `times_by_trip`, of line tables with times by trip to times by stop.
    pub fn times_by_stop(&mut self, timetable: &[u16], other: &[u16]) -> Reply {
        let expected = expected::times_by_stop(timetable, other, self.works[0].length(), self.loans[0].length());
        let call = |lines: &mut [u16], work: &mut [u32]| ffi::times_by_stop(timetable, other, work, lines);
        compare(&mut self.loans, &mut self.works, &[timetable, other], &"to times by stop", expected, call)
    }

    /// Makes a call that has no result slice.
    fn ask(
        &mut self,
        lent: &[&[u16]],
        asked: &dyn Debug,
        expected: Reply,
        call: impl Fn(&mut [u32]) -> Reply,
    ) -> Reply {
        compare(&mut self.answers, &mut self.works, lent, asked, (expected, Vec::new()), |_, work| call(work))
    }

    /// Makes a direct query, and fails unless the reply and every word of the answer are the reference's. Returns the
    /// reply.
    pub fn direct(&mut self, timetable: &[u16], lines: &[u16], query: Query) -> Reply {
        self.direct_to(timetable, lines, query, ANSWER_WORDS)
    }

    /// As `direct`, with so many words lent for the answer, at most `ANSWER_WORDS`.
    pub fn direct_to(&mut self, timetable: &[u16], lines: &[u16], query: Query, length: usize) -> Reply {
        let expected = expected::direct(timetable, lines, self.works[0].length(), query, length);
        let call =
            |answer: &mut [u32], work: &mut [u32]| ffi::direct(timetable, lines, work, query, &mut answer[..length]);
        compare(&mut self.answers, &mut self.works, &[timetable, lines], &(query, length), expected, call)
    }

    /// Has the store of a source made, and fails unless the reply and every word are the reference's. Returns the
    /// reply.
    pub fn make_store(&mut self, timetable: &[u16], lines: &[u16], source: u32) -> Reply {
        self.make_store_in(timetable, lines, source, STORE_WORDS)
    }

    /// As `make_store`, with so many words lent for the store, at most `STORE_WORDS`.
    pub fn make_store_in(&mut self, timetable: &[u16], lines: &[u16], source: u32, length: usize) -> Reply {
        let expected = expected::make_store(timetable, lines, self.works[0].length(), source, length);
        self.make_store_as(timetable, lines, source, length, expected)
    }

    /// As `make_store_in`, where what it must reply and write is known.
    pub fn make_store_as(
        &mut self,
        timetable: &[u16],
        lines: &[u16],
        source: u32,
        length: usize,
        expected: Expected<u16>,
    ) -> Reply {
        let call =
            |store: &mut [u16], work: &mut [u32]| ffi::make_store(timetable, lines, work, source, &mut store[..length]);
        let asked = ("the store of", source, length);
        compare(&mut self.stores, &mut self.works, &[timetable, lines], &asked, expected, call)
    }

    /// Makes a query from a store, and fails unless the reply and every word of the answer are the reference's. Returns
    /// the reply.
    pub fn query(&mut self, tables: Tables, query: Query) -> Reply {
        self.query_to(tables, query, QUERY_WORDS)
    }

    /// As `query`, with so many words lent for the answer, at most `QUERY_WORDS`.
    pub fn query_to(&mut self, tables: Tables, query: Query, length: usize) -> Reply {
        let expected = expected::query(tables, self.works[0].length(), query, length);
        self.query_as(tables, query, length, expected)
    }

    /// As `query_to`, where what it must reply and write is known.
    pub fn query_as(&mut self, tables: Tables, query: Query, length: usize, expected: Expected<u32>) -> Reply {
        let call = |answer: &mut [u32], work: &mut [u32]| ffi::query(tables, work, query, &mut answer[..length]);
        let lent = [tables.timetable, tables.lines, tables.store];
        compare(&mut self.answers, &mut self.works, &lent, &(query, length), expected, call)
    }

    /// Has a trip cancelled, and fails unless the reply and every word of both slices are the reference's. Returns the
    /// reply; the words are as the call leaves them.
    pub fn cancel_trip(&mut self, timetable: &mut [u16], lines: &mut [u16], trip: u32) -> Reply {
        let expected = expected::cancel_trip(timetable, lines, self.works[0].length(), trip);
        self.change([timetable, lines], &("cancelling", trip), expected, |timetable, lines, work| {
            ffi::cancel_trip(timetable, lines, work, trip)
        })
    }

    /// As `cancel_trip`, adding a trip by its lines.
    pub fn add_trip(&mut self, timetable: &mut [u16], lines: &mut [u16], trip: u32, text: &[u8]) -> Reply {
        let expected = expected::add_trip(timetable, lines, self.works[0].length(), trip, text);
        let asked = format!("adding {trip} by\n{}", excerpt(text));
        self.change([timetable, lines], &asked, expected, |timetable, lines, work| {
            ffi::add_trip(timetable, lines, work, trip, text)
        })
    }

    /// Makes a call that changes both tables, the second time over other words past them.
    fn change(
        &mut self,
        tables: [&mut [u16]; 2],
        asked: &dyn Debug,
        (expected, after): Change,
        call: impl Fn(&mut [u16], &mut [u16], &mut [u32]) -> Reply,
    ) -> Reply {
        let words = |timetable: Timetable| [to_words(&timetable), lines::to_words(&timetable)];
        // 8 to 10: there may be no tables, and so no words past them
        let judged = if (8..=10).contains(&expected.number) { None } else { timetable_of(tables[0]).map(words) };
        let ends = judged.map_or([usize::MAX; 2], |words| words.map(|table| table.len()));
        let results = after.map(words).unwrap_or_default();
        let of = || {
            let [timetable, lines] = [0, 1].map(|at| first_words(tables[at]));
            format!("{asked:?} for the words\n{timetable}\n{lines}")
        };
        for (work, over) in self.works.iter_mut().zip([0, u16::MAX]) {
            let mut loans = [0, 1].map(|at| Loan::over(tables[at], ends[at], over));
            let [timetable, lines] = &mut loans;
            let reply = call(timetable.slice(), lines.slice(), work.slice());
            assert_eq!(reply, expected, "the reply (left) and the reference's, {}", of());
            for (loan, (what, result)) in loans.iter_mut().zip(["timetable", "line table"].into_iter().zip(&results)) {
                if let Err(difference) = loan.settle(result) {
                    panic!("{what} {difference} after {reply:?}, {}", of());
                }
            }
            if let Err(difference) = work.settle_work() {
                panic!("beside the working space {difference} after {reply:?}, {}", of());
            }
        }
        for (table, result) in tables.into_iter().zip(&results) {
            table[..result.len()].copy_from_slice(result);
        }
        expected
    }
}

/// Makes a call with a result slice and working space, and fails unless the reply and every word are as expected and
/// the words lent for reading have not changed. Returns the reply.
fn compare<W: Copy + Display + Not<Output = W> + PartialEq>(
    results: &mut [Loan<W>; 2],
    works: &mut [Loan<u32>; 2],
    lent: &[&[u16]],
    asked: &dyn Debug,
    (expected, result): Expected<W>,
    call: impl Fn(&mut [W], &mut [u32]) -> Reply,
) -> Reply {
    let before: Vec<Vec<u16>> = lent.iter().map(|words| words.to_vec()).collect();
    for (loan, work) in results.iter_mut().zip(works) {
        let reply = call(loan.slice(), work.slice());
        let of = || {
            let words: String = lent.iter().map(|words| first_words(words) + "\n").collect();
            format!("{asked:?} for the words\n{words}")
        };
        assert_eq!(reply, expected, "the reply (left) and the reference's, {}", of());
        if let Err(difference) = loan.settle(&result) {
            panic!("{difference} after {reply:?}, {}", of());
        }
        if let Err(difference) = work.settle_work() {
            panic!("beside the working space {difference} after {reply:?}, {}", of());
        }
        assert!(lent == before, "words that were lent for reading changed after {reply:?}, {}", of());
    }
    expected
}

impl<W: Copy + Display + Not<Output = W> + PartialEq> Loan<W> {
    /// Two loans of `length` words that differ in every bit.
    fn pair(length: usize, mut word: impl FnMut() -> W) -> [Loan<W>; 2] {
        let entry: Vec<W> = (0..length + 2 * FENCE).map(|_| word()).collect();
        let inverse = entry.iter().map(|&word| !word).collect();
        [entry, inverse].map(|entry: Vec<W>| Loan { words: entry.clone(), entry })
    }

    fn length(&self) -> usize {
        self.words.len() - 2 * FENCE
    }

    fn slice(&mut self) -> &mut [W] {
        let end = self.words.len() - FENCE;
        &mut self.words[FENCE..end]
    }

    /// Tells of the first word that is neither `result`'s nor what it was at entry; then takes the words back.
    fn settle(&mut self, result: &[W]) -> Result<(), String> {
        let end = FENCE + result.len();
        let kept = self.words[..FENCE] == self.entry[..FENCE] && self.words[end..] == self.entry[end..];
        if kept && self.words[FENCE..end] == *result {
            self.words[FENCE..end].copy_from_slice(&self.entry[FENCE..end]);
            return Ok(());
        }
        let mut expected = self.entry.clone();
        expected[FENCE..end].copy_from_slice(result);
        let at = (0..expected.len()).find(|&at| self.words[at] != expected[at]).expect("some word differs");
        let place = at as i64 - FENCE as i64;
        Err(format!("word {place} is {} and not {}", self.words[at], expected[at]))
    }

    /// As `settle`, where the slice itself may hold anything.
    fn settle_work(&mut self) -> Result<(), String> {
        let end = self.words.len() - FENCE;
        self.words[FENCE..end].copy_from_slice(&self.entry[FENCE..end]);
        self.settle(&[])
    }
}

impl Loan<u16> {
    /// A loan of these words, of which those past a table's end have their bits flipped where `over` has bits. So has
    /// what lies around it.
    fn over(words: &[u16], end: usize, over: u16) -> Loan<u16> {
        let fence = [over ^ 0x5a3c; FENCE];
        let (table, past) = words.split_at(end.min(words.len()));
        let past: Vec<u16> = past.iter().map(|word| word ^ over).collect();
        let entry = [&fence, table, &past, &fence].concat();
        Loan { words: entry.clone(), entry }
    }
}

/// The table in a slice of the least length, with any words behind it. As many are drawn for every table, so that what
/// is drawn after them does not hang on the layout.
pub fn lent(mut table: Vec<u16>, random: &mut Random) -> Vec<u16> {
    let any: Vec<u16> = (0..TIMETABLE_WORDS).map(|_| random.word()).collect();
    table.extend(any.iter().skip(table.len()));
    table
}

/// The words in a slice of a greater length, with any words behind them.
pub fn longer(words: &[u16], length: usize, random: &mut Random) -> Vec<u16> {
    let mut longer = words.to_vec();
    longer.resize_with(length, || random.word());
    longer
}

/// As much of a text as a failure should show.
fn excerpt(text: &[u8]) -> String {
    const BYTES_SHOWN: usize = 3_000;
    let shown: String =
        text.split_inclusive(|&byte| byte == b'\n').map(|line| format!("{}\n", line.escape_ascii())).collect();
    match shown.char_indices().nth(BYTES_SHOWN) {
        Some((end, _)) => format!("{}.. ({} bytes in all)", &shown[..end], text.len()),
        None => shown,
    }
}

fn first_words(words: &[u16]) -> String {
    format!("{:?} of {}", &words[..words.len().min(200)], words.len())
}
