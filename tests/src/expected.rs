//! What each call must reply and write: document 01's questions, in its order, put to what the other modules hold of
//! the lent words.

use crate::connections::{self, Connection};
use crate::direct::{self, Query, Ride};
use crate::ffi::{Reply, Tables};
use crate::following::Guide;
use crate::lines::{self, LINE_WORDS, WORK_WORDS};
use crate::reference::{self, Refusal};
use crate::search::{self, Network};
use crate::store::{self, Store};
use crate::tables;
use crate::timetable::{Stop, Timetable, LAST_MINUTE};
use crate::words::{timetable_of, to_words, TIMETABLE_WORDS};

/// The reply, and the words of the result: none on a refusal.
pub type Expected<W> = (Reply, Vec<W>);

/// The count and the words of a result, or the number of the first question that had a no.
type Answer<W> = Result<(u32, Vec<W>), u32>;

/// Reading `text` into a slice of `length` words.
pub fn read(text: &[u8], length: usize) -> Expected<u16> {
    if length < TIMETABLE_WORDS {
        return refusal(8, 0);
    }
    match reference::read(text) {
        Ok(timetable) => {
            let lines = timetable.stations.len() + timetable.walks.len() + timetable.stops();
            (Reply::done(lines), to_words(&timetable))
        }
        Err(Refusal { number, line }) => refusal(number, line),
    }
}

/// Building of `timetable` into a slice of `length` words.
pub fn build_lines(timetable: &[u16], length: usize, work_length: usize) -> Expected<u16> {
    let answer = || {
        let timetable = lent_timetable(timetable, length, work_length)?;
        Ok((lines::lines(&timetable).len() as u32, lines::to_words(&timetable)))
    };
    expected(answer())
}

/// Question 10 to `lines`, lent with timetable words.
pub fn check_lines(timetable: &[u16], lines: &[u16], work_length: usize) -> Reply {
    reply(lent_both(timetable, lines, work_length).map(|_| 0))
}

/// Question 10 to `lines`, lent without any.
pub fn check_lines_alone(lines: &[u16], work_length: usize) -> Reply {
    reply(lent_lines(lines, work_length).map(|_| 0))
}

/// The piece of one line.
pub fn line_trips(lines: &[u16], work_length: usize, line: u32) -> Reply {
    let answer = || {
        let piece = tables::piece(&lent_lines(lines, work_length)?, line).ok_or(11u32)?;
        Ok((piece.start * 65_536 + piece.len()) as u32)
    };
    reply(answer())
}

/// Translating line tables to times by trip, into a slice of `length` words.
pub fn times_by_trip(timetable: &[u16], lines: &[u16], work_length: usize, length: usize) -> Expected<u16> {
    let answer = || {
        ask(length >= LINE_WORDS, 8)?;
        let timetable = lent_both(timetable, lines, work_length)?;
        Ok((lines::lines(&timetable).len() as u32, lines::to_words_by_trip(&timetable)))
    };
    expected(answer())
}

/// Translating line tables with times by trip back, into a slice of `length` words.
pub fn times_by_stop(timetable: &[u16], other: &[u16], work_length: usize, length: usize) -> Expected<u16> {
    let answer = || {
        ask(length >= LINE_WORDS, 8)?;
        let timetable = lent_timetable(timetable, other.len(), work_length)?;
        ask(other.starts_with(&lines::to_words_by_trip(&timetable)), 10)?;
        Ok((lines::lines(&timetable).len() as u32, lines::to_words(&timetable)))
    };
    expected(answer())
}

/// A direct query, with an answer slice of `length` words.
pub fn direct(timetable: &[u16], lines: &[u16], work_length: usize, query: Query, length: usize) -> Expected<u32> {
    let answer = || {
        let parsed = lent_both(timetable, lines, work_length)?;
        asked(&parsed, query)?;
        let rows = direct_rows(&parsed, timetable, query);
        ask(!rows.is_empty(), 14)?;
        let words = direct::to_words(&rows);
        ask(length >= words.len(), 15)?;
        Ok((rows.len() as u32, words))
    };
    expected(answer())
}

/// Questions 11 and 12 to a query.
fn asked(timetable: &Timetable, query: Query) -> Result<(), u32> {
    let listed = |station: u32| (1..=timetable.stations.len() as u32).contains(&station);
    ask(listed(query.from) && listed(query.to) && query.from != query.to, 11)?;
    ask(query.minute <= LAST_MINUTE.into(), 12)
}

/// By listing all rides, where they are not too many to be held against each other.
fn direct_rows(timetable: &Timetable, words: &[u16], query: Query) -> Vec<Ride> {
    let meets = |trip: &[Stop], station: u32| trip.iter().filter(|stop| u32::from(stop.station) == station).count();
    let rides_most: usize = timetable.trips.values().map(|trip| meets(trip, query.from) * meets(trip, query.to)).sum();
    if rides_most <= 2_000 {
        return direct::rows(timetable, query);
    }
    let mut rows = Vec::new();
    direct::scan(words, query, &mut rows);
    rows
}

/// The connections of one station that are listed, where there are not too many.
pub const LISTED_MOST: usize = 2_000;

/// Making the store of a source, in a slice of `length` words.
pub fn make_store(timetable: &[u16], lines: &[u16], work_length: usize, source: u32, length: usize) -> Expected<u16> {
    let answer = || {
        let timetable = lent_both(timetable, lines, work_length)?;
        ask((1..=timetable.stations.len() as u32).contains(&source), 11)?;
        let words = store_words(&timetable, source).ok_or(15u32)?;
        ask(length >= words.len(), 15)?;
        Ok((words.len() as u32, words))
    };
    expected(answer())
}

/// The words of a source's store; none if it has too many nodes or arcs. By listing all connections, where there are
/// not too many.
pub fn store_words(timetable: &Timetable, source: u32) -> Option<Vec<u16>> {
    match connections::list(timetable, source, LISTED_MOST) {
        Some(list) => store::to_words(&store::by_list(&list, source)),
        None => search::patterns(&Network::new(timetable), source).map(|patterns| patterns.to_words()),
    }
}

/// A query from a store, with an answer slice of `length` words.
pub fn query(tables: Tables, work_length: usize, query: Query, length: usize) -> Expected<u32> {
    let answer = || {
        let timetable = lent_both(tables.timetable, tables.lines, work_length)?;
        asked(&timetable, query)?;
        let store = store::well_made(tables.store, timetable.stations.len()).ok_or(13u32)?;
        shown(&query_rows(&timetable, &store, query), query, length)
    };
    expected(answer())
}

/// The answer of a query that has these rows, where all questions before 14 had their yes.
pub fn answer_of(rows: &[Connection], query: Query, length: usize) -> Expected<u32> {
    expected(shown(rows, query, length))
}

fn shown(rows: &[Connection], query: Query, length: usize) -> Answer<u32> {
    ask(!rows.is_empty(), 14)?;
    let words = connections::to_words(rows, query.minute);
    ask(length >= words.len(), 15)?;
    Ok((rows.len() as u32, words))
}

/// The rows of a query from a well-made store. By listing all connections, where there are not too many.
pub fn query_rows(timetable: &Timetable, store: &Store, query: Query) -> Vec<Connection> {
    let sequences = store.sequences();
    match connections::list(timetable, query.from, LISTED_MOST) {
        Some(list) => connections::rows(store::kept(&list, &sequences, query), query.minute),
        None => Guide::new(&sequences).rows(&Network::new(timetable), query),
    }
}

/// What a change must reply, and the timetable that runs after it: none on a refusal.
pub type Change = (Reply, Option<Timetable>);

/// Cancelling a trip.
pub fn cancel_trip(timetable: &[u16], lines: &[u16], work_length: usize, trip: u32) -> Change {
    change(|| {
        let mut timetable = lent_both(timetable, lines, work_length)?;
        u16::try_from(trip).ok().and_then(|trip| timetable.trips.remove(&trip)).ok_or(18u32)?;
        Ok(timetable)
    })
}

/// Adding a trip by its lines.
pub fn add_trip(timetable: &[u16], lines: &[u16], work_length: usize, trip: u32, text: &[u8]) -> Change {
    change(|| {
        let timetable = lent_both(timetable, lines, work_length)?;
        let runs = u16::try_from(trip).is_ok_and(|trip| timetable.trips.contains_key(&trip));
        ask(!runs, 19)?;
        reference::add(timetable, trip, text)
    })
}

/// "Cancelling and adding return the tables' number of lines."
fn change(changed: impl FnOnce() -> Result<Timetable, Refusal>) -> Change {
    match changed() {
        Ok(timetable) => (Reply::done(lines::lines(&timetable).len()), Some(timetable)),
        Err(Refusal { number, line }) => (Reply { number, beside: line }, None),
    }
}

/// A refusal that has no line.
impl From<u32> for Refusal {
    fn from(number: u32) -> Refusal {
        Refusal { number, line: 0 }
    }
}

/// Questions 8 and 9 to a timetable that is lent with line tables of this length.
fn lent_timetable(timetable: &[u16], lines_length: usize, work_length: usize) -> Result<Timetable, u32> {
    ask(timetable.len() >= TIMETABLE_WORDS && lines_length >= LINE_WORDS && work_length >= WORK_WORDS, 8)?;
    timetable_of(timetable).ok_or(9)
}

/// Questions 8 to 10 to a timetable and line tables that are lent together.
fn lent_both(timetable: &[u16], lines: &[u16], work_length: usize) -> Result<Timetable, u32> {
    let timetable = lent_timetable(timetable, lines.len(), work_length)?;
    ask(tables::are_of(&timetable, lines), 10)?;
    Ok(timetable)
}

/// Questions 8 and 10 to line tables that are lent without a timetable.
fn lent_lines(lines: &[u16], work_length: usize) -> Result<Timetable, u32> {
    ask(lines.len() >= LINE_WORDS && work_length >= WORK_WORDS, 8)?;
    tables::timetable_of(lines).ok_or(10)
}

fn ask(yes: bool, number: u32) -> Result<(), u32> {
    if yes {
        Ok(())
    } else {
        Err(number)
    }
}

fn expected<W>(answer: Answer<W>) -> Expected<W> {
    match answer {
        Ok((beside, words)) => (Reply { number: 0, beside }, words),
        Err(number) => refusal(number, 0),
    }
}

fn reply(answer: Result<u32, u32>) -> Reply {
    match answer {
        Ok(beside) => Reply { number: 0, beside },
        Err(number) => Reply::refused(number),
    }
}

fn refusal<W>(number: u32, line: u32) -> Expected<W> {
    (Reply { number, beside: line }, Vec::new())
}
