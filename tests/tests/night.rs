//! The night timetable, whose cases are a theorem of the crate `worked`: both the library and the reference are held to
//! what is stated there.

use dairyepoch_tests::direct::Query;
use dairyepoch_tests::examples::NIGHT;
use dairyepoch_tests::expected::{self, Expected};
use dairyepoch_tests::ffi::Reply;
use dairyepoch_tests::host::{Host, ANSWER_WORDS, QUERY_WORDS, STORE_WORDS};
use dairyepoch_tests::lent::Lent;
use dairyepoch_tests::lines::{self, LINE_WORDS, WORK_WORDS};
use dairyepoch_tests::reference::accepted;
use dairyepoch_tests::words::{to_words, TIMETABLE_WORDS};

#[rustfmt::skip]
const TIMETABLE: [u16; 112] = [
    5, 6, 16,
    1, 5,  7, 27,  4, 33,  3, 29,  2, 6,
    4, 0, 50, 12, 0,  1, 52, 55, 14, 0,  4, 58, 60, 19, 0,  5, 64, 0, 0, 0,
    1, 0, 53, 8, 0,  5, 57, 66, 23, 0,  3, 70, 0, 0, 0,
    2, 0, 44, 21, 0,  4, 47, 48, 10, 0,  1, 54, 0, 0, 0,
    1, 0, 53, 31, 0,  3, 70, 0, 0, 0,
    5, 0, 59, 17, 0,  3, 70, 0, 0, 0,
    5, 0, 65, 17, 0,  3, 70, 0, 0, 0,
    0, 4, 7, 10, 12, 14, 16,
    1, 2, 3, 4, 5, 6,
    0, 0, 0, 0, 0, 0,
];

#[rustfmt::skip]
const LINES: [u16; 133] = [
    5, 5, 6, 99,
    9, 27, 50, 68, 81,
    3, 1, 3,  2, 0, 0, 4, 21, 0, 1, 31, 0,  0, 44, 47, 48, 54, 0,
    4, 1, 1,  4, 0, 0, 1, 12, 0, 4, 26, 0, 5, 45, 0,  0, 50, 52, 55, 58, 60, 64, 0,
    3, 1, 2,  1, 0, 0, 5, 8, 0, 3, 31, 0,  0, 53, 57, 66, 70, 0,
    2, 1, 4,  1, 0, 0, 3, 31, 0,  0, 53, 70, 0,
    2, 2, 5, 6,  5, 0, 0, 3, 17, 0,  0, 0, 59, 65, 70, 70, 0, 0,
    105, 113, 115, 121, 127, 133,
    1, 3,  2, 2,  3, 1,  4, 1,
    1, 1,
    3, 3,  4, 2,  5, 2,
    1, 2,  2, 1,  2, 3,
    2, 4,  3, 2,  5, 1,
];

/// The stores of sources 1 to 5.
const STORES: [&[u16]; 5] = [
    &[1, 4, 5, 5, 0, 3, 0, 3, 1, 4, 0, 5, 0],
    &[
        6, 10, 1, 1, 0, 4, 4, 0, 5, 5, 1, 1, 1, 2, 5, 5, 2, 5, 5, 4, 1, 0, 1, 2, 3, 3, 3, 4, 3, 5, 3, 6, 4, 0, 5, 1, 5,
        2, 5, 4,
    ],
    &[0, 0],
    &[3, 6, 1, 1, 0, 5, 5, 0, 5, 5, 1, 1, 0, 3, 1, 3, 2, 3, 3, 5, 0, 5, 1],
    &[0, 1, 3, 0],
];

/// From, to, minute.
type Numbers = [u32; 3];

fn query([from, to, minute]: Numbers) -> Query {
    Query { from, to, minute }
}

fn done<W>(count: usize, words: Vec<W>) -> Expected<W> {
    (Reply::done(count), words)
}

fn refused<W>(number: u32) -> Expected<W> {
    (Reply::refused(number), Vec::new())
}

/// A query from a store has this reply and these words, of the library as of the reference.
fn expect(store: &[u16], numbers: Numbers, length: usize, expected: Expected<u32>) {
    let lent = Lent::text(NIGHT);
    let tables = lent.with(store);
    assert_eq!(expected::query(tables, WORK_WORDS, query(numbers), length), expected);
    Host::new(1).query_as(tables, query(numbers), length, expected);
}

/// A query from a store has these rows; where there is a word too little for them, 15.
fn shows(store: &[u16], numbers: Numbers, rows: &[&[u32]]) {
    let words = rows.concat();
    expect(store, numbers, QUERY_WORDS, done(rows.len(), words.clone()));
    expect(store, numbers, words.len(), done(rows.len(), words.clone()));
    expect(store, numbers, words.len() - 1, refused(15));
}

fn asks(numbers: Numbers, rows: &[&[u32]]) {
    shows(STORES[numbers[0] as usize - 1], numbers, rows);
}

/// A direct query has this reply and these words.
fn expect_direct(numbers: Numbers, length: usize, expected: Expected<u32>) {
    let Lent { timetable, lines } = Lent::text(NIGHT);
    assert_eq!(expected::direct(&timetable, &lines, WORK_WORDS, query(numbers), length), expected);
    let reply = Host::new(2).direct_to(&timetable, &lines, query(numbers), length);
    assert_eq!(reply, expected.0);
}

fn rides(numbers: Numbers, rows: &[&[u32]]) {
    let words = rows.concat();
    expect_direct(numbers, ANSWER_WORDS, done(rows.len(), words.clone()));
    expect_direct(numbers, words.len() - 1, refused(15));
}

#[test]
fn it_is_read_to_its_words() {
    assert_eq!(to_words(&accepted(NIGHT)), TIMETABLE);
    Host::new(3).expect_read(NIGHT, 0, 21);
}

#[test]
fn it_has_five_lines() {
    assert_eq!(lines::to_words(&accepted(NIGHT)), LINES);
    let mut host = Host::new(4);
    let lent = Lent::text(NIGHT);
    host.expect_lines(&lent.timetable, 0, 5);
    for (line, at, trips) in [(1, 11, 1), (2, 29, 1), (3, 52, 1), (4, 70, 1), (5, 83, 2)] {
        let piece = Reply { number: 0, beside: at * 65_536 + trips };
        assert_eq!(host.line_trips(&lent.lines, line), piece);
    }
    assert_eq!([lent.timetable.len(), lent.lines.len()], [TIMETABLE_WORDS, LINE_WORDS]);
}

#[test]
fn its_stores() {
    let Lent { timetable, lines } = Lent::text(NIGHT);
    let mut host = Host::new(5);
    for (source, store) in (1..).zip(STORES) {
        let stored = || done(store.len(), store.to_vec());
        assert_eq!(expected::make_store(&timetable, &lines, WORK_WORDS, source, STORE_WORDS), stored());
        host.make_store_as(&timetable, &lines, source, STORE_WORDS, stored());
        host.make_store_as(&timetable, &lines, source, store.len(), stored());
        host.make_store_as(&timetable, &lines, source, store.len() - 1, refused(15));
    }
}

#[test]
fn a_tie_is_settled_at_each_step() {
    // departs latest
    asks([4, 3, 40], &[&[30, 48, 2, 1, 3, 4, 2, 2, 3]]);
    // fewest rides, then the trip
    asks([1, 3, 40], &[&[30, 31, 1, 2, 1, 3]]);
    // the boarding stop
    asks([2, 3, 40], &[&[30, 98, 3, 3, 1, 2, 1, 1, 2, 2, 1, 3]]);
    // the alighting stop
    asks([2, 5, 40], &[&[17, 75, 3, 3, 1, 2, 1, 1, 2, 2, 1, 2], &[24, 69, 2, 3, 1, 2, 1, 3, 4]]);
}

#[test]
fn other_queries() {
    asks([2, 1, 40], &[&[12, 62, 2, 3, 1, 2, 1, 1, 2], &[14, 31, 1, 3, 1, 3]]);
    asks([4, 5, 40], &[&[17, 25, 2, 1, 1, 2, 2, 1, 2], &[24, 19, 1, 1, 3, 4]]);
    asks([1, 3, 54], &[&[16, 62, 2, 1, 2, 4, 2, 2, 3]]);
    asks([5, 3, 66], &[&[4, 23, 1, 2, 2, 3]]);
    expect(STORES[1], [2, 3, 45], QUERY_WORDS, refused(14));
    expect(STORES[2], [3, 5, 40], QUERY_WORDS, refused(14));
}

#[test]
fn direct_queries() {
    rides([5, 3, 40], &[&[30, 17, 1, 6, 1, 2]]);
    rides([1, 3, 40], &[&[30, 31, 1, 2, 1, 3]]);
    rides([4, 5, 40], &[&[24, 19, 1, 1, 3, 4]]);
    rides([4, 1, 40], &[&[12, 12, 1, 1, 1, 2], &[14, 10, 1, 3, 2, 3]]);
    expect_direct([2, 3, 40], ANSWER_WORDS, refused(14));
    expect_direct([1, 3, 54], ANSWER_WORDS, refused(14));
}

#[test]
fn queries_from_a_store_with_sequences_struck() {
    let by_1_and_5 = [2, 1, 1, 1, 0, 5, 5, 1, 3, 2];
    shows(&by_1_and_5, [2, 3, 40], &[&[30, 98, 3, 3, 1, 3, 1, 2, 4, 2, 2, 3]]);
    expect(&by_1_and_5, [2, 5, 40], QUERY_WORDS, refused(14));
    shows(&[1, 1, 5, 5, 0, 3, 1], [1, 3, 40], &[&[30, 31, 2, 2, 1, 2, 5, 1, 2]]);
}

#[test]
fn a_query_from_a_store_that_names_a_sixth_station() {
    expect(&[0, 1, 6, 0], [1, 3, 40], QUERY_WORDS, refused(13));
}
