//! What a rider is shown and what a display stores for one timetable, of the library as of the reference.

use crate::direct::Query;
use crate::expected;
use crate::ffi::Reply;
use crate::host::{Host, ANSWER_WORDS, QUERY_WORDS, STORE_WORDS};
use crate::lent::Lent;
use crate::lines::WORK_WORDS;
use crate::random::Random;
use crate::timetable::Timetable;

/// The words of a query's rows from a store that is made for its source, or the number of the refusal.
pub fn rows(timetable: &Timetable, from: u32, to: u32, minute: u32) -> Result<Vec<u32>, u32> {
    rows_from(timetable, &store(timetable, from), from, to, minute)
}

/// The same from any store.
pub fn rows_from(timetable: &Timetable, store: &[u16], from: u32, to: u32, minute: u32) -> Result<Vec<u32>, u32> {
    let lent = Lent::new(timetable, &mut Random::new(1));
    let query = Query { from, to, minute };
    let (reply, words) = expected::query(lent.with(store), WORK_WORDS, query, QUERY_WORDS);
    Host::new(2).query_as(lent.with(store), query, QUERY_WORDS, (reply, words.clone()));
    words_or_number(reply, words)
}

/// The words of a direct query's rows, or the number of the refusal.
pub fn rides(timetable: &Timetable, from: u32, to: u32, minute: u32) -> Result<Vec<u32>, u32> {
    let lent = Lent::new(timetable, &mut Random::new(3));
    let query = Query { from, to, minute };
    let (reply, words) = expected::direct(&lent.timetable, &lent.lines, WORK_WORDS, query, ANSWER_WORDS);
    assert_eq!(lent.direct(&mut Host::new(4), query), reply);
    words_or_number(reply, words)
}

/// The words of a source's store.
pub fn store(timetable: &Timetable, source: u32) -> Vec<u16> {
    let lent = Lent::new(timetable, &mut Random::new(5));
    let words = expected::store_words(timetable, source).expect("a store that is made");
    let expected = (Reply::done(words.len()), words.clone());
    Host::new(6).make_store_as(&lent.timetable, &lent.lines, source, STORE_WORDS, expected);
    words
}

fn words_or_number(reply: Reply, words: Vec<u32>) -> Result<Vec<u32>, u32> {
    if reply.number == 0 {
        Ok(words)
    } else {
        Err(reply.number)
    }
}
