//! Queries from a store: every row, held against the planner's list of feasible connections.

mod all_queries;
mod cases;
mod limits;
mod question_thirteen;
mod refusals;

use std::collections::BTreeSet;

use dairyepoch_tests::connections::Connection;
use dairyepoch_tests::direct::Query;
use dairyepoch_tests::examples::M;
use dairyepoch_tests::expected;
use dairyepoch_tests::ffi::{self, Reply, Tables};
use dairyepoch_tests::host::{Host, QUERY_WORDS};
use dairyepoch_tests::lent::Lent;
use dairyepoch_tests::lines::WORK_WORDS;
use dairyepoch_tests::random::Random;
use dairyepoch_tests::reference::accepted;
use dairyepoch_tests::store::Store;
use dairyepoch_tests::timetable::Timetable;

/// What a query is lent for reading: a store beside the tables.
struct WithStore {
    lent: Lent,
    store: Vec<u16>,
}

impl WithStore {
    fn new(timetable: &Timetable, store: Vec<u16>, random: &mut Random) -> WithStore {
        WithStore { lent: Lent::new(timetable, random), store }
    }

    /// The tables of M and the store of its source 1.
    fn of_m(random: &mut Random) -> WithStore {
        WithStore::new(&accepted(M), vec![1, 3, 2, 2, 0, 2, 0, 3, 0, 3, 1], random)
    }

    fn tables(&self) -> Tables<'_> {
        self.lent.with(&self.store)
    }

    fn ask(&self, host: &mut Host, query: Query) -> Reply {
        host.query(self.tables(), query)
    }

    /// Asks a query that must have these rows.
    fn ask_for(&self, host: &mut Host, query: Query, rows: &[Connection]) -> Reply {
        host.query_as(self.tables(), query, QUERY_WORDS, expected::answer_of(rows, query, QUERY_WORDS))
    }
}

/// A row: duration and penalty, and trip, boarding stop and alighting stop of each ride.
type Row = (u32, u32, Vec<[u32; 3]>);

/// The rows of a text's query from a store, or the number of the refusal; they are also the reference's.
fn rows_from(text: &str, store: &[u16], from: u32, to: u32, minute: u32) -> Result<Vec<Row>, u32> {
    let lent = WithStore::new(&accepted(text), store.to_vec(), &mut Random::new(0));
    let query = Query { from, to, minute };
    let mut answer = vec![0xabcd_abcd; QUERY_WORDS];
    let reply = ffi::query(lent.tables(), &mut vec![0; WORK_WORDS], query, &mut answer);
    assert_eq!(lent.ask(&mut Host::new(1), query), reply);
    if reply.number != 0 {
        return Err(reply.number);
    }
    let mut rest = &answer[..];
    let mut rows = Vec::new();
    for _ in 0..reply.beside {
        let (row, behind) = rest.split_at(3);
        let (rides, behind) = behind.split_at(3 * row[2] as usize);
        rows.push((row[0], row[1], rides.chunks(3).map(|ride| ride.try_into().expect("3 words")).collect()));
        rest = behind;
    }
    assert!(rest.iter().all(|&word| word == 0xabcd_abcd), "a word past the rows was written");
    Ok(rows)
}

/// As `rows_from`, from the store that the store call makes of the query's source.
fn rows(text: &str, from: u32, to: u32, minute: u32) -> Result<Vec<Row>, u32> {
    let store = expected::store_words(&accepted(text), from).expect("a store that is made");
    rows_from(text, &store, from, to, minute)
}

/// All minutes at which what is feasible from a station differs from the minute before, those before them, and the
/// ends.
fn minutes(list: &[Connection]) -> BTreeSet<u32> {
    list.iter().flat_map(|connection| [connection.depart, connection.depart + 1]).chain([0, 2_879]).collect()
}

/// All two different stations of so many.
fn others(stations: usize, from: u32) -> impl Iterator<Item = u32> {
    (1..=stations as u32).filter(move |&to| to != from)
}

/// A store that is a chain of so many nodes, alternating between 2 and 1, with an arc to 3 from its end.
fn chain(nodes: u16) -> Store {
    let station = |node: u16| 2 - node % 2;
    let nodes_of_chain = (0..nodes).map(|node| (station(node), station(node), node)).collect();
    Store { nodes: nodes_of_chain, arcs: vec![(3, nodes)] }
}
