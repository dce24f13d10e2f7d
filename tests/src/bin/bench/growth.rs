//! Each call by the size of the timetable: the points of a picture.

use std::hint::black_box;

use crate::queries::{answered, store_of};
use crate::tables::lent;
use crate::timing::{medians_within, ENOUGH_FOR_A_POINT};
use crate::wanted;
use dairyepoch_tests::connections;
use dairyepoch_tests::direct::{Query, ROW_WORDS};
use dairyepoch_tests::ffi::{self, make_store, Tables};
use dairyepoch_tests::generate::{rows_without_changes, rural, Diamonds, DIRECT_ROWS_MOST};
use dairyepoch_tests::lines::WORK_WORDS;
use dairyepoch_tests::random::Random;
use dairyepoch_tests::search::{self, Network};
use dairyepoch_tests::store::STORE_WORDS_MOST;
use dairyepoch_tests::timetable::Timetable;

/// Timetables of one kind and rising size. Those of one trip have as many rows as so many stops allow, since answers of
/// many rows are slow ones. Each diamond doubles the arcs to the last junction.
pub fn growing() {
    for rounds in [1, 2, 4, 8] {
        let timetable = rural(&mut Random::new(1), rounds);
        growth("growth by trips", timetable.trips.len(), &timetable, answered);
    }
    for rows in [64, 119, 203, 325, DIRECT_ROWS_MOST] {
        let timetable = rows_without_changes(rows);
        growth("growth by stops", timetable.stops(), &timetable, |_| vec![Query { from: 1, to: 2, minute: 0 }]);
    }
    for count in [2, 4, 6, 8, 10, 12] {
        let timetable = Diamonds { count, ..Diamonds::default() }.timetable();
        let last = 1 + 3 * count as u32;
        growth("growth by arcs", 1 << count, &timetable, |_| vec![Query { from: 1, to: last, minute: 0 }]);
    }
}

/// Times each call, and both searches of the reference, in the mean of some queries that have a row. One line tells
/// all, in a form that `docs/speed.py` reads. Direct queries are left out where none of them has a row.
///
/// Each is timed alone: in turn with a query of 60 ms and the making of a large store, a search of 3 µs took 70.
fn growth(what: &str, size: usize, timetable: &Timetable, queries: impl Fn(&Network) -> Vec<Query>) {
    if !wanted(what) {
        return;
    }
    let [table, lines] = lent(timetable);
    let network = Network::new(timetable);
    let with_store = |query: Query| (query, store_of(&network, query.from));
    let queries: Vec<(Query, Vec<u16>)> = queries(&network).into_iter().map(with_store).collect();
    let (mut work, mut answer, mut made) = (vec![0; WORK_WORDS], vec![0; 65_536], vec![0; STORE_WORDS_MOST]);
    let mut rides = vec![0; ROW_WORDS * DIRECT_ROWS_MOST as usize];
    let mut ridden = false;
    for (query, store) in &queries {
        let tables = Tables { timetable: &table, lines: &lines, store };
        let rows = connections::to_words(&search::whole(&network, *query), query.minute);
        assert_eq!(ffi::query(tables, &mut work, *query, &mut answer).number, 0, "{query:?}");
        assert_eq!(answer[..rows.len()], rows[..], "{query:?}");
        assert_eq!(make_store(&table, &lines, &mut work, query.from, &mut made).number, 0, "{query:?}");
        assert_eq!(made[..store.len()], store[..], "{query:?}");
        ridden |= ffi::direct(&table, &lines, &mut work, *query, &mut rides).number == 0;
    }
    let tell = |call: &str, ask: &mut dyn FnMut(Query, &[u16])| {
        let mut ask_all = || queries.iter().for_each(|(query, store)| ask(*query, store));
        let [time] = medians_within([&mut ask_all], ENOUGH_FOR_A_POINT);
        print!(", {call} {:.2} µs", time.as_secs_f64() * 1e6 / queries.len() as f64);
    };
    print!("{what}: {size}");
    tell("query", &mut |query, store| {
        let tables = Tables { timetable: black_box(&table), lines: &lines, store };
        black_box(ffi::query(tables, &mut work, query, &mut answer));
    });
    tell("search", &mut |query, _| {
        black_box(search::whole(black_box(&network), query));
    });
    if ridden {
        tell("direct query", &mut |query, _| {
            black_box(ffi::direct(black_box(&table), &lines, &mut work, query, &mut rides));
        });
    }
    tell("store call", &mut |query, _| {
        black_box(make_store(black_box(&table), &lines, &mut work, query.from, &mut made));
    });
    tell("store search", &mut |query, _| {
        black_box(store_of(black_box(&network), query.from));
    });
    println!();
}
