//! Queries from stores, and direct ones.

use std::hint::black_box;
use std::iter;
use std::time::{Duration, Instant};

use crate::tables::lent;
use crate::timing::{medians, medians_within, report};
use crate::wanted;
use dairyepoch_tests::connections;
use dairyepoch_tests::direct::{self, Query, ROW_WORDS};
use dairyepoch_tests::ffi::{self, check_lines, check_timetable, make_store, Reply, Tables};
use dairyepoch_tests::generate::{one_way, DIRECT_ROWS_MOST};
use dairyepoch_tests::lines::WORK_WORDS;
use dairyepoch_tests::random::Random;
use dairyepoch_tests::search::{self, Network};
use dairyepoch_tests::store::{Store, STORE_WORDS_MOST};
use dairyepoch_tests::timetable::Timetable;

/// Up to 32 queries that have a row, from stations that have a store.
pub fn answered(network: &Network) -> Vec<Query> {
    let mut random = Random::new(5);
    let mut queries = Vec::new();
    for _ in 0..1_000 {
        let [from, to] = [0, 1].map(|_| random.within(1..=network.stations()) as u32);
        let query = Query { from, to, minute: random.below(1_200) as u32 };
        if from == to || search::patterns(network, from).is_none() || search::whole(network, query).is_empty() {
            continue;
        }
        queries.push(query);
        if queries.len() == 32 {
            break;
        }
    }
    queries
}

/// The words of a source's store, as the reference makes it.
pub fn store_of(network: &Network, source: u32) -> Vec<u16> {
    search::patterns(network, source).expect("few enough patterns").to_words()
}

/// A query with its store, and with the same store without the arcs to the query's target.
struct Asked {
    query: Query,
    store: Vec<u16>,
    struck: Vec<u16>,
}

/// Times queries from made stores, against a search of the whole timetable for each. A query that has no arc to its
/// target is answered after question 13: what it takes is not the part of following patterns.
pub fn asking_stores(what: &str, timetable: &Timetable) {
    if !wanted(what) {
        return;
    }
    let [table, lines] = lent(timetable);
    let network = Network::new(timetable);
    let asked = |query: Query| {
        let store = store_of(&network, query.from);
        let mut struck = Store::from_words(&store).expect("all its words");
        struck.arcs.retain(|&(target, _)| u32::from(target) != query.to);
        Asked { query, store, struck: struck.to_words() }
    };
    let queries: Vec<Asked> = answered(&network).into_iter().map(asked).collect();
    let (mut work, mut struck_work, mut asked_work) = (vec![0; WORK_WORDS], vec![0; WORK_WORDS], vec![0; WORK_WORDS]);
    let (mut answer, mut struck_answer) = (vec![0; 65_536], vec![0; 65_536]);
    let mut worst = (Duration::ZERO, Duration::ZERO);
    for Asked { query, store, struck } in &queries {
        let began = Instant::now();
        let tables = Tables { timetable: &table, lines: &lines, store };
        let reply = ffi::query(tables, &mut work, *query, &mut answer);
        let library = began.elapsed();
        let began = Instant::now();
        let words = connections::to_words(&search::whole(&network, *query), query.minute);
        worst = worst.max((library, began.elapsed()));
        assert_eq!((reply.number, &answer[..words.len()]), (0, &words[..]), "{query:?}");
        let reply = ffi::query(Tables { store: struck, ..tables }, &mut work, *query, &mut answer);
        assert_eq!(reply.number, 14, "{query:?} of a struck store");
    }
    let [library, until_13, until_10, reference] = medians([
        &mut || {
            for Asked { query, store, .. } in &queries {
                let tables = Tables { timetable: black_box(&table), lines: &lines, store };
                black_box(ffi::query(tables, &mut work, *query, &mut answer));
            }
        },
        &mut || {
            for Asked { query, struck, .. } in &queries {
                let tables = Tables { timetable: black_box(&table), lines: &lines, store: struck };
                black_box(ffi::query(tables, &mut struck_work, *query, &mut struck_answer));
            }
        },
        &mut || {
            for _ in &queries {
                black_box(check_lines(black_box(&table), &lines, &mut asked_work));
            }
        },
        &mut || {
            for Asked { query, .. } in &queries {
                black_box(search::whole(black_box(&network), *query));
            }
        },
    ])
    .map(|time| time / queries.len().max(1) as u32);
    let words = queries.iter().map(|asked| asked.store.len()).max().unwrap_or(0);
    println!("{what}: {} queries, from stores of up to {words} words", queries.len());
    report("  mean, against a search of the whole timetable", library, reference);
    println!("  of these questions 9 and 10 {until_10:.1?}, all questions to 13 {until_13:.1?}");
    report("  the rest, against the search", library.saturating_sub(until_13), reference);
    report("  the worst whole query", worst.0, worst.1);
}

/// Times one store and one query from it, which may take seconds: the store once, the query a few times.
pub fn asking_once(what: &str, timetable: &Timetable, query: Query) {
    if !wanted(what) {
        return;
    }
    let [table, lines] = lent(timetable);
    let network = Network::new(timetable);
    let (mut store, mut work, mut answer) = (vec![0; STORE_WORDS_MOST], vec![0; WORK_WORDS], vec![0; 65_536]);
    let began = Instant::now();
    let made = make_store(&table, &lines, &mut work, query.from, &mut store);
    let library = began.elapsed();
    let began = Instant::now();
    let words = search::patterns(&network, query.from).expect("few enough patterns").to_words();
    println!("{what}: a store of {} words", words.len());
    report("  the store", library, began.elapsed());
    assert_eq!((made.number, &store[..made.beside as usize]), (0, &words[..]));
    let tables = Tables { timetable: &table, lines: &lines, store: &store };
    let rows = connections::to_words(&search::whole(&network, query), query.minute);
    assert_eq!(ffi::query(tables, &mut work, query, &mut answer).number, 0);
    assert_eq!(answer[..rows.len()], rows[..]);
    let [library, reference] = medians_within(
        [
            &mut || {
                black_box(ffi::query(black_box(tables), &mut work, query, &mut answer));
            },
            &mut || {
                black_box(search::whole(black_box(&network), query));
            },
        ],
        Duration::ZERO,
    );
    report("  the query, against a search of the whole timetable", library, reference);
}

/// Times one query on a trip that shuttles between two stations, from a store that is well made and useless: so many
/// arcs that all read the same pattern, with as many rides as a pattern can have to get to the other station.
pub fn asking_useless(arcs: usize) {
    let what = format!("a useless store of {arcs} arcs of 63 rides on a shuttle of 2,000 stops");
    if !wanted(&what) {
        return;
    }
    let [table, lines] = lent(&one_way(2_000, 1, &[]));
    let change = |node: usize| 2 - (node % 2) as u16;
    let chain = (0..61).map(|node| (change(node), change(node), node as u16));
    let nodes = chain.chain(iter::repeat_n((change(61), change(61), 61), arcs)).collect();
    let store = Store { nodes, arcs: (0..arcs).map(|arc| (2, 62 + arc as u16)).collect() }.to_words();
    let (mut work, mut answer) = (vec![0; WORK_WORDS], vec![0; 65_536]);
    let began = Instant::now();
    let tables = Tables { timetable: &table, lines: &lines, store: &store };
    let reply = ffi::query(tables, &mut work, Query { from: 1, to: 2, minute: 0 }, &mut answer);
    println!("{what}: {:.1?}, {} rows", began.elapsed(), reply.beside);
    assert_eq!(reply.number, 0);
}

/// Times a direct query beside a scan of all trips that asks nothing, and tells how much of it the questions take.
pub fn querying(what: &str, timetable: &Timetable, query: Query, rows: u32) {
    if !wanted(what) {
        return;
    }
    let [table, lines] = lent(timetable);
    let (mut work, mut work_asked) = (vec![0; WORK_WORDS], vec![0; WORK_WORDS]);
    let mut answer = vec![0; ROW_WORDS * rows as usize];
    let mut scanned = Vec::with_capacity(DIRECT_ROWS_MOST as usize + 1);
    let reply = ffi::direct(&table, &lines, &mut work, query, &mut answer);
    direct::scan(&table, query, &mut scanned);
    assert_eq!(reply, Reply { number: 0, beside: rows }, "{query:?}");
    assert_eq!(answer, direct::to_words(&scanned), "{query:?}");
    let [library, scan, nine, nine_and_ten] = medians([
        &mut || {
            black_box(ffi::direct(black_box(&table), &lines, &mut work, query, &mut answer));
        },
        &mut || {
            direct::scan(black_box(&table), black_box(query), &mut scanned);
            black_box(&scanned);
        },
        &mut || {
            black_box(check_timetable(black_box(&table)));
        },
        &mut || {
            black_box(check_lines(black_box(&table), &lines, &mut work_asked));
        },
    ]);
    report(&format!("{what}, against a scan of all trips"), library, scan);
    let part = |part: Duration| 100.0 * part.as_secs_f64() / library.as_secs_f64();
    let (nine_part, both_part) = (part(nine), part(nine_and_ten));
    println!("  of these question 9 {nine:.1?} ({nine_part:.0} %), 9 and 10 {nine_and_ten:.1?} ({both_part:.0} %)");
    report("  the rest, against the scan", library.saturating_sub(nine_and_ten), scan);
}
