//! All queries of small timetables, from made stores and from others, against the planner's list.

use std::collections::BTreeSet;

use crate::{minutes, others, WithStore};
use dairyepoch_tests::connections::{self, Connection, Rule};
use dairyepoch_tests::direct::Query;
use dairyepoch_tests::expected;
use dairyepoch_tests::generate::{
    changing, crowded, every_timetable, every_trip, timetable, with_gaps, with_shared_ways, Size, CHANGING, CROWDED,
    SMALL,
};
use dairyepoch_tests::host::Host;
use dairyepoch_tests::random::Random;
use dairyepoch_tests::store::{self, Sequence, Store};
use dairyepoch_tests::timetable::{Station, Stop, Timetable};

/// What must have been met among the queries of generated timetables.
#[derive(Debug, Default)]
struct Met {
    stores: usize,
    none: usize,
    one_row: usize,
    several_rows: usize,
    changes: usize,
    several_changes: usize,
    ties: usize,
    ties_of_patterns: usize,
    /// Rows that a planner with the whole list would not show.
    other_than_whole: usize,
}

impl Met {
    fn note(&mut self, list: &[Connection], query: Query, rows: &[Connection], sequences: &BTreeSet<Sequence>) {
        match rows.len() {
            0 => self.none += 1,
            1 => self.one_row += 1,
            _ => self.several_rows += 1,
        }
        for row in rows {
            self.changes += usize::from(row.rides.len() == 2);
            self.several_changes += usize::from(row.rides.len() > 2);
            let tied: Vec<&Connection> = store::kept(list, sequences, query)
                .filter(|other| other.cost(query.minute) == row.cost(query.minute) && *other != row)
                .collect();
            self.ties += usize::from(!tied.is_empty());
            self.ties_of_patterns += usize::from(tied.iter().any(|other| other.changes != row.changes));
        }
        let whole = connections::rows(store::feasible(list, query), query.minute);
        self.other_than_whole += usize::from(whole != rows);
    }
}

/// Asks all that can be asked from one station of a store with these sequences, at all minutes that matter.
fn all_from(
    host: &mut Host,
    timetable: &Timetable,
    list: &[Connection],
    (from, words): (u32, Vec<u16>),
    met: &mut Met,
    random: &mut Random,
) {
    let store = store::well_made(&words, timetable.stations.len()).expect("a well-made store");
    let sequences = store.sequences();
    let lent = WithStore::new(timetable, words, random);
    met.stores += 1;
    for to in others(timetable.stations.len(), from) {
        for &minute in &minutes(list) {
            let query = Query { from, to, minute };
            let rows = connections::rows(store::kept(list, &sequences, query), minute);
            met.note(list, query, &rows, &sequences);
            lent.ask_for(host, query, &rows);
            if !rows.is_empty() && random.one_in(16) {
                lengths_around(host, &lent, query, &rows);
            }
        }
    }
}

/// Asks a query that has these rows with too little room for them, with just enough, and with a word more.
fn lengths_around(host: &mut Host, lent: &WithStore, query: Query, rows: &[Connection]) {
    let needed = connections::to_words(rows, query.minute).len();
    for (length, number) in [(0, 15), (1, 15), (needed - 1, 15), (needed, 0), (needed + 1, 0)] {
        let expected = expected::answer_of(rows, query, length);
        assert_eq!(expected.0.number, number);
        host.query_as(lent.tables(), query, length, expected);
    }
}

/// Any words, some of them as a store has them, behind a store.
fn with_words_behind(mut words: Vec<u16>, random: &mut Random) -> Vec<u16> {
    for _ in 0..random.pick(&[0, 1, 2, 7]) {
        words.push(random.pick(&[0, 1, 2, 3, 16_384, u16::MAX]));
    }
    words
}

/// Asks all queries of a timetable from made stores, as the whole list has them; its trips are under numbers that may
/// have gaps.
fn all_queries(host: &mut Host, timetable: &Timetable, met: &mut Met, random: &mut Random) {
    let timetable = &with_gaps(random, timetable);
    for from in 1..=timetable.stations.len() as u32 {
        let Some(list) = connections::list(timetable, from, expected::LISTED_MOST) else { continue };
        let words = store::to_words(&store::by_list(&list, from)).expect("a store that is made");
        let before = met.other_than_whole;
        all_from(host, timetable, &list, (from, with_words_behind(words, random)), met, random);
        assert_eq!(met.other_than_whole, before, "a made store shows what the whole list has");
    }
}

#[test]
fn all_queries_of_timetables_where_changing_pays() {
    let mut host = Host::new(2);
    let mut random = Random::new(3);
    let mut met = Met::default();
    for _ in 0..500 {
        all_queries(&mut host, &changing(&mut random, &CHANGING), &mut met, &mut random);
    }
    let Met { stores, none, one_row, several_rows, changes, several_changes, ties, ties_of_patterns, .. } = met;
    let counts = [none, one_row, several_rows, changes, several_changes, ties, ties_of_patterns];
    assert!(stores > 1_000 && counts.iter().all(|&count| count > 50), "{met:?}");
}

#[test]
fn all_queries_of_other_small_timetables() {
    let mut host = Host::new(4);
    let mut random = Random::new(5);
    let mut met = Met::default();
    let small = Size { stations: 2..=3, trips: 1..=5, stops_of_a_trip: 2..=3 };
    let loops = Size { stations: 2..=3, trips: 1..=3, stops_of_a_trip: 3..=8 };
    for _ in 0..400 {
        all_queries(&mut host, &changing(&mut random, &small), &mut met, &mut random);
        all_queries(&mut host, &changing(&mut random, &loops), &mut met, &mut random);
        all_queries(&mut host, &timetable(&mut random, &SMALL), &mut met, &mut random);
        all_queries(&mut host, &with_shared_ways(&mut random, &SMALL), &mut met, &mut random);
    }
    assert!(met.stores > 2_000 && met.several_rows > 100 && met.changes > 100 && met.ties > 100, "{met:?}");
}

#[test]
fn all_queries_of_crowded_timetables() {
    let mut host = Host::new(6);
    let mut random = Random::new(7);
    let mut met = Met::default();
    for _ in 0..200 {
        all_queries(&mut host, &crowded(&mut random, &CROWDED), &mut met, &mut random);
    }
    assert!(met.ties > 200 && met.one_row > 500, "{met:?}");
}

/// Asks all queries of timetables from stores of which something was done to the made one.
fn all_queries_from(
    seed: u64,
    count: usize,
    change: impl Fn(&mut Random, &Timetable, BTreeSet<Sequence>) -> Vec<u16>,
) -> Met {
    let mut host = Host::new(seed);
    let mut random = Random::new(seed + 1);
    let mut met = Met::default();
    let loops = Size { stations: 2..=4, trips: 2..=5, stops_of_a_trip: 3..=7 };
    for at in 0..count {
        let size = if at % 2 == 0 { &CHANGING } else { &loops };
        let timetable = changing(&mut random, size);
        for from in 1..=timetable.stations.len() as u32 {
            let Some(list) = connections::list(&timetable, from, expected::LISTED_MOST) else { continue };
            let mut sequences = store::by_list(&list, from);
            // some that are not optimal, and some that are nobody's
            for connection in &list {
                if random.one_in(2 + list.len() / 4) {
                    sequences.insert((connection.changes.clone(), connection.to));
                }
            }
            let words = change(&mut random, &timetable, sequences);
            all_from(
                &mut host,
                &timetable,
                &list,
                (from, with_words_behind(words, &mut random)),
                &mut met,
                &mut random,
            );
        }
    }
    met
}

#[test]
fn queries_from_stores_with_sequences_struck() {
    let met = all_queries_from(8, 300, |random, _, mut sequences| {
        sequences.retain(|_| !random.one_in(3));
        store::to_words(&sequences).expect("not too many")
    });
    assert!(met.other_than_whole > 500 && met.ties > 100 && met.several_changes > 50, "{met:?}");
}

/// The same store with its nodes in another order, parents below.
fn reordered(random: &mut Random, store: &Store) -> Store {
    let mut numbers = vec![0u16; store.nodes.len() + 1];
    let mut nodes = Vec::new();
    let mut placed = vec![true];
    placed.resize(store.nodes.len() + 1, false);
    while nodes.len() < store.nodes.len() {
        let ready: Vec<usize> = (1..=store.nodes.len())
            .filter(|&node| !placed[node] && placed[usize::from(store.nodes[node - 1].2)])
            .collect();
        let node = random.pick(&ready);
        let (alighted, boarded, parent) = store.nodes[node - 1];
        nodes.push((alighted, boarded, numbers[usize::from(parent)]));
        numbers[node] = nodes.len() as u16;
        placed[node] = true;
    }
    let mut arcs: Vec<(u16, u16)> =
        store.arcs.iter().map(|&(target, node)| (target, numbers[usize::from(node)])).collect();
    arcs.sort_unstable();
    Store { nodes, arcs }
}

#[test]
fn queries_from_reordered_stores() {
    let met = all_queries_from(10, 600, |random, _, sequences| {
        let words = store::to_words(&sequences).expect("not too many");
        let store = Store::from_words(&words).expect("all its words");
        reordered(random, &store).to_words()
    });
    assert!(met.several_changes > 15 && met.ties_of_patterns > 20, "{met:?}");
}

#[test]
fn queries_from_stores_with_doubled_nodes() {
    let met = all_queries_from(12, 600, |random, _, sequences| {
        let words = store::to_words(&sequences).expect("not too many");
        let mut store = Store::from_words(&words).expect("all its words");
        // each node may stand twice, so that arcs read the same; others are nobody's
        for node in 0..store.nodes.len() {
            if random.one_in(2) {
                store.nodes.push(store.nodes[node]);
                let (old, new) = (node as u16 + 1, store.nodes.len() as u16);
                let doubled: Vec<(u16, u16)> = store.arcs.iter().filter(|arc| arc.1 == old).copied().collect();
                for (target, _) in doubled {
                    match random.below(3) {
                        0 => store.arcs.push((target, new)),
                        1 => store.arcs.iter_mut().for_each(|arc| {
                            if *arc == (target, old) {
                                arc.1 = new;
                            }
                        }),
                        _ => {}
                    }
                }
            }
        }
        store.arcs.sort_unstable();
        store.arcs.dedup();
        store.to_words()
    });
    assert!(met.several_changes > 15 && met.ties > 100, "{met:?}");
}

/// Any well-made store: repeated stations, arcs to the source, nodes that no arc uses, the same sequence twice. Some
/// changes are by ways that there are, others between any two stations.
fn arbitrary(random: &mut Random, timetable: &Timetable) -> Store {
    let (stations, ways) = (timetable.stations.len(), connections::ways(timetable, Rule::WalkFirst));
    let node = |random: &mut Random, number: usize| {
        let way = ways[random.below(ways.len())];
        let boarded = if random.one_in(4) { random.within(1..=stations) as u16 } else { way.to };
        (way.from, boarded, random.within(0..=number) as u16)
    };
    let count = random.pick(&[0, 1, 3, 8, 20]);
    let nodes: Vec<(u16, u16, u16)> = (0..count).map(|number| node(random, number)).collect();
    let mut arcs: Vec<(u16, u16)> = (0..random.pick(&[0, 1, 4, 12, 40]))
        .map(|_| (random.within(1..=stations) as u16, random.within(0..=nodes.len()) as u16))
        .collect();
    arcs.sort_unstable();
    arcs.dedup();
    Store { nodes, arcs }
}

#[test]
fn queries_from_arbitrary_stores() {
    let met = all_queries_from(14, 900, |random, timetable, _| {
        let store = arbitrary(random, timetable);
        assert!(store.well_made(timetable.stations.len()));
        store.to_words()
    });
    assert!(met.other_than_whole > 2_000 && met.several_changes > 50 && met.ties > 100, "{met:?}");
}

#[test]
fn queries_from_the_store_of_another_station() {
    let met = all_queries_from(16, 100, |random, timetable, _| {
        let other = random.within(1..=timetable.stations.len()) as u32;
        expected::store_words(timetable, other).expect("a store that is made")
    });
    assert!(met.other_than_whole > 300 && met.changes > 50, "{met:?}");
}

/// Asks every timetable of so many trips, each one of these, from station 1 to 2, from made and from given stores.
fn ask_every(stations: &[Station], trips: &[Vec<Stop>], count: usize, stores: &[&[u16]], last: u32) {
    let mut host = Host::new(27);
    let mut random = Random::new(28);
    let mut rows = 0;
    for timetable in every_timetable(stations, trips, count) {
        let made = expected::store_words(&timetable, 1).expect("a store that is made");
        let mut lent = WithStore::new(&timetable, Vec::new(), &mut random);
        for store in [&made[..]].iter().chain(stores) {
            lent.store = store.to_vec();
            for minute in 0..=last {
                rows += lent.ask(&mut host, Query { from: 1, to: 2, minute }).beside;
            }
        }
    }
    assert!(rows > 0);
}

#[test]
fn every_timetable_of_three_stations_and_two_trips() {
    let trips = [every_trip(3, 2, 2), every_trip(3, 3, 2)].concat();
    let stores: [&[u16]; 1] = [&[1, 1, 3, 3, 0, 2, 1]];
    ask_every(&[Station { change_minutes: 0, change_penalty: 1 }; 3], &trips, 2, &stores, 0);
}

#[test]
fn every_timetable_of_one_trip_with_a_loop() {
    let trips = [every_trip(2, 4, 4), every_trip(3, 4, 3), every_trip(2, 5, 4)].concat();
    let stores: [&[u16]; 2] = [&[1, 1, 1, 1, 0, 2, 1], &[2, 2, 1, 1, 0, 2, 2, 0, 2, 1, 2, 2]];
    ask_every(&[Station { change_minutes: 0, change_penalty: 1 }; 3], &trips, 1, &stores, 1);
}
