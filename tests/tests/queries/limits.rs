//! Queries of large timetables, against the search: the most rows, the dearest rides, the largest stores.

use std::collections::BTreeSet;

use crate::{others, rows, rows_from, WithStore};
use dairyepoch_tests::connections::{Connection, Transfer};
use dairyepoch_tests::direct::Query;
use dairyepoch_tests::expected;
use dairyepoch_tests::following::Guide;
use dairyepoch_tests::generate::{
    changing, largest, long_lines, most_rows, one_way, overtaking, rural, timetable, Diamonds, Size, BUSY,
    DIRECT_ROWS_MOST, MIDDLING, TELLING_PLACES,
};
use dairyepoch_tests::handmade::{detour, hop, text, text_of_hops, PENALTIES_PAST_A_WORD};
use dairyepoch_tests::host::Host;
use dairyepoch_tests::random::Random;
use dairyepoch_tests::reference::accepted;
use dairyepoch_tests::search::{self, Network};
use dairyepoch_tests::store::{self, Sequence, Store};
use dairyepoch_tests::timetable::Timetable;

/// Asks so many queries of a timetable from made stores and from struck ones; how many rows and how many with changes.
fn some_queries(timetable: &Timetable, sources: usize, count: usize, random: &mut Random) -> [usize; 2] {
    let mut host = Host::new(18);
    let network = Network::new(timetable);
    let stations = timetable.stations.len();
    let mut found = [0; 2];
    for _ in 0..sources {
        let from = random.within(1..=stations) as u32;
        let Some(patterns) = search::patterns(&network, from).filter(|_| stations > 1) else { continue };
        let words = patterns.to_words();
        let all = Store::from_words(&words).expect("all its words").sequences();
        let struck: BTreeSet<Sequence> = all.iter().filter(|_| !random.one_in(3)).cloned().collect();
        let minutes: Vec<u32> = network.minutes(from).into_iter().chain([0]).collect();
        for (made, sequences) in [(true, &all), (false, &struck)] {
            let guide = Guide::new(sequences);
            let lent = WithStore::new(timetable, store::to_words(sequences).expect("not too many"), random);
            for _ in 0..count {
                let to = random.pick(&others(stations, from).collect::<Vec<_>>());
                let minute = random.pick(&minutes) + u32::from(random.one_in(4));
                let query = Query { from, to, minute };
                let rows = guide.rows(&network, query);
                if made {
                    assert_eq!(rows, search::whole(&network, query), "{query:?}");
                }
                found[0] += rows.len();
                found[1] += rows.iter().filter(|row| row.rides.len() > 1).count();
                lent.ask_for(&mut host, query, &rows);
            }
        }
    }
    found
}

#[test]
fn queries_of_middling_timetables() {
    let mut random = Random::new(19);
    let size = Size { stations: 5..=20, trips: 20..=60, stops_of_a_trip: 2..=10 };
    let mut found = [0; 2];
    for _ in 0..12 {
        for timetable in [changing(&mut random, &size), timetable(&mut random, &MIDDLING)] {
            let more = some_queries(&timetable, 3, 20, &mut random);
            found = [found[0] + more[0], found[1] + more[1]];
        }
    }
    assert!(found[0] > 400 && found[1] > 50, "{found:?}");
}

#[test]
fn queries_of_rural_timetables_at_the_limits() {
    let mut random = Random::new(20);
    for _ in 0..2 {
        let found = some_queries(&rural(&mut random, 8), 8, 25, &mut random);
        assert!(found[0] > 200 && found[1] > 100, "{found:?}");
    }
}

#[test]
fn queries_of_other_timetables_at_the_limits() {
    let mut random = Random::new(21);
    let found = some_queries(&largest(&mut random), 5, 10, &mut random);
    assert!(found[0] > 20, "{found:?}");
    let found = some_queries(&changing(&mut random, &BUSY), 5, 20, &mut random);
    assert!(found[0] > 100 && found[1] > 50, "{found:?}");
    for timetable in [long_lines(), overtaking()] {
        some_queries(&timetable, 5, 6, &mut random);
    }
}

#[test]
fn the_most_rows() {
    let mut host = Host::new(22);
    let timetable = most_rows();
    let network = Network::new(&timetable);
    let lent = WithStore::new(&timetable, vec![0, 1, 2, 0], &mut Random::new(23));
    let query = Query { from: 1, to: 2, minute: 0 };
    let rows = Guide::new(&BTreeSet::from([(Vec::new(), 2)])).rows(&network, query);
    assert_eq!(rows.len(), DIRECT_ROWS_MOST as usize);
    lent.ask_for(&mut host, query, &rows);
    // with a change at 3 or 4 as well
    let store = vec![2, 3, 3, 3, 0, 4, 4, 0, 2, 0, 2, 1, 2, 2];
    let lent = WithStore::new(&timetable, store, &mut Random::new(24));
    let sequences = BTreeSet::from([(Vec::new(), 2), (vec![(3, 3)], 2), (vec![(4, 4)], 2)]);
    let guide = Guide::new(&sequences);
    for minute in [1_950, 2_000, 2_040, 2_045] {
        let query = Query { minute, ..query };
        lent.ask_for(&mut host, query, &guide.rows(&network, query));
    }
}

/// A connection on trip 1 of `one_way`, boarded at the first of these stops, then left and boarded again at each but
/// the last, with 100 points for each stop and 1 for each change. The trip is at its first stop at minute 1, at its
/// second at 2, ..
fn along(stops: &[u32], changes: Vec<Transfer>, to: u16) -> Connection {
    let (depart, arrive) = (stops[0], stops[stops.len() - 1]);
    let penalty = 100 * (arrive - depart) + changes.len() as u32;
    let rides = stops.windows(2).map(|ends| [1, ends[0], ends[1]]).collect();
    Connection { depart, arrive, penalty, changes, rides, to }
}

#[test]
fn penalties_between_any_two_stops_of_a_long_dear_trip() {
    let mut host = Host::new(51);
    let mut random = Random::new(52);
    let timetable = one_way(2_048, 100, &TELLING_PLACES);
    let stops = TELLING_PLACES.map(|place| place as u32 + 1);
    let arcs = (1..=16).map(|to| (to, 0)).collect();
    let direct = WithStore::new(&timetable, Store { nodes: Vec::new(), arcs }.to_words(), &mut random);
    for (from, &board) in (1u16..).zip(&stops) {
        for (to, &alight) in (1..).zip(&stops).filter(|&(to, _)| to != from) {
            let query = Query { from: from.into(), to: to.into(), minute: board };
            let rows: Vec<Connection> =
                (board < alight).then(|| along(&[board, alight], Vec::new(), to)).into_iter().collect();
            direct.ask_for(&mut host, query, &rows);
        }
    }
    for [from, by, to] in [[1, 2, 16], [1, 5, 16], [1, 15, 16], [2, 5, 8], [4, 5, 6], [3, 9, 12], [5, 10, 14]] {
        let stops = [from, by, to].map(|station| stops[usize::from(station) - 1]);
        let store = Store { nodes: vec![(by, by, 0)], arcs: vec![(to, 1)] };
        let changing = WithStore::new(&timetable, store.to_words(), &mut random);
        let query = Query { from: from.into(), to: to.into(), minute: stops[0] };
        changing.ask_for(&mut host, query, &[along(&stops, vec![(by, by)], to)]);
    }
}

#[test]
fn penalties_that_differ_by_more_than_a_word_tells() {
    for (quick, slow, both) in PENALTIES_PAST_A_WORD {
        let trips = [detour(1, 2, 0, 1_400, quick), detour(1, 2, 0, 1_500, slow)];
        let mut shown = vec![
            (1_400, quick, vec![[1, 1, trips[0].len() as u32]]),
            (1_500, slow, vec![[2, 1, trips[1].len() as u32]]),
        ];
        shown.truncate(if both { 2 } else { 1 });
        let text = text(&[(0, 1_000); 4], &[&trips[0], &trips[1]]);
        assert_eq!(rows_from(&text, &[0, 1, 2, 0], 1, 2, 0), Ok(shown), "{quick} and {slow}");
        assert!(rows(&text, 1, 2, 0).is_ok());
    }
}

#[test]
fn dear_rides_before_and_after_a_change() {
    // 131,546 points with the change of 1,000, and a direct ride that arrives a minute before or after
    for (direct_arrives, change_minutes) in [(1_399, 3), (1_401, 3), (1_401, 4)] {
        let trips =
            [detour(1, 2, 0, 660, 65_546), detour(2, 5, 663, 1_400, 65_000), detour(1, 5, 0, direct_arrives, 500)];
        let text = text(&[(change_minutes, 1_000); 5], &[&trips[0], &trips[1], &trips[2]]);
        let direct = (direct_arrives.into(), 500, vec![[3, 1, 6]]);
        let changing = (1_400, 131_546, vec![[1, 1, 657], [2, 1, 651]]);
        let shown = if direct_arrives > 1_400 && change_minutes == 3 { vec![changing, direct] } else { vec![direct] };
        assert_eq!(rows_from(&text, &[1, 2, 2, 2, 0, 5, 0, 5, 1], 1, 5, 0), Ok(shown));
    }
}

#[test]
fn rides_without_end() {
    // 64 stations in a row with a change at each: one row of 63 rides
    let trips: Vec<_> = (1..64).map(|station| hop(station, station + 1, station, station + 1, 0)).collect();
    let chain = text_of_hops(&[(0, 1_000); 64], &trips);
    let rides: Vec<[u32; 3]> = (1..64).map(|trip| [trip, 1, 2]).collect();
    assert_eq!(rows(&chain, 1, 64, 0), Ok(vec![(64, 62_000, rides.clone())]));
    assert_eq!(rows(&chain, 1, 64, 1), Ok(vec![(63, 62_000, rides)]));
    assert_eq!(rows(&chain, 1, 64, 2), Err(14));
    // the sequence without its first change is another
    let mut store =
        Store::from_words(&expected::store_words(&accepted(&chain), 1).expect("a store")).expect("its words");
    store.nodes[0] = (3, 3, 0);
    assert_eq!(rows_from(&chain, &store.to_words(), 1, 64, 0), Err(14));
}

#[test]
fn queries_from_the_largest_stores() {
    let mut host = Host::new(25);
    for diamonds in [
        Diamonds { count: 8, late: false, beyond: false, chain: 3 },
        Diamonds { count: 8, late: true, beyond: true, chain: 4 },
        Diamonds { count: 12, late: false, beyond: false, chain: 3 },
    ] {
        let timetable = diamonds.timetable();
        let last = 1 + 3 * diamonds.count as u32;
        let targets = if diamonds.count < 12 { vec![2, 3, 4, last - 1, last, last + 1] } else { vec![last] };
        let network = Network::new(&timetable);
        let words = search::patterns(&network, 1).expect("not too many").to_words();
        let sequences = Store::from_words(&words).expect("all its words").sequences();
        let struck: BTreeSet<Sequence> =
            sequences.iter().filter(|(changes, _)| changes.first() != Some(&(2, 2))).cloned().collect();
        for sequences in [sequences, struck] {
            let lent = WithStore::new(&timetable, store::to_words(&sequences).expect("fewer"), &mut Random::new(26));
            let guide = Guide::new(&sequences);
            for &to in &targets {
                let query = Query { from: 1, to, minute: 0 };
                lent.ask_for(&mut host, query, &guide.rows(&network, query));
            }
        }
    }
}
