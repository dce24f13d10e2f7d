//! Generated timetables with walks, against the list and the search.

use std::cmp::Ordering::{self, Greater, Less};
use std::collections::BTreeMap;

use dairyepoch_tests::connections::{self, Connection, Rule};
use dairyepoch_tests::direct::Query;
use dairyepoch_tests::expected;
use dairyepoch_tests::ffi::Reply;
use dairyepoch_tests::following::Guide;
use dairyepoch_tests::generate::{
    changing, crowded, largest, rural, timetable, walked, with_gaps, with_platforms, with_trips, with_walks, Size,
    BUSY, CHANGING, CROWDED, MIDDLING, SMALL,
};
use dairyepoch_tests::host::{Host, QUERY_WORDS, STORE_WORDS};
use dairyepoch_tests::lent::Lent;
use dairyepoch_tests::random::Random;
use dairyepoch_tests::search::{self, Network};
use dairyepoch_tests::store::Store;
use dairyepoch_tests::timetable::{Timetable, Walk, WALKS_MOST};
use dairyepoch_tests::words::{to_words, TIMETABLE_WORDS};

/// What must have been met among the rows of generated timetables with walks.
#[derive(Debug, Default)]
struct Met {
    stores: usize,
    rows: usize,
    on_foot: usize,
    /// Changes along a platform, by how the walk compares with the station's own change in minutes and in penalty.
    platforms: BTreeMap<(Ordering, Ordering), usize>,
    /// Stores and answers that would be others if the S line alone counted at a platform.
    not_by_station: [usize; 2],
    /// Stores and answers that would be others if both ways were open.
    not_by_both: [usize; 2],
    to_the_target: usize,
    from_the_source: usize,
}

impl Met {
    fn count(&mut self, timetable: &Timetable, query: Query, row: &Connection) {
        self.rows += 1;
        self.on_foot += usize::from(row.is_on_foot());
        self.to_the_target += usize::from(row.changes.iter().any(|change| u32::from(change.1) == query.to));
        self.from_the_source += usize::from(row.changes.iter().any(|change| u32::from(change.0) == query.from));
        for kind in row.platforms(timetable) {
            *self.platforms.entry(kind).or_default() += 1;
        }
    }

    /// Whether walks along platforms that are quicker or slower, and cheaper or dearer, were taken at least so often
    /// each, and as many stores and answers would be others by either other rule.
    fn has_platforms(&self, least: usize) -> bool {
        let kinds = [(Less, Less), (Less, Greater), (Greater, Less), (Greater, Greater)];
        let others = [self.not_by_station, self.not_by_both];
        kinds.iter().all(|kind| self.platforms.get(kind).is_some_and(|&count| count >= least))
            && others.concat().iter().all(|&count| count >= least)
    }
}

/// Has the stores of all sources made and all queries asked from them, at the minutes that matter.
fn all_of(host: &mut Host, plain: &Timetable, met: &mut Met, random: &mut Random) {
    let on_foot = walked(random, plain);
    let on_foot = if random.one_in(2) { with_platforms(random, &on_foot) } else { on_foot };
    let timetable = with_gaps(random, &on_foot);
    let lent = Lent::new(&timetable, random);
    let network = Network::new(&timetable);
    let mut by_station = timetable.clone();
    by_station.walks.retain(|walk| walk.from != walk.to);
    let by_station = Network::new(&by_station);
    let by_both = Network::by(&timetable, Rule::BothOpen);
    let stations = timetable.stations.len() as u32;
    for from in 1..=stations {
        let Some(list) = connections::list(&timetable, from, expected::LISTED_MOST) else { continue };
        assert_eq!(lent.make_store(host, from).number, 0);
        met.stores += 1;
        let store = expected::store_words(&timetable, from).expect("a store that is made");
        let other = |network: &Network| search::patterns(network, from).expect("not too many").to_words() != store;
        met.not_by_station[0] += usize::from(other(&by_station));
        met.not_by_both[0] += usize::from(other(&by_both));
        let minutes = network.minutes(from);
        for to in (1..=stations).filter(|&to| to != from) {
            for minute in minutes.iter().flat_map(|&departure| [departure, departure + 1]) {
                let query = Query { from, to, minute };
                let feasible = |one: &&Connection| u32::from(one.to) == to && one.depart >= minute;
                let rows = connections::rows(list.iter().filter(feasible), minute);
                let expected = expected::answer_of(&rows, query, QUERY_WORDS);
                host.query_as(lent.with(&store), query, QUERY_WORDS, expected);
                rows.iter().for_each(|row| met.count(&timetable, query, row));
                met.not_by_station[1] += usize::from(search::whole(&by_station, query) != rows);
                met.not_by_both[1] += usize::from(search::whole(&by_both, query) != rows);
            }
        }
    }
}

#[test]
fn all_queries_of_villages_where_changing_pays() {
    let mut host = Host::new(19);
    let mut random = Random::new(20);
    let mut met = Met::default();
    let villages = Size { stations: 4..=8, ..CHANGING };
    for at in 0..400 {
        let plain = changing(&mut random, if at % 2 == 0 { &CHANGING } else { &villages });
        all_of(&mut host, &plain, &mut met, &mut random);
    }
    assert!(met.stores > 1_000 && met.rows > 10_000 && met.on_foot > 500 && met.has_platforms(50), "{met:?}");
    assert!(met.to_the_target > 5 && met.from_the_source > 5, "{met:?}");
}

#[test]
fn all_queries_of_other_villages() {
    let mut host = Host::new(21);
    let mut random = Random::new(22);
    let mut met = Met::default();
    let rounds = Size { stations: 2..=4, trips: 2..=5, stops_of_a_trip: 3..=7 };
    for _ in 0..100 {
        let timetables =
            [crowded(&mut random, &CROWDED), timetable(&mut random, &SMALL), changing(&mut random, &rounds)];
        for plain in &timetables {
            all_of(&mut host, plain, &mut met, &mut random);
        }
    }
    assert!(met.stores > 500 && met.rows > 2_000 && met.on_foot > 10 && met.has_platforms(5), "{met:?}");
}

/// Has the stores of these sources made and some queries asked from them, with the search's answers beside them. How
/// many rows there were, with changes on foot to another station, and along platforms.
fn searched(timetable: &Timetable, sources: impl Iterator<Item = u32>, random: &mut Random) -> [usize; 3] {
    let mut host = Host::new(23);
    let lent = Lent::new(timetable, random);
    let network = Network::new(timetable);
    let mut met = [0; 3];
    for from in sources {
        let words = search::patterns(&network, from).expect("not too many").to_words();
        let expected = (Reply::done(words.len()), words.clone());
        host.make_store_as(&lent.timetable, &lent.lines, from, STORE_WORDS, expected);
        let minutes: Vec<u32> = network.minutes(from).into_iter().chain([0]).collect();
        let guide = Guide::new(&Store::from_words(&words).expect("a store").sequences());
        for _ in 0..12 {
            let to = random.within(1..=timetable.stations.len()) as u32;
            if to == from {
                continue;
            }
            let query = Query { from, to, minute: random.pick(&minutes) };
            let rows = search::whole(&network, query);
            assert_eq!(guide.rows(&network, query), rows);
            let expected = expected::answer_of(&rows, query, QUERY_WORDS);
            host.query_as(lent.with(&words), query, QUERY_WORDS, expected);
            met[0] += rows.len();
            met[1] += rows.iter().filter(|row| row.is_on_foot()).count();
            met[2] += rows.iter().filter(|row| row.platforms(timetable).next().is_some()).count();
        }
    }
    met
}

#[test]
fn villages_at_the_limits() {
    let mut random = Random::new(24);
    for (rounds, walks) in [(8, 64), (8, WALKS_MOST), (2, WALKS_MOST)] {
        let timetable = with_walks(&mut Random::new(25), &rural(&mut Random::new(10), rounds), walks);
        let [rows, on_foot, _] = searched(&timetable, (1..=64).step_by(3), &mut random);
        assert!(rows > 100 && on_foot > 50, "{rounds}, {walks}: {rows}, {on_foot}");
    }
    let busy = changing(&mut Random::new(26), &BUSY);
    let timetable = with_walks(&mut Random::new(27), &busy, WALKS_MOST);
    searched(&timetable, (1..=64).step_by(9), &mut random);
}

#[test]
fn platforms_at_the_limits() {
    let mut random = Random::new(34);
    for rounds in [8, 2] {
        let timetable = with_walks(&mut Random::new(35), &rural(&mut Random::new(10), rounds), WALKS_MOST - 64);
        let timetable = with_platforms(&mut random, &timetable);
        let met = searched(&timetable, (1..=64).step_by(3), &mut random);
        assert!(met.iter().all(|&count| count > 50), "{rounds}: {met:?}");
    }
}

/// A store call keeps what is caught on foot for some of the arrivals only: a shuttle calls 600 times at station 1, and
/// from there walks lead to all stations, which is more than there is room for.
#[test]
fn more_is_caught_on_foot_than_is_kept() {
    let mut random = Random::new(29);
    let mut lengths = vec![8; 100];
    lengths.extend([1_200]);
    let mut timetable = with_trips(&mut random, 64, &lengths);
    let shuttle = timetable.trips.last_entry().expect("a trip").into_mut();
    for (place, stop) in shuttle.iter_mut().enumerate() {
        stop.station = if place % 2 == 0 { 1 } else { 2 + (place / 2 % 3) as u16 };
    }
    let walk = |(from, to)| Walk { from, to, minutes: 1 + to % 7, penalty: 1 + to % 5 };
    let around = (1..=64).map(|to| (1, to)).chain((2..=4).flat_map(|from| (5..=60).map(move |to| (from, to))));
    timetable.walks = around.map(walk).collect();
    let [rows, on_foot, _] = searched(&timetable, (1..=64).step_by(9), &mut random);
    assert!(rows > 50 && on_foot > 20, "{rows}, {on_foot}");
}

#[test]
fn middling_villages() {
    let mut random = Random::new(28);
    let size = Size { stations: 5..=20, trips: 20..=60, stops_of_a_trip: 2..=10 };
    for _ in 0..6 {
        let plain = [changing(&mut random, &size), timetable(&mut random, &MIDDLING)];
        for plain in &plain {
            let timetable = walked(&mut random, plain);
            let stations = timetable.stations.len() as u32;
            searched(&timetable, 1..=stations, &mut random);
        }
    }
}

#[test]
fn slices_are_long_enough_for_every_walk() {
    let words = to_words(&with_walks(&mut Random::new(29), &largest(&mut Random::new(30)), WALKS_MOST));
    assert!(words.len() <= TIMETABLE_WORDS);
}
