//! Every call on every marking of small timetables, and on marked ones of all kinds.

use crate::{all_calls, minutes, unmarked};
use dairyepoch_tests::answers::{rows, store};
use dairyepoch_tests::direct::Query;
use dairyepoch_tests::examples::M;
use dairyepoch_tests::expected;
use dairyepoch_tests::ffi::{self, Reply};
use dairyepoch_tests::generate::{
    changing, crowded, every_marking, largest, long_lines, marked, overtaking, rural, timetable, with_gaps,
    with_shared_ways, CHANGING, CROWDED, LARGE, MIDDLING, SMALL,
};
use dairyepoch_tests::handmade::{hop, text, Numbers};
use dairyepoch_tests::host::{Host, QUERY_WORDS, STORE_WORDS};
use dairyepoch_tests::lent::Lent;
use dairyepoch_tests::lines::{lines, LINE_WORDS, WORK_WORDS};
use dairyepoch_tests::random::Random;
use dairyepoch_tests::reference::accepted;
use dairyepoch_tests::search::{self, Network};
use dairyepoch_tests::timetable::{Timetable, BOARDING_ONLY, SETTING_DOWN_ONLY};

#[test]
fn every_marking_of_m() {
    let mut host = Host::new(15);
    let mut random = Random::new(16);
    let mut found = [0; 2];
    for marked in every_marking(&accepted(M)) {
        let more = all_calls(&mut host, &marked, &[470, 502], &mut random);
        found = [found[0] + more[0], found[1] + more[1]];
    }
    assert!(found[0] > 2_000 && found[1] > 2_000, "{found:?}");
}

/// Every call on every marking of these trips between so many stations; how many rows and how many refusals with 14.
fn every_marking_of(stations: usize, trips: &[&[Numbers]], minutes: &[u32]) -> [usize; 2] {
    let mut host = Host::new(17);
    let mut random = Random::new(18);
    let timetable = accepted(&text(&[(1, 10), (1, 10), (0, 1), (0, 1)][..stations], trips));
    let mut found = [0; 2];
    for marked in every_marking(&timetable) {
        let more = all_calls(&mut host, &marked, minutes, &mut random);
        found = [found[0] + more[0], found[1] + more[1]];
    }
    found
}

/// Trips that meet stations twice: alone, behind a change, and before one.
#[test]
fn every_marking_of_loops() {
    let to_and_fro: [Numbers; 4] = [(1, 0, 0, 5), (2, 10, 11, 2), (1, 20, 21, 1), (2, 40, 0, 0)];
    let there_and_back = [(1, 0, 10, 0), (2, 20, 20, 50), (3, 30, 30, 50), (2, 40, 41, 0), (1, 50, 0, 0)];
    let comes_back = [(2, 0, 10, 7), (3, 15, 15, 7), (2, 20, 21, 0), (4, 30, 0, 0)];
    let came_back = [(1, 0, 0, 3), (2, 5, 5, 3), (4, 10, 10, 3), (2, 15, 0, 0)];
    for found in [
        every_marking_of(2, &[&to_and_fro], &[0, 1]),
        every_marking_of(3, &[&there_and_back], &[0]),
        every_marking_of(4, &[&hop(1, 2, 0, 5, 0), &comes_back], &[0]),
        every_marking_of(4, &[&came_back, &hop(2, 3, 16, 20, 0)], &[0]),
    ] {
        assert!(found[0] > 50 && found[1] > 100, "{found:?}");
    }
}

/// A change to one of two trips of a line, which some marks part.
#[test]
fn every_marking_of_a_change() {
    let through = [(1, 0, 10, 1), (2, 20, 20, 1), (3, 30, 0, 0)];
    let found = every_marking_of(3, &[&through, &hop(2, 3, 21, 25, 0), &hop(2, 3, 22, 26, 0)], &[0, 21]);
    assert!(found[0] > 2_000 && found[1] > 2_000, "{found:?}");
}

/// A change to a trip that comes back to the station of the change: where nobody may board there again, the ride from
/// the first call goes through it, and where nobody may alight at the first, the next one is alighted at.
#[test]
fn changes_to_and_from_trips_that_come_back() {
    let stations = [(1, 10), (1, 10), (0, 1), (0, 1)];
    let comes_back = [(2, 0, 10, 7), (3, 15, 15, 7), (2, 20, 21, 0), (4, 30, 0, 0)];
    let mut timetable = accepted(&text(&stations, &[&hop(1, 2, 0, 5, 0), &comes_back]));
    assert_eq!(rows(&timetable, 1, 4, 0), Ok(vec![30, 10, 2, 1, 1, 2, 2, 3, 4]));
    timetable.trips.get_mut(&2).expect("it runs")[2].mark = SETTING_DOWN_ONLY;
    assert_eq!(rows(&timetable, 1, 4, 0), Ok(vec![30, 24, 2, 1, 1, 2, 2, 1, 4]));
    assert_eq!(store(&timetable, 1), [1, 3, 2, 2, 0, 2, 0, 3, 1, 4, 1]);
    timetable.trips.get_mut(&2).expect("it runs")[0].mark = SETTING_DOWN_ONLY;
    assert_eq!(rows(&timetable, 1, 4, 0), Err(14));
    let came_back = [(1, 0, 0, 3), (2, 5, 5, 3), (4, 10, 10, 3), (2, 15, 0, 0)];
    let mut timetable = accepted(&text(&stations, &[&came_back, &hop(2, 3, 16, 20, 0)]));
    assert_eq!(rows(&timetable, 1, 3, 0), Ok(vec![20, 13, 2, 1, 1, 2, 2, 1, 2]));
    timetable.trips.get_mut(&1).expect("it runs")[1].mark = BOARDING_ONLY;
    assert_eq!(rows(&timetable, 1, 3, 0), Ok(vec![20, 19, 2, 1, 1, 4, 2, 1, 2]));
    assert_eq!(store(&timetable, 1), [1, 3, 2, 2, 0, 2, 0, 3, 1, 4, 0]);
    timetable.trips.get_mut(&1).expect("it runs")[3].mark = BOARDING_ONLY;
    assert_eq!(rows(&timetable, 1, 3, 0), Err(14));
}

/// A trip that comes back to the source, where nobody may board it again.
#[test]
fn a_trip_that_comes_back_to_the_source() {
    let round = [(1, 0, 10, 1), (2, 20, 20, 1), (1, 30, 30, 1), (3, 40, 0, 0)];
    let mut timetable = accepted(&text(&[(0, 10); 3], &[&round]));
    assert_eq!(rows(&timetable, 1, 3, 0), Ok(vec![40, 1, 1, 1, 3, 4]));
    timetable.trips.get_mut(&1).expect("it runs")[2].mark = SETTING_DOWN_ONLY;
    assert_eq!(rows(&timetable, 1, 3, 0), Ok(vec![40, 3, 1, 1, 1, 4]));
    assert_eq!(rows(&timetable, 1, 3, 11), Err(14));
    assert_eq!(rows(&timetable, 2, 1, 0), Ok(vec![30, 1, 1, 1, 2, 3]));
    timetable.trips.get_mut(&1).expect("it runs")[0].mark = SETTING_DOWN_ONLY;
    assert_eq!(rows(&timetable, 1, 3, 0), Err(14));
    assert_eq!(store(&timetable, 1), [0, 0]);
}

/// How marks change what is found, over timetables of all kinds: a connection is gone, another has become the best.
#[test]
fn marks_of_all_kinds() {
    let mut host = Host::new(19);
    let mut random = Random::new(20);
    let (mut same, mut fewer, mut others, mut more_lines) = (0, 0, 0, 0);
    for at in 0..400 {
        let bare = match at % 4 {
            0 => timetable(&mut random, &SMALL),
            1 => crowded(&mut random, &CROWDED),
            2 => with_shared_ways(&mut random, &SMALL),
            _ => changing(&mut random, &CHANGING),
        };
        let bare = with_gaps(&mut random, &bare);
        let marked = marked(&mut random, &bare);
        let bare = unmarked(&marked);
        more_lines += usize::from(lines(&marked).len() > lines(&bare).len());
        let minutes: Vec<u32> = (0..3).map(|_| random.pick(&minutes(&marked))).collect();
        let gapless = Timetable {
            walks: marked.walks.clone(),
            ..Timetable::new(marked.stations.clone(), marked.trips.values().cloned())
        };
        all_calls(&mut host, &gapless, &minutes, &mut random);
        let [network, bare_network] = [&marked, &bare].map(Network::new);
        for from in 1..=marked.stations.len() as u32 {
            for to in (1..=marked.stations.len() as u32).filter(|&to| to != from) {
                let query = Query { from, to, minute: minutes[0] };
                let [now, before] = [&network, &bare_network].map(|network| search::whole(network, query));
                same += usize::from(now == before);
                fewer += usize::from(now.len() < before.len());
                others += usize::from(now.iter().any(|row| !before.contains(row)));
            }
        }
    }
    let counts = [same, fewer, others, more_lines];
    assert!(counts.iter().all(|&count| count > 20), "{counts:?}");
}

#[test]
fn timetables_at_the_limits_with_marks() {
    let mut host = Host::new(24);
    let mut random = Random::new(25);
    let unmarked = [largest(&mut random), rural(&mut random, 8), long_lines(), overtaking()];
    for bare in unmarked.into_iter().chain([with_shared_ways(&mut random, &LARGE)]) {
        let timetable = marked(&mut random, &bare);
        host.expect_read(timetable.to_text(), 0, (timetable.to_string().lines().count()) as u32);
        let lent = Lent::new(&timetable, &mut random);
        host.expect_lines(&lent.timetable, 0, lines(&timetable).len() as u32);
        assert_eq!(host.check_lines_alone(&lent.lines), 0);
        assert_eq!(host.times_by_trip(&lent.timetable, &lent.lines).number, 0);
        let network = Network::new(&timetable);
        for _ in 0..6 {
            let from = random.within(1..=64.min(timetable.stations.len())) as u32;
            let to = if from == 1 { 2 } else { from - 1 };
            let minutes: Vec<u32> = network.minutes(from).into_iter().chain([0]).collect();
            let query = Query { from, to, minute: random.pick(&minutes) };
            lent.direct(&mut host, query);
            let store = search::patterns(&network, from).expect("not too many").to_words();
            let made = (Reply::done(store.len()), store.clone());
            host.make_store_as(&lent.timetable, &lent.lines, from, STORE_WORDS, made);
            let rows = search::whole(&network, query);
            host.query_as(lent.with(&store), query, QUERY_WORDS, expected::answer_of(&rows, query, QUERY_WORDS));
        }
    }
}

/// Timetables that were read, built, and asked: what one call wrote is taken by the next.
#[test]
fn what_the_calls_write_of_marks_is_taken() {
    let mut random = Random::new(35);
    let mut host = Host::new(36);
    for size in [SMALL, MIDDLING] {
        for _ in 0..40 {
            let bare = timetable(&mut random, &size);
            let timetable = marked(&mut random, &bare);
            let mut work = vec![0; WORK_WORDS];
            let written = Lent::written(&timetable, &mut work, &mut random);
            assert_eq!(host.check_timetable(&written.timetable), 0);
            assert_eq!(host.check_lines(&written.timetable, &written.lines), 0);
            let mut by_trip = vec![0; LINE_WORDS];
            assert_eq!(ffi::times_by_trip(&written.timetable, &written.lines, &mut work, &mut by_trip).number, 0);
            assert_eq!(host.times_by_stop(&written.timetable, &by_trip).number, 0);
        }
    }
}
