//! What marks forbid to rides, and which marks make no difference.

use crate::{m_with, minutes, unmarked};
use dairyepoch_tests::answers::{rides, rows, store};
use dairyepoch_tests::direct::{self, Query};
use dairyepoch_tests::examples::M;
use dairyepoch_tests::ffi::Reply;
use dairyepoch_tests::generate::{changing, crowded, marked, CHANGING, CROWDED};
use dairyepoch_tests::host::Host;
use dairyepoch_tests::lent::Lent;
use dairyepoch_tests::random::Random;
use dairyepoch_tests::reference::accepted;
use dairyepoch_tests::timetable::{Stop, BOARDING_ONLY, BOTH, SETTING_DOWN_ONLY};
use dairyepoch_tests::{connections, expected};

#[test]
fn a_mark_forbids_to_alight() {
    // trip 1 sets nobody down at 2: the change there is gone, and who stays aboard rides through
    let closed = m_with(1, 2, BOARDING_ONLY);
    assert_eq!(rows(&closed, 1, 3, 470), Ok(vec![90, 0, 1, 1, 1, 3]));
    assert_eq!(rows(&closed, 1, 2, 470), Err(14));
    assert_eq!(rides(&closed, 1, 2, 470), Err(14));
    assert_eq!(rides(&closed, 1, 3, 470), Ok(vec![90, 0, 1, 1, 1, 3]));
    // to board there is free: who comes at 501 has trip 3 to 515 as before, who comes at 504 none
    assert_eq!(rides(&closed, 2, 3, 501), Ok(vec![14, 0, 1, 3, 1, 2]));
    assert_eq!(store(&closed, 1), [0, 1, 3, 0]);
    assert_eq!(store(&closed, 2), [0, 1, 3, 0]);
    // nobody alights from trip 1 at 3
    let closed = m_with(1, 3, BOARDING_ONLY);
    assert_eq!(rows(&closed, 1, 3, 470), Ok(vec![50, 10, 2, 1, 1, 2, 2, 1, 2]));
    assert_eq!(rides(&closed, 1, 3, 470), Err(14));
    assert_eq!(store(&closed, 1), [1, 2, 2, 2, 0, 2, 0, 3, 1]);
}

#[test]
fn a_mark_forbids_to_board() {
    // nobody boards trip 2 at 2: trip 3 leaves too early for a change
    let closed = m_with(2, 1, SETTING_DOWN_ONLY);
    assert_eq!(rows(&closed, 1, 3, 470), Ok(vec![90, 0, 1, 1, 1, 3]));
    assert_eq!(rows(&closed, 2, 3, 503), Err(14));
    assert_eq!(rides(&closed, 2, 3, 503), Err(14));
    assert_eq!(rides(&closed, 2, 3, 501), Ok(vec![14, 0, 1, 3, 1, 2]));
    assert_eq!(store(&closed, 1), [0, 2, 2, 0, 3, 0]);
    // nobody boards trip 1 at its first stop: nothing leaves station 1
    let closed = m_with(1, 1, SETTING_DOWN_ONLY);
    assert_eq!(store(&closed, 1), [0, 0]);
    assert_eq!(rows(&closed, 1, 3, 470), Err(14));
    // trip 1 sets down at 2 and takes nobody in there: the change is as it was
    let closed = m_with(1, 2, SETTING_DOWN_ONLY);
    assert_eq!(rows(&closed, 1, 3, 470), Ok(vec![50, 10, 2, 1, 1, 2, 2, 1, 2, 90, 0, 1, 1, 1, 3]));
    assert_eq!(store(&closed, 1), [1, 3, 2, 2, 0, 2, 0, 3, 0, 3, 1]);
}

/// Marks that make no difference to riders: boarding only at a first stop, setting down only at a last one.
#[test]
fn a_mark_that_forbids_nothing_changes_no_row() {
    for (trip, stop, mark) in [(1, 1, BOARDING_ONLY), (1, 3, SETTING_DOWN_ONLY), (2, 1, 1), (3, 1, 1), (3, 2, 2)] {
        let marked = m_with(trip, stop, mark);
        for source in 1..=3 {
            assert_eq!(store(&marked, source), store(&accepted(M), source));
        }
        for (from, to, minute) in [(1, 3, 470), (1, 3, 481), (2, 3, 501), (2, 3, 503)] {
            assert_eq!(rows(&marked, from, to, minute), rows(&accepted(M), from, to, minute));
        }
    }
}

#[test]
fn marks_without_sense_are_accepted() {
    let text = "S,1,0,1\nS,2,0,1\nT,1,1,1,,00:10,0,2\nT,1,2,2,00:20,,,1\n";
    Host::new(7).expect_read(text, 0, 4);
    let timetable = accepted(text);
    assert_eq!(rows(&timetable, 1, 2, 0), Err(14));
    assert_eq!(rides(&timetable, 1, 2, 0), Err(14));
    assert_eq!([1, 2].map(|source| store(&timetable, source)), [[0, 0], [0, 0]]);
}

/// Every connection of the list keeps to the marks of its stops, and every ride of a trip that does is on it.
#[test]
fn the_list_keeps_to_the_marks() {
    let mut random = Random::new(21);
    let (mut kept, mut left_out) = (0, 0);
    for _ in 0..400 {
        let bare = crowded(&mut random, &CROWDED);
        let timetable = marked(&mut random, &bare);
        for from in 1..=timetable.stations.len() as u32 {
            let list = connections::list(&timetable, from, 20_000);
            let whole = connections::list(&unmarked(&timetable), from, 20_000);
            let (Some(list), Some(whole)) = (list, whole) else { continue };
            let allowed = |&[trip, board, alight]: &[u32; 3]| {
                let stop = |number: u32| timetable.trips[&(trip as u16)][number as usize - 1].mark;
                stop(board) != SETTING_DOWN_ONLY && stop(alight) != BOARDING_ONLY
            };
            let expected: Vec<_> = whole.iter().filter(|connection| connection.rides.iter().all(allowed)).collect();
            assert_eq!(list.iter().collect::<Vec<_>>(), expected, "from {from} of\n{timetable}");
            kept += list.len();
            left_out += whole.len() - list.len();
        }
    }
    assert!(kept > 1_000 && left_out > 1_000, "{kept}, {left_out}");
}

/// A station at which nobody may board has an empty store, and one at which nobody may alight is nobody's target.
#[test]
fn stations_where_nobody_may_board_or_alight() {
    let mut host = Host::new(22);
    let mut random = Random::new(23);
    let mut called_at = [0; 2];
    for _ in 0..150 {
        let mut timetable = changing(&mut random, &CHANGING);
        let stations = timetable.stations.len() as u32;
        let closed = random.within(1..=stations as usize) as u32;
        for (side, mark) in [SETTING_DOWN_ONLY, BOARDING_ONLY].into_iter().enumerate() {
            let calls = |stop: &&mut Stop| u32::from(stop.station) == closed;
            for stop in timetable.trips.values_mut().flatten().filter(calls) {
                stop.mark = mark;
                called_at[side] += 1;
            }
            let lent = Lent::new(&timetable, &mut random);
            let minutes = minutes(&timetable);
            for other in (1..=stations).filter(|&other| other != closed) {
                let minute = random.pick(&minutes);
                let (from, to) = if mark == SETTING_DOWN_ONLY { (closed, other) } else { (other, closed) };
                let query = Query { from, to, minute };
                assert_eq!(lent.direct(&mut host, query), Reply::refused(14));
                let store = expected::store_words(&timetable, from).expect("a store that is made");
                assert_eq!(lent.make_store(&mut host, from), Reply::done(store.len()));
                assert_eq!(host.query(lent.with(&store), query), Reply::refused(14));
                // nor is there one from a store that has every station as a target and as a change
                assert_eq!(host.query(lent.with(&everything(stations as u16)), query), Reply::refused(14));
                let targets = store[2 + 3 * usize::from(store[0])..].iter().step_by(2);
                assert!(targets.into_iter().all(|&target| u32::from(target) != closed || from == closed));
                assert!(from != closed || store == [0, 0]);
            }
        }
    }
    assert!(called_at.iter().all(|&calls| calls > 200), "{called_at:?}");
}

/// A store of all sequences with at most one change, between any two stations.
fn everything(stations: u16) -> Vec<u16> {
    let nodes = stations * stations;
    let mut words = vec![nodes, stations * (nodes + 1)];
    words.extend((1..=stations).flat_map(|alighted| (1..=stations).flat_map(move |boarded| [alighted, boarded, 0])));
    words.extend((1..=stations).flat_map(|target| (0..=nodes).flat_map(move |node| [target, node])));
    words
}

/// The scan and the list of direct rides, with marks: a stop that is ridden through, where nobody may board or alight.
#[test]
fn rides_go_through_stops_that_are_closed() {
    let trip = |marks: [u16; 5]| {
        let [a, b, c, d, e] = marks;
        accepted(&format!(
            "S,1,0,1\nS,2,0,1\nS,3,0,1\nT,1,1,1,,00:10,1,{a}\nT,1,2,2,00:20,00:21,2,{b}\nT,1,3,1,00:30,00:31,4,{c}\n\
             T,1,4,2,00:40,00:41,8,{d}\nT,1,5,3,00:50,,,{e}\n"
        ))
    };
    // from 1 to 2: to board at the second call of 1 departs latest, to board at the first arrives first
    let open = trip([BOTH; 5]);
    assert_eq!(rides(&open, 1, 2, 0), Ok(vec![20, 1, 1, 1, 1, 2]));
    assert_eq!(rides(&open, 1, 2, 11), Ok(vec![29, 4, 1, 1, 3, 4]));
    assert_eq!(rides(&open, 1, 3, 0), Ok(vec![50, 12, 1, 1, 3, 5]));
    // nobody may board at the second call: the ride from the first goes through it
    let closed = trip([0, 0, 2, 0, 0]);
    assert_eq!(rides(&closed, 1, 3, 0), Ok(vec![50, 15, 1, 1, 1, 5]));
    assert_eq!(rides(&closed, 1, 2, 11), Err(14));
    // nobody may alight at the first call of 2: the next one is ridden to
    let closed = trip([0, 1, 0, 0, 0]);
    assert_eq!(rides(&closed, 1, 2, 0), Ok(vec![40, 4, 1, 1, 3, 4]));
    let closed = trip([0, 1, 2, 0, 0]);
    assert_eq!(rides(&closed, 1, 2, 0), Ok(vec![40, 7, 1, 1, 1, 4]));
    // nobody may alight at either
    assert_eq!(rides(&trip([0, 1, 0, 1, 0]), 1, 2, 0), Err(14));
    // all rides of a trip, by its marks
    let query = Query { from: 1, to: 2, minute: 0 };
    let numbers = |marks: [u16; 5]| -> Vec<(u32, u32)> {
        direct::rides(&trip(marks), query).iter().map(|ride| (ride.board, ride.alight)).collect()
    };
    assert_eq!(numbers([0; 5]), [(1, 2), (1, 4), (3, 4)]);
    assert_eq!(numbers([1, 2, 1, 2, 2]), [(1, 2), (1, 4), (3, 4)]);
    assert_eq!(numbers([2, 0, 0, 0, 0]), [(3, 4)]);
    assert_eq!(numbers([0, 1, 0, 0, 0]), [(1, 4), (3, 4)]);
    assert_eq!(numbers([0, 0, 2, 0, 0]), [(1, 2), (1, 4)]);
    assert_eq!(numbers([0, 0, 0, 1, 0]), [(1, 2)]);
}
