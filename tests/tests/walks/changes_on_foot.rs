//! Changes on foot in rows and stores, number by number.

use crate::village;
use dairyepoch_tests::answers::{rides, rows, rows_from, store};
use dairyepoch_tests::examples::M;
use dairyepoch_tests::handmade::{hop, Numbers};
use dairyepoch_tests::reference::accepted;
use dairyepoch_tests::timetable::BOARDING_ONLY;

#[test]
fn walks_are_not_joined_and_not_reversed() {
    let trips: [&[Numbers]; 2] = [&hop(1, 2, 10, 20, 0), &hop(3, 4, 25, 30, 2)];
    assert_eq!(rows(&village(&[(0, 1); 4], &[(1, 3, 1, 1), (2, 1, 1, 1)], &trips), 1, 4, 0), Err(14));
    assert_eq!(rows(&village(&[(0, 1); 4], &[(3, 2, 1, 1)], &trips), 1, 4, 0), Err(14));
    assert_eq!(rows(&village(&[(0, 1); 4], &[(2, 3, 1, 1)], &trips), 1, 4, 0), Ok(vec![30, 3, 2, 1, 1, 2, 2, 1, 2]));
}

#[test]
fn a_walks_values_replace_both_stations() {
    let stations = [(0, 1), (9, 50), (9, 60), (0, 1)];
    let trips: [&[Numbers]; 2] = [&hop(1, 2, 10, 20, 0), &hop(3, 4, 25, 30, 2)];
    let timetable = village(&stations, &[(2, 3, 5, 7)], &trips);
    assert_eq!(rows(&timetable, 1, 4, 0), Ok(vec![30, 9, 2, 1, 1, 2, 2, 1, 2]));
    assert_eq!(store(&timetable, 1), [1, 2, 2, 3, 0, 2, 0, 4, 1]);
    assert_eq!(rows(&village(&stations, &[(2, 3, 6, 7)], &trips), 1, 4, 0), Err(14));
    // where one can only walk, a direct ride is none
    assert_eq!(rides(&timetable, 1, 4, 0), Err(14));
    assert_eq!(rides(&timetable, 2, 3, 0), Err(14));
    assert_eq!(rows(&timetable, 2, 3, 0), Err(14));
}

#[test]
fn no_walk_before_the_first_ride_or_after_the_last() {
    // to walk to the target is not to have arrived there: one boards at it and rides a round
    let round = [(3, 0, 17, 4), (4, 20, 20, 0), (3, 25, 0, 0)];
    let to_target = village(&[(0, 1); 4], &[(2, 3, 2, 3)], &[&hop(1, 2, 10, 15, 0), &round]);
    assert_eq!(rows(&to_target, 1, 3, 0), Ok(vec![25, 7, 2, 1, 1, 2, 2, 1, 3]));
    assert_eq!(store(&to_target, 1), [1, 3, 2, 3, 0, 2, 0, 3, 1, 4, 1]);
    // and one who is to walk from the source rides a round first
    let round = [(1, 0, 10, 0), (2, 15, 15, 0), (1, 20, 0, 0)];
    let from_source = village(&[(0, 1); 4], &[(1, 3, 2, 3)], &[&round, &hop(3, 4, 22, 30, 0)]);
    assert_eq!(rows(&from_source, 1, 4, 0), Ok(vec![30, 3, 2, 1, 1, 3, 2, 1, 2]));
    assert_eq!(store(&from_source, 1), [1, 2, 1, 3, 0, 2, 0, 4, 1]);
}

#[test]
fn several_walks_in_one_connection() {
    let trips: [&[Numbers]; 4] =
        [&hop(1, 2, 10, 20, 1), &hop(3, 4, 25, 30, 2), &hop(5, 6, 33, 40, 4), &hop(6, 7, 41, 50, 8)];
    let walks = [(2, 3, 5, 10), (4, 5, 3, 20), (6, 6, 1, 40)];
    let timetable = village(&[(9, 500); 7], &walks, &trips);
    assert_eq!(rows(&timetable, 1, 7, 0), Ok(vec![50, 85, 4, 1, 1, 2, 2, 1, 2, 3, 1, 2, 4, 1, 2]));
    assert_eq!(store(&timetable, 1), [3, 4, 2, 3, 0, 4, 5, 1, 6, 6, 2, 2, 0, 4, 1, 6, 2, 7, 3]);
    // a minute more on any of the walks, and the next bus has left
    for late in 0..3 {
        let mut walks = walks;
        walks[late].2 += 1;
        let timetable = village(&[(9, 500); 7], &walks, &trips);
        assert_eq!(rows(&timetable, 1, 7, 0), Err(14));
        assert_eq!(store(&timetable, 1)[..2], [late as u16, late as u16 + 1]);
    }
}

#[test]
fn the_same_trip_is_boarded_again_on_foot() {
    let trip = [(1, 0, 10, 0), (2, 20, 21, 100), (3, 40, 41, 1), (4, 50, 0, 0)];
    let timetable = village(&[(0, 1); 4], &[(2, 3, 5, 7)], &[&trip]);
    assert_eq!(rows(&timetable, 1, 4, 0), Ok(vec![50, 8, 2, 1, 1, 2, 1, 3, 4]));
}

#[test]
fn a_change_at_the_station_has_no_precedence() {
    let stations = [(0, 1), (0, 5), (0, 1), (0, 1)];
    let trips: [&[Numbers]; 3] = [&hop(1, 2, 10, 20, 0), &hop(3, 4, 25, 30, 0), &hop(2, 4, 25, 30, 0)];
    let timetable = village(&stations, &[(2, 3, 1, 5)], &trips);
    assert_eq!(rows(&timetable, 1, 4, 0), Ok(vec![30, 5, 2, 1, 1, 2, 2, 1, 2]));
    assert_eq!(store(&timetable, 1), [2, 3, 2, 2, 0, 2, 3, 0, 2, 0, 4, 1, 4, 2]);
}

#[test]
fn nodes_rise_by_the_station_alighted_at_then_the_one_boarded_at() {
    // from 3 on foot to 2 and to 4, and by a change at 3, and from 2 on foot to 5
    let trips: [&[Numbers]; 6] = [
        &hop(1, 3, 10, 20, 0),
        &hop(1, 2, 10, 20, 0),
        &hop(2, 6, 30, 40, 0),
        &hop(3, 6, 30, 40, 0),
        &hop(4, 6, 30, 40, 0),
        &hop(5, 6, 30, 40, 0),
    ];
    let walks = [(2, 5, 5, 1), (3, 2, 5, 1), (3, 4, 5, 1)];
    let timetable = village(&[(0, 1); 6], &walks, &trips);
    assert_eq!(
        store(&timetable, 1),
        [5, 7, 2, 2, 0, 2, 5, 0, 3, 2, 0, 3, 3, 0, 3, 4, 0, 2, 0, 3, 0, 6, 1, 6, 2, 6, 3, 6, 4, 6, 5]
    );
}

#[test]
fn a_pattern_of_64_rides() {
    // a round from 1 back to 1, on foot to 2, which nobody could alight at, then from each to the next, and to 2
    let mut trips: Vec<Vec<Numbers>> = vec![vec![(1, 0, 0, 0), (2, 1, 1, 0), (1, 2, 0, 0)]];
    trips.extend((2..64).map(|station| hop(station, station + 1, station + 1, station + 2, 0).to_vec()));
    trips.push(hop(64, 2, 65, 66, 0).to_vec());
    let trips: Vec<&[Numbers]> = trips.iter().map(|trip| &trip[..]).collect();
    let mut timetable = village(&[(0, 10); 64], &[(1, 2, 1, 7)], &trips);
    timetable.trips.get_mut(&1).expect("the round")[1].mark = BOARDING_ONLY;
    let mut expected = vec![66, 7 + 62 * 10, 64, 1, 1, 3];
    expected.extend((2..=64).flat_map(|trip| [trip, 1, 2]));
    assert_eq!(rows(&timetable, 1, 2, 0), Ok(expected));
    let words = store(&timetable, 1);
    assert_eq!(words[..2], [63, 63]);
    assert_eq!(words[2..8], [1, 2, 0, 3, 3, 1]);
    // who starts at 2 has a ride less
    assert_eq!(rows(&timetable, 2, 1, 0), Ok(vec![2, 0, 1, 1, 2, 3]));
}

#[test]
fn stores_of_pairs_without_a_walk_show_nothing_more() {
    let m = accepted(M);
    assert_eq!(rows_from(&m, &[1, 1, 2, 1, 0, 3, 1], 1, 3, 470), Err(14));
    assert_eq!(rows_from(&m, &[1, 1, 2, 4, 0, 3, 1], 1, 3, 470), Err(13));
    assert_eq!(rows_from(&m, &[1, 2, 2, 1, 0, 3, 0, 3, 1], 1, 3, 470), Ok(vec![90, 0, 1, 1, 1, 3]));
}
