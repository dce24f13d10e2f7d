//! Sequences of changes that lead to the same words.

use crate::Room;
use dairyepoch_tests::ffi::Reply;
use dairyepoch_tests::generate::{any_timetable, every_trip, largest, overtaking, with_shared_ways, LARGE};
use dairyepoch_tests::lines::lines;
use dairyepoch_tests::random::Random;
use dairyepoch_tests::timetable::{trip_text, Station, Timetable};

#[test]
fn cancelling_and_adding_the_same_lines_gives_back_the_same_words() {
    let mut random = Random::new(16);
    let small: Vec<Timetable> = (0..150).map(|_| any_timetable(&mut random)).collect();
    let large = [with_shared_ways(&mut random, &LARGE), largest(&mut random), overtaking()];
    let mut changed = 0;
    for (at, timetable) in small.iter().chain(&large).enumerate() {
        let mut room = Room::new(timetable);
        let before = room.tables.clone();
        for (&trip, stops) in timetable.trips.iter().filter(|_| at < small.len() || random.one_in(30)) {
            assert_eq!(room.cancel(trip.into()).number, 0);
            assert!(room.tables.timetable != before.timetable && room.tables.lines != before.lines);
            room.adds(trip.into(), trip_text(trip.into(), stops), lines(timetable).len());
            assert!(room.tables.timetable == before.timetable, "all words are the same as before");
            room.holds(timetable);
            changed += 1;
        }
    }
    assert!(changed > 300, "only {changed}");
}

#[test]
fn all_trips_cancelled_in_any_order_and_added_in_any_order() {
    let mut random = Random::new(17);
    for _ in 0..60 {
        let timetable = any_timetable(&mut random);
        let mut room = Room::new(&timetable);
        let before = room.tables.clone();
        let mut in_any_order = || {
            let mut order: Vec<u16> = timetable.trips.keys().copied().collect();
            for at in 1..order.len() {
                order.swap(at, random.within(0..=at));
            }
            order
        };
        let (there, back) = (in_any_order(), in_any_order());
        for trip in there {
            assert_eq!(room.cancel(trip.into()).number, 0);
        }
        room.holds(&timetable.without_trips());
        for trip in back {
            let text = trip_text(trip.into(), &timetable.trips[&trip]);
            assert_eq!(room.add(trip.into(), text).number, 0);
        }
        assert!(room.tables.timetable == before.timetable, "all words are the same as before");
        room.holds(&timetable);
    }
}

/// Every sequence of four changes, of trips 1 to 3 and two ways to come back.
#[test]
fn every_short_sequence_of_changes() {
    let ways = [every_trip(2, 2, 2)[0].clone(), every_trip(2, 2, 2)[3].clone()];
    let stations = vec![Station { change_minutes: 0, change_penalty: 1 }; 2];
    let begin = Timetable::new(stations, [ways[0].clone()]);
    let mut replies = [0; 20];
    for choice in 0..9usize.pow(4) {
        let mut room = Room::new(&begin);
        let mut model = begin.clone();
        for place in 0..4 {
            let change = choice / 9usize.pow(place) % 9;
            let trip = change as u16 % 3 + 1;
            let (reply, number) = match change / 3 {
                0 => (room.cancel(trip.into()), if model.trips.remove(&trip).is_some() { 0 } else { 18 }),
                way => {
                    let stops = &ways[way - 1];
                    let runs = model.trips.contains_key(&trip);
                    model.trips.entry(trip).or_insert(stops.clone());
                    (room.add(trip.into(), trip_text(trip.into(), stops)), if runs { 19 } else { 0 })
                }
            };
            let count = if number == 0 { lines(&model).len() } else { 0 };
            assert_eq!(reply, Reply { number, beside: count as u32 });
            replies[number as usize] += 1;
            room.holds(&model);
        }
    }
    assert!([0, 18, 19].iter().all(|&number| replies[number] > 1_000), "by reply number: {replies:?}");
}
