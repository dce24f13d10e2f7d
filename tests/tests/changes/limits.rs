//! The most trips and stops that may run after a change, and lines of any number of bytes.

use crate::{second, Room};
use dairyepoch_tests::examples::M;
use dairyepoch_tests::ffi::Reply;
use dairyepoch_tests::generate::with_trips;
use dairyepoch_tests::lines::lines;
use dairyepoch_tests::random::Random;
use dairyepoch_tests::timetable::{clock, trip_text, Stop, Timetable};

/// A trip to and fro between stations 1 and 2, a minute from each stop to the next.
fn shuttle(trip: u32, stops: usize) -> String {
    let line = |number: usize| {
        let time = clock(number as u16);
        let arrive = if number > 1 { &time[..] } else { "" };
        let (depart, penalty) = if number < stops { (&time[..], "0") } else { ("", "") };
        format!("T,{trip},{number},{},{arrive},{depart},{penalty},0\n", 2 - number % 2)
    };
    (1..=stops).map(line).collect()
}

#[test]
fn the_limits_count_the_stops_that_run() {
    let mut room = Room::text(M);
    room.adds(9_999, shuttle(9_999, 2_041), 3);
    assert_eq!(room.tables.timetable[2], 2_048);
    for text in [second(5), "T,5,1,9,,08:23,0,0\n".into(), "T,5,1,2,,08:23,0,0\n".into()] {
        room.refuses(5, text, 5, 1);
    }
    room.refuses(5, "T,6,1,2,,08:23,0,0\n", 4, 1);
    room.refuses(5, "T,5,1,2,,48:00,0,0\n", 3, 1);
    room.cancels(9_999, 2);
    room.refuses(9_999, shuttle(9_999, 2_042), 5, 2_042);
    room.refuses(9_999, shuttle(9_999, 2_043), 5, 2_042);
    room.refuses(9_999, shuttle(9_999, 2_879), 5, 2_042);
    room.cancels(1, 1);
    room.adds(9_999, shuttle(9_999, 2_042), 2);
    room.refuses(1, "T,1,1,1,,08:00,0,0\nT,1,2,2,08:20,08:21,0,0\nT,1,3,3,09:20,,,0\n", 5, 3);
    room.adds(1, "T,1,1,1,,08:00,0,0\nT,1,2,2,08:20,,,0\n", 3);
    assert_eq!(room.tables.timetable[..3], [3, 4, 2_048]);
    room.refuses(2_000, second(2_000), 5, 1);
}

#[test]
fn one_trip_of_all_stops() {
    let mut room = Room::text("S,1,0,1\nS,2,0,1\n");
    room.refuses(9_999, shuttle(9_999, 2_049), 5, 2_049);
    room.adds(9_999, shuttle(9_999, 2_048), 1);
    room.refuses(1, second(1), 5, 1);
    assert_eq!(room.rows(1, 2, 0), Ok(vec![2, 0, 1, 9_999, 1, 2]));
    room.cancels(9_999, 0);
    room.adds(1, shuttle(1, 2_048), 1);
}

#[test]
fn the_limits_count_the_trips_that_run() {
    let mut random = Random::new(4);
    let mut model = with_trips(&mut random, 3, &[2; 256]);
    let mut room = Room::new(&model);
    let stops = model.trips[&1].clone();
    let text = |trip: u32| trip_text(trip, &stops);
    for trip in [257, 300, 9_999] {
        room.refuses(trip, text(trip), 5, 1);
        room.refuses(trip, "T,257,1,9,,08:00,0,0\n", if trip == 257 { 5 } else { 4 }, 1);
        room.refuses(trip, format!("T,{trip},1,1,,08:00,0,0"), 2, 1);
        room.refuses(trip, format!("T,{trip},1,1,,48:00,0,0\n"), 3, 1);
    }
    room.refuses(256, text(256), 19, 0);
    // cancelled ones make way, whichever they are
    for (cancelled, added) in [(1, 257), (256, 1), (100, 9_999), (9_999, 5_000), (257, 256)] {
        assert_eq!(room.cancel(cancelled).number, 0);
        model.trips.remove(&(cancelled as u16));
        assert_eq!(room.add(added, text(added)), Reply::done(lines(&with(&model, added, &stops)).len()));
        model.trips.insert(added as u16, stops.clone());
        room.holds(&model);
        let next = (1..=9_999).find(|next| !model.trips.contains_key(&(*next as u16))).expect("a free number");
        room.refuses(next, text(next), 5, 1);
    }
}

/// The timetable with one more trip.
fn with(timetable: &Timetable, trip: u32, stops: &[Stop]) -> Timetable {
    let mut with = timetable.clone();
    with.trips.insert(trip as u16, stops.to_vec());
    with
}

#[test]
fn no_number_of_bytes_refuses_an_extra_trip() {
    let mut room = Room::text(M);
    for length in [65_535, 65_536, 65_537, 70_000, 2 * 65_536, 1_000_000] {
        for byte in [b'x', b'1', b' ', 0, 255] {
            room.refuses(5, vec![byte; length], 2, 1);
        }
        room.refuses(5, vec![b'\n'; length], 2, 1);
        // a whole trip, and behind it what belongs to none
        let mut text = second(5).into_bytes();
        text.resize(length, b'x');
        room.refuses(5, &text, 2, 3);
        *text.last_mut().expect("not empty") = b'\n';
        room.refuses(5, &text, 2, 3);
        room.refuses(3, &text, 19, 0);
    }
    // more than 65,536 bytes of lines that are each of good shape
    let long = shuttle(5, 2_048) + &second(5).repeat(2_000);
    assert!(long.len() > 65_536);
    room.refuses(5, &long, 5, 2_042);
    room.cancels(1, 1);
    room.cancels(2, 1);
    room.cancels(3, 0);
    room.refuses(5, &long, 4, 2_049);
    room.refuses(5, second(5) + &second(6).repeat(3_000), 4, 3);
    room.refuses(5, "T,0,1,2,,08:23,0,0\n".repeat(5_000), 3, 1);
    room.refuses(5, "S,4,0,1\n".repeat(10_000), 4, 1);
}
