//! W lines in a text.

use dairyepoch_tests::ffi::Reply;
use dairyepoch_tests::generate::long_trip;
use dairyepoch_tests::host::{lent, Host};
use dairyepoch_tests::random::Random;
use dairyepoch_tests::reference::{accepted, add};
use dairyepoch_tests::timetable::{trip_text, STOPS_MOST, TEXT_BYTES_MOST};
use dairyepoch_tests::words::to_words;

/// Reads S lines for so many stations, then these lines; number and line of the reply.
fn reply_to(stations: usize, lines: &str) -> (u32, u32) {
    let stations: String = (1..=stations).map(|station| format!("S,{station},0,1\n")).collect();
    let Reply { number, beside } = Host::new(1).read(format!("{stations}{lines}").as_bytes());
    (number, beside)
}

const TRIP: &str = "T,1,1,1,,00:10,0,0\nT,1,2,2,00:20,,,0\n";

#[test]
fn walks_stand_between_stations_and_trips() {
    assert_eq!(reply_to(2, &format!("W,1,2,5,5\n{TRIP}")), (0, 5));
    assert_eq!(reply_to(2, &format!("{TRIP}W,1,2,5,5\n")), (4, 5));
    assert_eq!(reply_to(2, "T,1,1,1,,00:10,0,0\nW,1,2,5,5\nT,1,2,2,00:20,,,0\n"), (4, 4));
    assert_eq!(reply_to(1, "W,1,1,5,5\nS,2,0,1\n"), (4, 3));
    assert_eq!(reply_to(0, "W,1,1,5,5\nS,1,0,1\n"), (6, 1));
    assert_eq!(reply_to(1, "W,1,1,5,5\n"), (0, 2));
}

#[test]
fn walks_rise_by_from_then_to() {
    for (lines, number, line) in [
        ("W,1,2,5,5\nW,1,2,6,6\n", 4, 5),
        ("W,1,2,5,5\nW,1,1,6,6\n", 4, 5),
        ("W,2,1,5,5\nW,1,2,6,6\n", 4, 5),
        ("W,1,2,5,5\nW,1,3,6,6\nW,2,1,1,1\n", 0, 6),
        ("W,1,1,5,5\nW,1,3,6,6\nW,3,1,1,1\nW,3,3,1,1\n", 0, 7),
        // the pair before is the last one, whatever came earlier
        ("W,1,3,5,5\nW,2,1,5,5\nW,1,3,5,5\n", 4, 6),
    ] {
        assert_eq!(reply_to(3, lines), (number, line), "{lines}");
    }
}

#[test]
fn several_faults_in_one_walk() {
    for (line, number) in [
        ("W,1,9,61,5", 3),
        ("W,1,9,5,5", 4),
        ("W,2,1,61,5", 3),
        ("W,2,2,0,5", 3),
        ("W,2,2,60,1000", 0),
        ("W,2,2,1,1", 0),
        ("W,2,2,61,1000", 3),
        ("W,2,2,60,1001", 3),
        ("W,2,2,60,0", 3),
        ("W,2,3,1,1", 6),
        ("W,3,1,1,1", 6),
        ("W,9999,9999,1,1", 6),
        ("W,2,65,1,1", 6),
        ("W,0,1,1,1", 4),
        ("W,2,0,1,1", 4),
        ("W,2,2,1", 2),
        ("W,2,2,1,1,", 2),
        ("W,2,2,1,1,0", 2),
        ("W,2,2,,1", 2),
        ("W,2,2,01,1", 2),
        ("W,2,2,1,00:01", 2),
        ("W,2,2,00:05,1", 2),
        ("W,2,2,10000,1", 2),
        ("w,2,2,1,1", 2),
        ("W", 2),
        ("W,", 2),
        ("WW,2,2,1,1", 2),
    ] {
        let expected = if number == 0 { (0, 4) } else { (number, 4) };
        assert_eq!(reply_to(2, &format!("W,2,1,5,5\n{line}\n")), expected, "{line}");
    }
    // before any walk 0 rises above nothing, and is no station
    assert_eq!(reply_to(2, "W,0,1,5,5\n"), (6, 3));
    assert_eq!(reply_to(2, "W,1,0,5,5\n"), (6, 3));
}

/// So many W lines over 17 stations, rising.
fn many_walks(count: usize) -> String {
    (0..count).map(|at| format!("W,{},{},1,1\n", at / 16 + 1, at % 16 + 1)).collect()
}

#[test]
fn at_most_256_walks() {
    assert_eq!(reply_to(17, &many_walks(256)), (0, 273));
    assert_eq!(reply_to(17, &many_walks(257)), (5, 274));
    for (line, number) in [
        ("W,17,1,1,1", 5),
        ("W,18,1,1,1", 5),
        ("W,16,16,1,1", 4),
        ("W,16,16,0,1", 3),
        ("W,18,1,1,1001", 3),
        ("W,18,1,1", 2),
    ] {
        assert_eq!(reply_to(17, &format!("{}{line}\n", many_walks(256))), (number, 274), "{line}");
    }
    assert_eq!(reply_to(17, &format!("{}W,18,1,1,1\n", many_walks(255))), (6, 273));
    let with_trip = format!("{}{TRIP}", many_walks(256));
    assert_eq!(reply_to(17, &with_trip), (0, 275));
}

/// The longest texts within the counts: one long trip, and the others of two stops each.
#[test]
fn texts_within_the_counts_can_be_too_long() {
    let mut host = Host::new(2);
    let text = |short: usize, walks: usize| {
        let stations = (1..=64).map(|station| format!("S,{station},240,1000\n"));
        let walks = (0..walks).map(|at| format!("W,{},{},60,1000\n", 10 + at / 16, 10 + at % 16));
        let trips = (0..short).map(|_| 2).chain([STOPS_MOST - 2 * short]);
        let trips = (1..).zip(trips).map(|(trip, stops)| trip_text(trip, &long_trip(stops)));
        stations.chain(walks).chain(trips).collect::<String>()
    };
    for short in [0, 8, 9, 90, 98, 99, 100, 200, 255] {
        host.expect_read(text(short, 0), 0, 64 + STOPS_MOST as u32);
    }
    for (walks, bytes) in [(0, 63_206), (145, 65_526), (146, 65_542), (256, 67_302)] {
        let text = text(99, walks);
        assert_eq!(text.len(), bytes);
        let lines = (64 + walks + STOPS_MOST) as u32;
        if bytes <= TEXT_BYTES_MOST {
            host.expect_read(text, 0, lines);
        } else {
            host.expect_read(text, 1, 0);
        }
    }
    // question 9 counts no bytes: stations, walks and trips can come one after the other
    let longest = text(99, 256);
    let (front, trips) = longest.split_at(longest.find("T,").expect("a trip"));
    let mut timetable = accepted(front);
    for trip in 1..=100u16 {
        let lines = trips.lines().filter(|line| line.starts_with(&format!("T,{trip},")));
        let text: String = lines.map(|line| format!("{line}\n")).collect();
        timetable = add(timetable, trip.into(), text.as_bytes()).expect("a trip that can be added");
    }
    assert_eq!(host.check_timetable(&lent(to_words(&timetable), &mut Random::new(3))), 0);
}
