//! The lines of an extra trip, and the questions that are put to each of them.

use crate::{second, Room};
use dairyepoch_tests::damage::damaged;
use dairyepoch_tests::examples::M;
use dairyepoch_tests::generate::any_timetable;
use dairyepoch_tests::host::Host;
use dairyepoch_tests::lines::lines;
use dairyepoch_tests::random::Random;
use dairyepoch_tests::reference::accepted;
use dairyepoch_tests::timetable::trip_text;

#[test]
fn trip_0_in_a_text_is_still_out_of_place() {
    let mut host = Host::new(3);
    host.expect_read("S,1,0,1\nS,2,0,1\nT,0,1,1,,00:10,0,0\n", 4, 3);
    host.expect_read("S,1,0,1\nS,2,0,1\nT,2,1,1,,00:10,0,0\n", 4, 3);
}

#[test]
fn lines_of_stations_and_walks_in_an_extra_trip() {
    let mut room = Room::text(M);
    for (line, number) in [
        ("S,4,0,1", 4),
        ("S,1,2,10", 4),
        ("S,5,0,1", 4),
        ("S,0,0,1", 4),
        ("S,9999,240,1000", 4),
        ("S,4,0,0", 3),
        ("S,4,241,1", 3),
        ("S,4,0,1001", 3),
        ("S,4,0", 2),
        ("S,4,0,", 2),
        ("S,10000,0,1", 2),
        ("W,1,2,5,5", 4),
        ("W,1,1,60,1000", 4),
        ("W,9,9,5,5", 4),
        ("W,1,2,5,0", 3),
        ("W,1,2,61,5", 3),
        ("W,1,2,5", 2),
        ("Q,1,3,470", 2),
    ] {
        room.refuses(5, format!("{line}\n"), number, 1);
        room.refuses(5, format!("T,5,1,2,,08:23,0,0\n{line}\n"), number, 2);
        room.refuses(5, format!("{}{line}\n", second(5)), number, 3);
        room.refuses(5, format!("{}{line}\n{}", second(5), second(5)), number, 3);
    }
}

#[test]
fn place_within_an_extra_trip() {
    let mut room = Room::text(M);
    room.refuses(5, "T,5,1,2,,08:23,0,0\n", 7, 2);
    room.refuses(5, second(5) + "T,6,1,2,,08:23,0,0\n", 4, 3);
    room.refuses(5, second(5) + &second(5), 4, 3);
    room.refuses(5, second(5) + "T,5,3,2,08:50,,,0\n", 4, 3);
    room.refuses(5, "", 7, 1);
    let after_stop_1 = |line: &str| format!("T,5,1,1,,08:00,0,0\n{line}\n");
    let after =
        ["T,5,1,2,,08:23,0,0", "T,5,3,2,08:23,,,0", "T,5,0,2,08:23,,,0", "T,6,2,2,08:23,,,0", "T,4,2,2,08:23,,,0"];
    for line in after {
        room.refuses(5, after_stop_1(line), 4, 2);
    }
    let first =
        ["T,5,2,2,08:23,,,0", "T,5,0,2,08:23,,,0", "T,4,1,2,,08:23,0,0", "T,6,1,2,,08:23,0,0", "T,1,1,2,,08:23,0,0"];
    for line in first {
        room.refuses(5, format!("{line}\n"), 4, 1);
    }
    room.refuses(5, after_stop_1("T,5,2,2,08:20,08:21,0,0"), 7, 3);
    room.refuses(5, after_stop_1("T,5,2,2,08:20,08:21,0,0\nT,5,3,1,08:30,08:30,0,0"), 7, 4);
    room.adds(5, after_stop_1("T,5,2,2,08:20,08:21,0,0\nT,5,3,1,08:30,,,0"), 3);
}

#[test]
fn bytes_after_the_last_line_end() {
    let mut room = Room::text(M);
    for rest in ["x", " ", "\0", "\r", ",", "T", "T,5,3,2,08:50,,,0", "S,4,0,1"] {
        room.refuses(5, rest, 2, 1);
        room.refuses(5, format!("T,5,1,2,,08:23,0,0\n{rest}"), 2, 2);
        room.refuses(5, second(5) + rest, 2, 3);
    }
    room.refuses(5, second(5).trim_end(), 2, 2);
    room.refuses(5, "T,5,1,2,,08:23,0,0", 2, 1);
    room.refuses(5, second(5) + "\n", 2, 3);
    room.adds(5, second(5), 2);
}

#[test]
fn each_question_to_a_line_of_an_extra_trip() {
    let mut room = Room::text(M);
    let first = [
        ("T,5,1,2,,503,0,0", 2),
        ("T,5,1,2,,8:23,0,0", 2),
        ("T,5,1,2,08:00,08:23,0,0", 2),
        ("T,5,1,2,,08:23,,0", 2),
        ("T,05,1,2,,08:23,0,0", 2),
        ("T,5,1,2,,08:23,0,0\r", 2),
        ("", 2),
        ("T,5,1,2,,48:00,0,0", 3),
        ("T,5,1,2,,08:60,0,0", 3),
        ("T,5,1,2,,08:23,101,0", 3),
        ("T,0,1,2,,08:23,0,0", 3),
        ("T,5,1,4,,08:23,0,0", 6),
        ("T,5,1,0,,08:23,0,0", 6),
        ("T,5,1,9999,,08:23,0,0", 6),
        // several faults: the lowest number is told
        ("T,0,1,2,,08:23", 2),
        ("T,6,1,2,,48:00,0,0", 3),
        ("T,6,1,9,,08:23,0,0", 4),
        ("T,0,1,9,,08:23,0,0", 3),
        ("T,0,2,9,08:23,,,0", 3),
        ("T,5,3,9,08:23,,,0", 4),
    ];
    for (line, number) in first {
        room.refuses(5, format!("{line}\n"), number, 1);
        room.refuses(5, format!("{line}\nx\n"), number, 1);
        // and in a later line
        room.refuses(5, format!("T,5,1,1,,08:00,0,0\n{line}\n"), if number == 6 { 4 } else { number }, 2);
    }
    let second = [
        ("T,5,2,3,8:30,,,0", 2),
        ("T,5,2,3,,08:30,0,0", 2),
        ("T,5,2,3,08:30,08:31,,0", 2),
        ("T,5,2,3,48:00,,,0", 3),
        ("T,5,2,3,08:30,48:00,0,0", 3),
        ("T,5,2,3,08:30,08:31,101,0", 3),
        ("T,0,2,3,08:30,,,0", 3),
        ("T,6,2,3,08:30,,,0", 4),
        ("T,5,3,3,08:30,,,0", 4),
        ("T,5,2,2,08:30,,,0", 6),
        ("T,5,2,4,08:30,,,0", 6),
        ("T,5,2,3,08:23,,,0", 6),
        ("T,5,2,3,08:22,,,0", 6),
        ("T,5,2,3,08:30,08:29,0,0", 6),
        ("T,6,2,2,08:30,,,0", 4),
        ("T,6,2,2,48:00,,,0", 3),
        ("T,5,2,2,48:00,,,0", 3),
    ];
    for (line, number) in second {
        room.refuses(5, format!("T,5,1,2,,08:23,0,0\n{line}\n"), number, 2);
        room.refuses(5, format!("T,5,1,2,,08:23,0,0\n{line}\nx\n"), number, 2);
    }
    for line in ["T,5,2,3,08:24,,,0", "T,5,2,1,08:24,,,0", "T,5,2,3,47:59,,,0"] {
        room.adds(5, format!("T,5,1,2,,08:23,0,0\n{line}\n"), lines_with(line));
        assert_eq!(room.cancel(5).number, 0);
    }
    room.holds(&accepted(M));
}

/// How many lines M has with a trip that leaves station 2 at 08:23 and ends with this line.
fn lines_with(line: &str) -> usize {
    let extra = format!("{M}T,4,1,2,,08:23,0,0\n{}\n", line.replace("T,5,", "T,4,"));
    lines(&accepted(&extra)).len()
}

#[test]
fn extra_trips_damaged() {
    let mut random = Random::new(18);
    let mut replies = [0; 20];
    for _ in 0..40 {
        let timetable = any_timetable(&mut random);
        let Some((&trip, stops)) = timetable.trips.iter().next() else { continue };
        let mut room = Room::new(&timetable);
        assert_eq!(room.cancel(trip.into()).number, 0);
        let text = trip_text(trip.into(), stops).into_bytes();
        for _ in 0..100 {
            let reply = room.add(trip.into(), damaged(&mut random, &text));
            replies[reply.number as usize] += 1;
            if reply.number == 0 {
                assert_eq!(room.cancel(trip.into()).number, 0);
            }
        }
    }
    assert!([0, 2, 3, 4, 6, 7].iter().all(|&number| replies[number] > 10), "by reply number: {replies:?}");
}

/// Each line, and each beginning of it, of an extra trip left out, doubled and moved.
#[test]
fn an_extra_trip_cut_anywhere() {
    let mut room = Room::text(M);
    let text = "T,5,1,1,,08:00,0,0\nT,5,2,2,08:20,08:21,7,0\nT,5,3,3,09:20,,,0\n";
    for cut in 0..text.len() {
        let (head, tail) = text.split_at(cut);
        assert_ne!(room.add(5, head).number, 0, "{head}");
        if cut > 0 {
            assert_ne!(room.add(5, tail).number, 0, "{tail}");
            assert_ne!(room.add(5, head.to_string() + text).number, 0, "{head}, and the whole");
        }
    }
    room.adds(5, text, 3);
}
