//! The words of both tables after a change, told word by word, and the lines of the trips that then run.

use crate::{second, Room};
use dairyepoch_tests::examples::{M, M_WORDS, NIGHT};
use dairyepoch_tests::ffi::Reply;
use dairyepoch_tests::lent::Lent;
use dairyepoch_tests::reference::accepted;
use dairyepoch_tests::timetable::trip_text;

/// M without trip 2.
#[rustfmt::skip]
const M_WITHOUT_2: [u16; 43] = [
    3, 2, 5,
    2, 10,  3, 10,  5, 10,
    1, 0, 480, 0, 0,  2, 500, 501, 0, 0,  3, 560, 0, 0, 0,
    2, 0, 502, 0, 0,  3, 515, 0, 0, 0,
    0, 3, 5,
    1, 3,
    0, 0, 0, 0,
];

#[rustfmt::skip]
const LINES_WITHOUT_2: [u16; 51] = [
    3, 2, 2, 37,
    6, 24,
    3, 1,  1,  1, 0, 0,  2, 0, 0,  3, 0, 0,  0, 480,  500, 501,  560, 0,
    2, 1,  3,  2, 0, 0,  3, 0, 0,  0, 502,  515, 0,
    41, 43, 47, 51,
    1, 1,
    1, 2,  2, 1,
    1, 3,  2, 2,
];

/// The same with trip 2 come back as 9999.
#[rustfmt::skip]
const M_WITH_9999: [u16; 55] = [
    3, 3, 7,
    2, 10,  3, 10,  5, 10,
    1, 0, 480, 0, 0,  2, 500, 501, 0, 0,  3, 560, 0, 0, 0,
    2, 0, 502, 0, 0,  3, 515, 0, 0, 0,
    2, 0, 503, 0, 0,  3, 520, 0, 0, 0,
    0, 3, 5, 7,
    1, 3, 9_999,
    0, 0, 0, 0,
];

#[rustfmt::skip]
const LINES_WITH_9999: [u16; 56] = [
    3, 2, 3, 42,
    6, 24,
    3, 1,  1,  1, 0, 0,  2, 0, 0,  3, 0, 0,  0, 480,  500, 501,  560, 0,
    2, 2,  3, 9_999,  2, 0, 0,  3, 0, 0,  0, 0, 502, 503,  515, 520, 0, 0,
    46, 48, 52, 56,
    1, 1,
    1, 2,  2, 1,
    1, 3,  2, 2,
];

#[test]
fn trips_keep_their_numbers() {
    let mut room = Room::text(M);
    room.cancels(2, 2);
    assert_eq!(room.lines(), [[1], [3]]);
    room.adds(9_999, second(9_999), 2);
    assert_eq!(room.lines(), [vec![1], vec![3, 9_999]]);
    assert_eq!(room.rows(1, 3, 470), Ok(vec![50, 10, 2, 1, 1, 2, 9_999, 1, 2, 90, 0, 1, 1, 1, 3]));
}

#[test]
fn a_change_leads_to_these_words_and_keeps_those_past_them() {
    let mut room = Room::text(M);
    let before = room.tables.clone();
    room.cancels(2, 2);
    let Lent { timetable, lines } = &room.tables;
    assert_eq!((&timetable[..43], &timetable[43..]), (&M_WITHOUT_2[..], &before.timetable[43..]));
    assert_eq!((&lines[..51], &lines[51..]), (&LINES_WITHOUT_2[..], &before.lines[51..]));
    assert_eq!(timetable[43..55], M_WORDS[43..], "the words of the old table");
    room.adds(9_999, second(9_999), 2);
    let Lent { timetable, lines } = &room.tables;
    assert_eq!((&timetable[..55], &timetable[55..]), (&M_WITH_9999[..], &before.timetable[55..]));
    assert_eq!((&lines[..56], &lines[56..]), (&LINES_WITH_9999[..], &before.lines[56..]));
}

#[test]
fn the_last_trip_cancelled() {
    let mut room = Room::text("S,1,0,1\nS,2,0,1\nT,1,1,1,,00:10,0,0\nT,1,2,2,00:20,,,0\n");
    room.cancels(1, 0);
    assert_eq!(room.tables.timetable[..8], [2, 0, 0, 0, 1, 0, 1, 0]);
    assert_eq!(room.tables.lines[..7], [2, 0, 0, 4, 7, 7, 7]);
    assert_eq!(room.cancel(1), Reply::refused(18));
    assert_eq!(room.rows(1, 2, 0), Err(14));
    assert_eq!(room.host.check_timetable(&room.tables.timetable), 0);
    room.adds(9_999, "T,9999,1,2,,00:10,7,0\nT,9999,2,1,00:20,,,0\n", 1);
    assert_eq!(room.rows(2, 1, 0), Ok(vec![20, 7, 1, 9_999, 1, 2]));
    assert_eq!(room.rows(1, 2, 0), Err(14));
}

#[test]
fn a_trip_comes_back_lower_higher_and_between_others() {
    let mut model = accepted(NIGHT);
    let mut room = Room::text(NIGHT);
    // the second comes back in five places, with its own stops and with another's
    for number in [9_999, 7, 2, 5_000, 1_000] {
        let last = if model.trips.contains_key(&2) { 2 } else { *model.trips.keys().last().expect("a trip runs") };
        assert_eq!(room.cancel(last.into()).number, 0);
        let stops = model.trips.remove(&last).expect("it runs");
        room.holds(&model);
        assert_eq!(room.add(number, trip_text(number, &stops)).number, 0);
        model.trips.insert(number as u16, stops);
        room.holds(&model);
    }
    for (cancelled, number) in [(1, 1), (4, 8), (3, 4), (6, 3)] {
        let stops = model.trips[&5].clone();
        assert_eq!(room.cancel(cancelled).number, 0);
        model.trips.remove(&(cancelled as u16));
        assert_eq!(room.add(number, trip_text(number, &stops)).number, 0);
        model.trips.insert(number as u16, stops);
        room.holds(&model);
    }
}

/// A trip that is gone may have kept others on fewer lines: a trip joins the lowest line that takes it, and without the
/// third the fourth takes the fifth's place. So the line tables of fewer trips can be longer.
#[test]
fn without_a_trip_there_can_be_more_lines() {
    let trip = |trip: usize, times: [&str; 4]| {
        let [depart, arrive, next, last] = times;
        format!("T,{trip},1,1,,{depart},0,0\nT,{trip},2,2,{arrive},{next},0,0\nT,{trip},3,1,{last},,,0\n")
    };
    let third = trip(3, ["00:03", "01:20", "03:00", "05:50"]);
    let text = "S,1,0,1\nS,2,0,1\n".to_string()
        + &trip(1, ["00:01", "01:10", "03:00", "05:10"])
        + &trip(2, ["00:02", "01:50", "03:00", "05:00"])
        + &third
        + &trip(4, ["00:04", "02:00", "03:00", "05:20"])
        + &trip(5, ["00:05", "01:30", "03:00", "06:00"]);
    let mut room = Room::text(&text);
    let before = room.tables.clone();
    assert_eq!(room.lines(), [vec![1, 3, 5], vec![2, 4]]);
    room.cancels(3, 3);
    assert_eq!(room.lines(), [vec![1, 4], vec![2], vec![5]]);
    assert_ne!(room.tables.lines[78..89], before.lines[78..89], "the longer tables");
    room.adds(3, third, 2);
    room.holds(&accepted(&text));
    assert_eq!(room.tables.timetable, before.timetable);
    assert_ne!(room.tables.lines[78..89], before.lines[78..89], "words past the tables are kept");
    assert_eq!(room.tables.lines[89..], before.lines[89..]);
}
