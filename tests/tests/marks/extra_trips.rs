//! Marks of an extra trip.

use crate::mark_at;
use dairyepoch_tests::direct::Query;
use dairyepoch_tests::examples::M;
use dairyepoch_tests::ffi::Reply;
use dairyepoch_tests::generate::long_trip;
use dairyepoch_tests::host::Host;
use dairyepoch_tests::lent::Lent;
use dairyepoch_tests::timetable::{
    trip_text, BOARDING_ONLY, BOTH, MARKS, SETTING_DOWN_ONLY, STOPS_MOST, TEXT_BYTES_MOST,
};
use dairyepoch_tests::words::STOP_WORDS;

#[test]
fn an_extra_trip_has_marks() {
    let mut host = Host::new(37);
    // as trip 2 of M, but for a mark: on a line of its own
    for (first, last) in MARKS.into_iter().flat_map(|first| MARKS.map(|last| (first, last))) {
        let mut tables = Lent::text(M);
        let text = format!("T,9999,1,2,,08:23,0,{first}\nT,9999,2,3,08:40,,,{last}\n");
        let lines = if (first, last) == (BOTH, BOTH) { 2 } else { 3 };
        assert_eq!(tables.add(&mut host, 9_999, text), Reply::done(lines));
        let at = mark_at(&tables.timetable, 7);
        assert_eq!((tables.timetable[at], tables.timetable[at + STOP_WORDS]), (first, last));
        let query = Query { from: 2, to: 3, minute: 503 };
        let open = first != SETTING_DOWN_ONLY && last != BOARDING_ONLY;
        // trip 2 costs the same and has the lower number; without it there is the extra one, where one may ride
        assert_eq!(tables.direct(&mut host, query), Reply::done(1));
        assert_eq!(tables.cancel(&mut host, 2).number, 0);
        assert_eq!(tables.direct(&mut host, query).number, if open { 0 } else { 14 });
    }
}

#[test]
fn lines_of_an_extra_trip_are_asked_about_their_marks() {
    let mut host = Host::new(38);
    let mut tables = Lent::text(M);
    let mut refuses = |text: &str, number: u32, line: u32| {
        assert_eq!(tables.add(&mut host, 5, text), Reply { number, beside: line }, "{text}");
    };
    for (mark, number) in [("", 2), ("00", 2), ("x", 2), ("10000", 2), ("3", 3), ("9999", 3), ("0,", 2), ("0,0", 2)] {
        refuses(&format!("T,5,1,2,,08:23,0,{mark}\n"), number, 1);
        refuses(&format!("T,5,1,2,,08:23,0,0\nT,5,2,3,08:40,,,{mark}\n"), number, 2);
    }
    // seven fields, as they were before
    refuses("T,5,1,2,,08:23,0\n", 2, 1);
    refuses("T,5,1,2,,08:23,0,0\nT,5,2,3,08:40,,\n", 2, 2);
    // 3 goes before 4 and 6, and a line of another number after 3
    refuses("T,6,1,2,,08:23,0,3\n", 3, 1);
    refuses("T,5,1,9,,08:23,0,3\n", 3, 1);
    refuses("T,6,1,2,,08:23,0,2\n", 4, 1);
    refuses("T,0,1,2,,08:23,0,2\n", 3, 1);
    refuses("T,5,1,9,,08:23,0,1\n", 6, 1);
    refuses("T,5,1,2,,08:23,0,1\n", 7, 2);
}

/// With marks and hh:mm one extra trip can have more bytes than a text may: nobody asks.
#[test]
fn an_extra_trip_of_more_than_65536_bytes_is_added() {
    let mut host = Host::new(39);
    let stations: String = (1..=64).map(|station| format!("S,{station},0,1\n")).collect();
    let mut tables = Lent::text(&stations);
    let text = trip_text(9_999, &long_trip(STOPS_MOST));
    assert!(text.len() > TEXT_BYTES_MOST, "{}", text.len());
    assert_eq!(tables.add(&mut host, 9_999, &text), Reply::done(1));
    assert_eq!(host.check_timetable(&tables.timetable), 0);
    assert_eq!(host.check_lines_alone(&tables.lines), 0);
    assert_eq!(tables.cancel(&mut host, 9_999), Reply::done(0));
}
