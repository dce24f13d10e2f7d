//! The stack that each call needs, as it was touched, beside what the header says.

use std::fs;

use dairyepoch_tests::direct::Query;
use dairyepoch_tests::ffi::{self, Tables};
use dairyepoch_tests::generate::{largest, long_lines, most_rows, overtaking, rural, Diamonds};
use dairyepoch_tests::host::QUERY_WORDS;
use dairyepoch_tests::lines::{LINE_WORDS, WORK_WORDS};
use dairyepoch_tests::random::Random;
use dairyepoch_tests::stack::touched;
use dairyepoch_tests::store::STORE_WORDS_MOST;
use dairyepoch_tests::timetable::{
    trip_text, Onward, Station, Stop, Timetable, BOTH, CHANGE_PENALTY_LEAST, STATIONS_MOST,
};
use dairyepoch_tests::words::TIMETABLE_WORDS;

const CALLS: [&str; 13] = [
    "READ",
    "CHECK_TIMETABLE",
    "BUILD_LINES",
    "CHECK_LINES",
    "CHECK_LINES_ALONE",
    "LINE_TRIPS",
    "TIMES_BY_TRIP",
    "TIMES_BY_STOP",
    "DIRECT",
    "MAKE_STORE",
    "QUERY",
    "CANCEL_TRIP",
    "ADD_TRIP",
];

/// A number that the header defines.
fn defined(header: &str, name: &str) -> usize {
    let line = header.lines().find_map(|line| line.strip_prefix(&format!("#define {name} "))).expect(name);
    line.trim().parse().expect("a number")
}

/// The bytes that each call touches for a timetable, with queries from station 1 to the last and trip 1 cancelled and
/// added again. Each is made with slices that are long enough, so that it comes to its end.
fn touched_for(timetable: &Timetable) -> [usize; CALLS.len()] {
    let text = timetable.to_text();
    let mut words = vec![0; TIMETABLE_WORDS];
    let mut lines = vec![0; LINE_WORDS];
    let mut other = vec![0; LINE_WORDS];
    let mut work = vec![0; WORK_WORDS];
    let mut store = vec![0; STORE_WORDS_MOST];
    let mut answer = vec![0; QUERY_WORDS];
    let query = Query { from: 1, to: timetable.stations.len() as u32, minute: 0 };
    let extra = trip_text(1, &timetable.trips[&1]);
    [
        touched(|| ffi::read(&text, &mut words)),
        touched(|| ffi::check_timetable(&words)),
        touched(|| ffi::build_lines(&words, &mut lines, &mut work)),
        touched(|| ffi::check_lines(&words, &lines, &mut work)),
        touched(|| ffi::check_lines_alone(&lines, &mut work)),
        touched(|| ffi::line_trips(&lines, &mut work, 1)),
        touched(|| ffi::times_by_trip(&words, &lines, &mut work, &mut other)),
        touched(|| ffi::times_by_stop(&words, &other, &mut work, &mut lines)),
        touched(|| ffi::direct(&words, &lines, &mut work, query, &mut answer)),
        touched(|| ffi::make_store(&words, &lines, &mut work, query.from, &mut store)),
        touched(|| {
            let tables = Tables { timetable: &words, lines: &lines, store: &store };
            ffi::query(tables, &mut work, query, &mut answer)
        }),
        touched(|| ffi::cancel_trip(&mut words, &mut lines, &mut work, 1)),
        touched(|| ffi::add_trip(&mut words, &mut lines, &mut work, 1, extra.as_bytes())),
    ]
}

/// A trip from each station to the next, with a change at all of them. One more trip passes over a station for the
/// points of a change, so that two sequences, one of all 64 stations, cost the same.
fn chain_with_a_tie() -> Timetable {
    let hops = (1..STATIONS_MOST as u16).map(|from| hop(from, from + 1, 0));
    let passing = hop(61, 63, CHANGE_PENALTY_LEAST);
    let stations = vec![Station { change_minutes: 0, change_penalty: CHANGE_PENALTY_LEAST }; STATIONS_MOST];
    Timetable::new(stations, hops.chain([passing]))
}

/// A trip of two stops, which leaves and arrives at the minutes that its stations number.
fn hop(from: u16, to: u16, penalty: u16) -> Vec<Stop> {
    let board = Stop { station: from, arrive: None, onward: Some(Onward { depart: from, penalty }), mark: BOTH };
    vec![board, Stop { station: to, arrive: Some(to), onward: None, mark: BOTH }]
}

/// Local arrays are the same for all timetables; how deep calls go is not: where one reads a sequence of stations from
/// its end, it goes as deep as the sequence is long.
#[test]
fn no_call_needs_more_stack_than_the_header_says() {
    let header = fs::read_to_string(concat!(env!("CARGO_MANIFEST_DIR"), "/../include/dairyepoch.h")).expect("a header");
    let mut random = Random::new(1);
    let timetables = [
        long_lines(),
        overtaking(),
        most_rows(),
        largest(&mut random),
        rural(&mut random, 8),
        chain_with_a_tie(),
        Diamonds { count: 12, late: true, beyond: true, chain: 4 }.timetable(),
    ];
    let mut most = [0; CALLS.len()];
    for timetable in &timetables {
        for (most, bytes) in most.iter_mut().zip(touched_for(timetable)) {
            *most = bytes.max(*most);
        }
    }
    for (call, bytes) in CALLS.iter().zip(most) {
        let said = defined(&header, &format!("DAIRYEPOCH_{call}_STACK"));
        assert!(bytes <= said, "{call} touched {bytes} bytes of stack, the header says {said}");
        assert!(said < bytes + 4_096, "{call} touched {bytes} bytes of stack, the header says as many as {said}");
    }
}
