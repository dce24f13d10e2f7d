//! Each refusal of a text at its edges, with the number and line that document 01 gives, and the order of the
//! questions: 2 to 6 within a line, the lines in turn, then 7.

use dairyepoch_tests::host::Host;

/// Two stations: the stop lines below are then line 3 and on.
const STATIONS: &str = "S,1,0,1\nS,2,0,1\n";
/// Stop 1 of a trip that leaves station 1 at minute 10.
const OPEN: &str = "T,1,1,1,,00:10,0,0\n";
/// A whole trip of two lines.
const TRIP: &str = "T,1,1,1,,00:10,0,0\nT,1,2,2,00:11,,,0\n";

/// Expects the reply for each line when it follows the text before it.
fn expect_after(before: &str, cases: &[(&str, u32, u32)]) {
    let mut host = Host::new(before.len() as u64);
    for (line, number, beside) in cases {
        host.expect_read(format!("{before}{line}\n"), *number, *beside);
    }
}

fn expect_all_after(before: &str, lines: &[&str], number: u32, beside: u32) {
    let cases: Vec<_> = lines.iter().map(|line| (*line, number, beside)).collect();
    expect_after(before, &cases);
}

#[test]
fn station_lines_of_no_shape_give_2() {
    expect_all_after("", STATION_LINES_OF_NO_SHAPE, 2, 1);
    expect_all_after("S,1,0,1\n", STATION_LINES_OF_NO_SHAPE, 2, 2);
}

#[rustfmt::skip]
const STATION_LINES_OF_NO_SHAPE: &[&str] = &[
    "", " ", ",", ",,,", "S", "S,", "S,,,", "S,1", "S,1,0", "S,1,0,", "S,,0,1", "S,1,,1", "S,1,0,1,", "S,1,0,1,1",
    ",S,1,0,1", "s,1,0,1", "U,1,0,1", "T,1,0,1", "SS,1,0,1", "ST,1,0,1", " S,1,0,1", "S ,1,0,1", "\"S\",1,0,1",
    "\u{feff}S,1,0,1", ",1,0,1", "S,01,0,1", "S,1,00,1", "S,1,0,01", "S,1,0,0001", "S,001,0,1", "S,10000,0,1",
    "S,1,10000,1", "S,1,0,10000", "S,1,0,65537", "S,1,0,4294967297", "S,1,0,18446744073709551617", "S,+1,0,1",
    "S,-1,0,1", "S,1,-0,1", "S,1,0,+1", "S,1, 0,1", "S,1,0 ,1", "S,1,0,1 ", "S,1,0,1\t", "S,1,0,1\r", "S,1,0,1\0",
    "\0S,1,0,1", "S,1,0\0,1", "S,1,0,1.0", "S,1,0,1e1", "S,1,0,0x1", "S,1,0,a", "S,1,0,/", "S,1,0,:", "S,1,/,1",
    "S,:,0,1", "S;1;0;1", "S,1,0,1#", "#S,1,0,1", "S1,0,1", "S,10,1", "S.1.0.1", "S,1,0,\u{661}",
];

#[test]
fn stop_lines_of_no_shape_give_2() {
    expect_all_after(STATIONS, STOP_LINES_OF_NO_SHAPE, 2, 3);
}

#[rustfmt::skip]
const STOP_LINES_OF_NO_SHAPE: &[&str] = &[
    "T", "T,", "T,,,,,,", "T,,,,,,,", "T,,,,,,,0", "T,1,1,1,,00:10,0", "T,1,1,1,,00:10,,0", "T,1,1,1,,00:10,0,0,",
    "T,1,1,1,,00:10,0,0,0", "T,1,1,1,00:10,0,0", ",T,1,1,1,,00:10,0,0", "t,1,1,1,,00:10,0,0", "U,1,1,1,,00:10,0,0",
    "S,1,1,1,,00:10,0,0", "TT,1,1,1,,00:10,0,0", " T,1,1,1,,00:10,0,0", "T,1,1,1,,00:10,0,0 ", "T,1,1,1,,00:10,0,0\r",
    "T,1,1,1,,00:10,0 ,0", "T,,1,1,,00:10,0,0", "T,1,,1,,00:10,0,0", "T,1,1,,,00:10,0,0", "T,01,1,1,,00:10,0,0",
    "T,1,01,1,,00:10,0,0", "T,1,1,01,,00:10,0,0", "T,1,1,1,,00:10,00,0", "T,10000,1,1,,00:10,0,0",
    "T,1,10000,1,00:05,00:10,0,0", "T,1,1,10000,,00:10,0,0", "T,1,1,1,,00:10,10000,0", "T,1,1,1, ,00:10,0,0",
    "T,1,1,1,-,00:10,0,0", "T,1,1,1,,00:10,-0,0", "T,1,1,1,\0,00:10,0,0", "T,00:01,1,1,,00:10,0,0",
    "T,1,00:01,1,,00:10,0,0", "T,1,1,00:01,,00:10,0,0", "T,1,1,1,,00:10,00:00,0",
];

/// "Each T line gains a last field", and "Old seven-field lines give 2".
#[test]
fn a_mark_that_is_no_number_gives_2() {
    let opened = STATIONS.to_owned() + OPEN;
    for mark in MARKS_OF_NO_SHAPE {
        expect_after(STATIONS, &[(&format!("T,1,1,1,,00:10,0,{mark}"), 2, 3)]);
        expect_after(&opened, &[(&format!("T,1,2,2,00:11,,,{mark}"), 2, 4)]);
        expect_after(&opened, &[(&format!("T,1,2,2,00:11,00:12,0,{mark}"), 2, 4)]);
    }
    // lines of seven fields, as they were before
    expect_all_after(STATIONS, &["T,1,1,1,,00:10,0", "T,1,1,1,,48:00,0", "T,7,1,9,,00:10,0"], 2, 3);
    expect_all_after(&opened, &["T,1,2,2,00:11,,", "T,1,2,2,00:11,,0", "T,1,2,2,00:11,00:12,0"], 2, 4);
}

#[rustfmt::skip]
const MARKS_OF_NO_SHAPE: &[&str] = &[
    "", "00", "01", "02", "000", "x", "b", "-0", "-1", "+0", " 0", "0 ", " ", "0.", "1.0", "0x1", "1e0", "10000",
    "65536", "65537", "4294967296", "0\0", "\0", "0\r", "0,", ",", ",0", "0,0", "00:00", ":", "/", "both", "\"0\"",
    "\u{661}",
];

/// "0 both, 1 boarding only, 2 setting down only, any other number 3", at every stop of a trip.
#[test]
fn a_mark_above_2_gives_3() {
    let opened = STATIONS.to_owned() + OPEN;
    for mark in (0..=20).chain([63, 64, 127, 128, 129, 255, 256, 257, 1_000, 2_880, 9_998, 9_999]) {
        let give = |number: u32, beside: u32, line: u32| if mark > 2 { (3, line) } else { (number, beside) };
        let (first, middle, last) = (give(7, 4, 3), give(7, 5, 4), give(0, 4, 4));
        expect_after(STATIONS, &[(&format!("T,1,1,1,,00:10,0,{mark}"), first.0, first.1)]);
        expect_after(&opened, &[(&format!("T,1,2,2,00:11,00:12,0,{mark}"), middle.0, middle.1)]);
        expect_after(&opened, &[(&format!("T,1,2,2,00:11,,,{mark}"), last.0, last.1)]);
    }
}

/// No question asks whether a mark makes sense: a first stop that only sets down is accepted, and a last one where
/// nobody may alight.
#[test]
fn any_mark_at_any_stop_is_accepted() {
    for (first, middle, last) in (0..27).map(|marks| (marks / 9, marks / 3 % 3, marks % 3)) {
        let trip = format!("T,1,1,1,,00:10,0,{first}\nT,1,2,2,00:11,00:12,0,{middle}\nT,1,3,1,00:13,,,{last}");
        expect_after(STATIONS, &[(&trip, 0, 5)]);
    }
}

/// A mark is asked about with the other ranges: after shape, before place, counts and fit.
#[test]
fn a_mark_out_of_range_in_its_turn() {
    expect_after(
        STATIONS,
        &[
            ("T,1,1,1,,00:10,,3", 2, 3),
            ("T,1,1,1,00:05,00:10,0,3", 2, 3),
            ("T,1,1,1,,480,0,3", 2, 3),
            ("T,1,1,1,,48:00,0,00", 2, 3),
            ("T,7,1,1,,00:10,0,3", 3, 3),
            ("T,1,2,1,00:10,,,3", 3, 3),
            ("T,1,1,9,,00:10,0,3", 3, 3),
            ("T,1,1,9,,48:00,101,9999", 3, 3),
            ("T,7,1,1,,00:10,0,2", 4, 3),
            ("T,1,1,9,,00:10,0,2", 6, 3),
        ],
    );
    let opened = STATIONS.to_owned() + OPEN;
    expect_after(&opened, &[("T,1,2,1,00:05,,,3", 3, 4), ("T,1,2,1,00:05,,,1", 6, 4), ("T,1,3,2,00:11,,,3", 3, 4)]);
}

#[test]
fn times_of_another_form_give_2() {
    for time in TIMES_OF_ANOTHER_FORM {
        expect_after(STATIONS, &[(&format!("T,1,1,1,,{time},0,0"), 2, 3)]);
        let opened = STATIONS.to_owned() + OPEN;
        for times in [format!("{time},,"), format!("{time},23:00,0"), format!("00:11,{time},0")] {
            expect_after(&opened, &[(&format!("T,1,2,2,{times},0"), 2, 4)]);
        }
    }
}

/// "`hh:mm` .. two digits each side; the plain minute is dropped there. .. another form 2."
#[rustfmt::skip]
const TIMES_OF_ANOTHER_FORM: &[&str] = &[
    "8:00", "08:0", "008:00", "08:000", "08:00:00", "0800", "480", "0", "10", "2879", "08-00", "08.00", "08;00",
    "08/00", ":", "::", "08:", ":00", " 8:00", "08: 0", "08:00 ", " 08:00", "08:00\r", "-8:00", "+8:00", "08:-1",
    "08:+1", "0x:00", "08:0x", "a8:00", "/8:00", "0::00", "08:/0", "08:0:", "08 00", "08::0", "080:0", "0:800",
    "08:00\0", "\08:00", "8h00", "08:00h", "99999", "10000", "18446744073709551617", "\"8:0\"",
];

#[test]
fn bytes_0_and_255_are_nowhere_part_of_a_line() {
    let mut host = Host::new(0);
    for byte in [0, 255, b'\r', 0x80, 0xb1] {
        for at in 0..OPEN.len() {
            let mut line = OPEN.as_bytes().to_vec();
            line.insert(at, byte);
            host.expect_read([STATIONS.as_bytes(), &line].concat(), 2, 3);
        }
    }
}

#[test]
fn fields_are_empty_only_as_the_stop_allows() {
    // stop 1 has depart and penalty alone
    expect_all_after(
        STATIONS,
        &[
            "T,1,1,1,,,,0",
            "T,1,1,1,,,0,0",
            "T,1,1,1,,00:05,,0",
            "T,1,1,1,00:05,,,0",
            "T,1,1,1,00:05,,0,0",
            "T,1,1,1,00:05,00:05,,0",
            "T,1,1,1,00:05,00:05,0,0",
            // a time out of range where the field has to be empty
            "T,1,1,1,48:00,07:00,0,0",
            "T,1,1,1,48:00,,,0",
        ],
        2,
        3,
    );
    expect_after(STATIONS, &[("T,1,1,1,,00:05,0,0", 7, 4)]);
    // a later stop has arrive, and the other two or neither
    let opened = STATIONS.to_owned() + OPEN;
    expect_all_after(
        &opened,
        &[
            "T,1,2,2,,,,0",
            "T,1,2,2,,,0,0",
            "T,1,2,2,,00:20,,0",
            "T,1,2,2,,00:20,0,0",
            "T,1,2,2,00:15,,0,0",
            "T,1,2,2,00:15,00:20,,0",
        ],
        2,
        4,
    );
    expect_after(&opened, &[("T,1,2,2,00:15,00:20,0,0", 7, 5), ("T,1,2,2,00:15,,,0", 0, 4)]);
}

#[test]
fn stop_0_and_stop_9999_are_no_first_stops() {
    expect_after(
        STATIONS,
        &[
            ("T,1,0,1,,00:10,0,0", 2, 3),
            ("T,1,9999,1,,00:10,0,0", 2, 3),
            ("T,1,0,1,00:05,00:10,0,0", 4, 3),
            ("T,1,0,1,00:05,,,0", 4, 3),
            ("T,1,9999,1,00:05,00:10,0,0", 4, 3),
            ("T,1,11,1,00:05,00:10,0,0", 4, 3),
        ],
    );
}

#[test]
fn bytes_after_the_last_line_end_give_2() {
    let mut host = Host::new(1);
    for rest in ["S", "S,1,0,1", " ", "\r", "\0", ","] {
        host.expect_read(rest, 2, 1);
    }
    for rest in ["T", "T,2,1,1,,00:10,0,0", "S,3,0,1", " ", "\r", "\0"] {
        host.expect_read(format!("{STATIONS}{TRIP}{rest}"), 2, 5);
        // an open trip would be a 7 after all lines: the rest comes before that
        host.expect_read(format!("{STATIONS}{OPEN}{rest}"), 2, 4);
        // a refused line goes before the rest
        host.expect_read(format!("{STATIONS}{TRIP}{TRIP}{rest}"), 4, 5);
    }
    host.expect_read(STATIONS.trim_end(), 2, 2);
}

#[test]
fn empty_lines_give_2_wherever_they_stand() {
    let mut host = Host::new(2);
    host.expect_read("\n", 2, 1);
    host.expect_read("\n\n", 2, 1);
    host.expect_read(format!("\n{STATIONS}"), 2, 1);
    host.expect_read(format!("{STATIONS}\n"), 2, 3);
    host.expect_read(format!("{STATIONS}\n{TRIP}"), 2, 3);
    host.expect_read(format!("{STATIONS}{OPEN}\n"), 2, 4);
    host.expect_read(format!("{STATIONS}{TRIP}\n"), 2, 5);
}

#[test]
fn station_values_out_of_range_give_3() {
    let give = |number| move |line| (line, number, 3);
    let passes = ["S,3,0,1", "S,3,240,1", "S,3,0,1000", "S,3,240,1000", "S,3,1,999"];
    let refused =
        ["S,3,241,1", "S,3,0,0", "S,3,0,1001", "S,3,9999,1", "S,3,0,9999", "S,3,9999,9999", "S,3,241,0", "S,3,256,1"];
    expect_after(STATIONS, &passes.map(give(0)));
    expect_after(STATIONS, &refused.map(give(3)));
}

#[test]
fn stop_values_out_of_range_give_3() {
    expect_after(
        STATIONS,
        &[
            ("T,1,1,1,,00:00,0,0", 7, 4),
            ("T,1,1,1,,47:59,0,0", 7, 4),
            ("T,1,1,1,,48:00,0,0", 3, 3),
            ("T,1,1,1,,00:59,0,0", 7, 4),
            ("T,1,1,1,,00:60,0,0", 3, 3),
            ("T,1,1,1,,24:00,0,0", 7, 4),
            ("T,1,1,1,,24:60,0,0", 3, 3),
            ("T,1,1,1,,47:60,0,0", 3, 3),
            ("T,1,1,1,,99:00,0,0", 3, 3),
            ("T,1,1,1,,99:99,0,0", 3, 3),
            ("T,1,1,1,,00:10,100,0", 7, 4),
            ("T,1,1,1,,00:10,101,0", 3, 3),
            ("T,1,1,1,,00:10,9999,0", 3, 3),
            ("T,1,1,1,,48:00,101,0", 3, 3),
        ],
    );
    let opened = STATIONS.to_owned() + OPEN;
    expect_after(
        &opened,
        &[
            ("T,1,2,2,47:59,,,0", 0, 4),
            ("T,1,2,2,48:00,,,0", 3, 4),
            ("T,1,2,2,00:60,,,0", 3, 4),
            ("T,1,2,2,99:99,,,0", 3, 4),
            ("T,1,2,2,00:11,00:60,0,0", 3, 4),
            ("T,1,2,2,47:59,47:59,100,0", 7, 5),
            ("T,1,2,2,47:59,48:00,0,0", 3, 4),
            ("T,1,2,2,48:00,48:00,0,0", 3, 4),
            ("T,1,2,2,00:11,00:11,101,0", 3, 4),
            ("T,1,2,2,00:11,00:11,100,0", 7, 5),
        ],
    );
}

#[test]
fn numbers_of_stations_trips_and_stops_have_no_range() {
    let placeless = ["S,0,0,1", "S,9999,0,1", "T,0,1,1,,00:10,0,0", "T,9999,1,1,,00:10,0,0", "T,1,9999,1,00:05,,,0"];
    expect_all_after(STATIONS, &placeless, 4, 3);
    expect_all_after(STATIONS, &["T,1,1,0,,00:10,0,0", "T,1,1,3,,00:10,0,0", "T,1,1,9999,,00:10,0,0"], 6, 3);
}

#[test]
fn stations_out_of_place_give_4() {
    expect_all_after("", &["S,0,0,1", "S,2,0,1", "S,9999,0,1"], 4, 1);
    expect_all_after(STATIONS, &["S,1,0,1", "S,2,0,1", "S,4,0,1"], 4, 3);
    // stations come first, even where the trip is still open
    expect_all_after(&format!("{STATIONS}{OPEN}"), &["S,1,0,1", "S,3,0,1"], 4, 4);
    expect_all_after(&format!("{STATIONS}{TRIP}"), &["S,1,0,1", "S,3,0,1"], 4, 5);
}

#[test]
fn trips_out_of_place_give_4() {
    let begun =
        ["T,0,1,1,,00:10,0,0", "T,2,1,1,,00:10,0,0", "T,1,2,1,00:05,,,0", "T,0,2,1,00:05,,,0", "T,1,0,1,00:05,,,0"];
    expect_all_after(STATIONS, &begun, 4, 3);
    // a new trip, or the same again, while one is open
    expect_all_after(
        &format!("{STATIONS}{OPEN}"),
        &["T,2,1,1,,00:20,0,0", "T,1,1,1,,00:20,0,0", "T,2,2,2,00:20,,,0", "T,1,3,2,00:20,,,0", "T,0,2,2,00:20,,,0"],
        4,
        4,
    );
    // a stop after its trip's end
    expect_all_after(
        &format!("{STATIONS}{TRIP}"),
        &[
            "T,1,3,1,00:20,,,0",
            "T,1,3,1,00:20,00:30,0,0",
            "T,1,2,1,00:20,,,0",
            "T,1,1,1,,00:20,0,0",
            "T,3,1,1,,00:20,0,0",
            "T,2,2,1,00:20,,,0",
            "T,2,3,1,00:20,,,0",
        ],
        4,
        5,
    );
    expect_after(&format!("{STATIONS}{TRIP}"), &[("T,2,1,1,,00:00,0,0", 7, 6)]);
}

#[test]
fn a_trip_before_any_station_gives_6_for_its_station() {
    expect_after(
        "",
        &[
            ("T,1,1,1,,00:10,0,0", 6, 1),
            ("T,1,1,0,,00:10,0,0", 6, 1),
            ("T,2,1,1,,00:10,0,0", 4, 1),
            ("T,1,2,1,00:10,,,0", 4, 1),
            ("T,1,1,1,,48:00,0,0", 3, 1),
        ],
    );
}

#[test]
fn stops_that_do_not_fit_give_6() {
    let opened = STATIONS.to_owned() + OPEN;
    expect_after(
        &opened,
        &[
            // station listed
            ("T,1,2,0,00:11,,,0", 6, 4),
            ("T,1,2,3,00:11,,,0", 6, 4),
            ("T,1,2,64,00:11,,,0", 6, 4),
            // unlike the stop before
            ("T,1,2,1,00:11,,,0", 6, 4),
            ("T,1,2,1,00:11,00:12,0,0", 6, 4),
            // arrival after the previous departure
            ("T,1,2,2,00:00,,,0", 6, 4),
            ("T,1,2,2,00:09,,,0", 6, 4),
            ("T,1,2,2,00:10,,,0", 6, 4),
            ("T,1,2,2,00:10,00:20,0,0", 6, 4),
            ("T,1,2,2,00:11,,,0", 0, 4),
            // departure not before arrival
            ("T,1,2,2,00:12,00:11,0,0", 6, 4),
            ("T,1,2,2,00:12,00:00,0,0", 6, 4),
            ("T,1,2,2,00:12,00:12,0,0", 7, 5),
            ("T,1,2,2,00:12,00:13,0,0", 7, 5),
        ],
    );
}

#[test]
fn a_first_stop_is_held_against_no_stop_before() {
    // the trip before ends at station 2, at minute 11
    expect_after(
        &format!("{STATIONS}{TRIP}"),
        &[("T,2,1,2,,00:00,0,0\nT,2,2,1,00:01,,,0", 0, 6), ("T,2,1,1,,00:11,0,0\nT,2,2,2,00:12,,,0", 0, 6)],
    );
    expect_after(
        &format!("{STATIONS}{TRIP}"),
        &[("T,2,1,2,,00:00,0,0\nT,2,2,2,00:01,,,0", 6, 6), ("T,2,1,1,,00:11,0,0\nT,2,2,2,00:11,,,0", 6, 6)],
    );
}

#[test]
fn a_stop_is_held_against_the_one_before_and_no_earlier_one() {
    let text = "S,1,0,1\nS,2,0,1\nT,1,1,1,,00:10,0,0\nT,1,2,2,00:11,00:20,0,0\n";
    expect_after(
        text,
        &[
            ("T,1,3,1,00:21,,,0", 0, 5),
            ("T,1,3,1,00:20,,,0", 6, 5),
            ("T,1,3,1,00:15,,,0", 6, 5),
            ("T,1,3,2,00:21,,,0", 6, 5),
            ("T,1,3,1,00:21,00:30,0,0\nT,1,4,2,00:31,,,0", 0, 6),
            ("T,1,3,1,00:21,00:30,0,0\nT,1,4,1,00:31,,,0", 6, 6),
        ],
    );
}

#[test]
fn an_end_without_station_or_in_an_open_trip_gives_7() {
    let mut host = Host::new(3);
    host.expect_read("", 7, 1);
    host.expect_read(format!("{STATIONS}{OPEN}"), 7, 4);
    host.expect_read(format!("{STATIONS}{TRIP}T,2,1,1,,00:10,0,0\n"), 7, 6);
    host.expect_read(format!("{STATIONS}{OPEN}T,1,2,2,00:11,00:12,0,0\n"), 7, 5);
    host.expect_read(STATIONS, 0, 2);
    host.expect_read("S,1,0,1\n", 0, 1);
    host.expect_read(format!("{STATIONS}{TRIP}"), 0, 4);
}

#[test]
fn the_lowest_number_goes_first_within_a_line() {
    expect_after(
        STATIONS,
        &[
            // 2 before 3, 4 and 6
            ("S,3,241,", 2, 3),
            ("T,1,1,1,,48:00,,0", 2, 3),
            ("T,7,1,1,,00:10,,0", 2, 3),
            ("T,1,1,9,,00:10,,0", 2, 3),
            ("S,9,0,01", 2, 3),
            // 3 before 4 and 6
            ("S,9,241,1", 3, 3),
            ("S,0,0,0", 3, 3),
            ("T,7,1,1,,48:00,0,0", 3, 3),
            ("T,7,3,1,48:00,,,0", 3, 3),
            ("T,1,1,9,,00:10,101,0", 3, 3),
            ("T,1,1,9,,48:00,0,0", 3, 3),
            ("T,1,1,9,,00:60,0,0", 3, 3),
            // 6 in its turn
            ("T,1,1,9,,47:59,0,0", 6, 3),
            // 4 before 6
            ("T,7,1,9,,00:10,0,0", 4, 3),
            ("T,1,2,9,00:10,,,0", 4, 3),
        ],
    );
    expect_after(
        &format!("{STATIONS}{OPEN}"),
        &[
            ("T,1,2,1,00:05,00:04,,0", 2, 4),
            ("T,1,2,1,48:00,00:04,0,0", 3, 4),
            ("T,1,2,1,00:05,00:04,101,0", 3, 4),
            ("T,1,3,1,00:05,00:04,0,0", 4, 4),
            ("T,1,2,1,00:05,00:04,0,0", 6, 4),
            ("S,3,241,0", 3, 4),
            ("S,3,240,1", 4, 4),
        ],
    );
}

#[test]
fn the_first_refused_line_goes_before_every_later_one() {
    let mut host = Host::new(4);
    let refused = [("T,2", 2), ("T,2,1,1,,48:00,0,0", 3), ("T,4,1,1,,00:10,0,0", 4), ("T,2,1,3,,00:10,0,0", 6)];
    for (first, number) in refused {
        for (second, _) in refused {
            host.expect_read(format!("{STATIONS}{TRIP}{first}\n{second}\n"), number, 5);
            host.expect_read(format!("{STATIONS}{TRIP}{first}\n{second}"), number, 5);
        }
        // the open trip at the end would be a 7
        host.expect_read(format!("{STATIONS}{TRIP}{first}\nT,2,1,1,,00:10,0,0\n"), number, 5);
        host.expect_read(format!("{STATIONS}{OPEN}T,1,2,2,00:11,,,0\n{first}\n"), number, 5);
    }
}
