//! Texts and slices one below, at and one above each limit.

use dairyepoch_tests::examples::M;
use dairyepoch_tests::generate::long_lines;
use dairyepoch_tests::host::Host;
use dairyepoch_tests::timetable::clock;

fn stations(count: usize) -> String {
    (1..=count).map(|station| format!("S,{station},0,1\n")).collect()
}

/// A whole trip between stations 1 and 2.
fn trip(trip: usize, stops: usize) -> String {
    open_trip(trip, stops - 1) + &format!("T,{trip},{stops},{},{},,,0\n", station_of(stops), time(stops - 1))
}

/// A trip between stations 1 and 2 that has not ended.
fn open_trip(trip: usize, stops: usize) -> String {
    let later = (2..=stops).map(|stop| {
        let time = time(stop - 1);
        format!("T,{trip},{stop},{},{time},{time},0,0\n", station_of(stop))
    });
    format!("T,{trip},1,1,,00:00,0,0\n") + &later.collect::<String>()
}

fn time(minute: usize) -> String {
    clock(u16::try_from(minute).expect("a minute of the two days"))
}

/// Stations 1 and 2 by turns.
fn station_of(stop: usize) -> usize {
    2 - stop % 2
}

/// Two stations and trips of 8 stops, 2,040 stops in all.
fn stops_2040() -> String {
    stations(2) + &(1..=255).map(|number| trip(number, 8)).collect::<String>()
}

#[test]
fn at_most_64_stations() {
    let mut host = Host::new(1);
    host.expect_read(stations(63), 0, 63);
    host.expect_read(stations(64), 0, 64);
    host.expect_read(stations(65), 5, 65);
    host.expect_read(stations(200), 5, 65);
    host.expect_read(stations(64) + &trip(1, 2), 0, 66);
    host.expect_read(stations(65) + &trip(1, 2), 5, 65);
}

#[test]
fn the_65th_station_is_asked_in_order() {
    let mut host = Host::new(2);
    let full = stations(64);
    let refused =
        [("S,65,0,", 2), ("S,65,241,1", 3), ("S,65,0,0", 3), ("S,66,0,1", 4), ("S,64,0,1", 4), ("S,65,240,1000", 5)];
    for (line, number) in refused {
        host.expect_read(format!("{full}{line}\n"), number, 65);
    }
    host.expect_read(full.clone() + "S,65,0,1", 2, 65);
    host.expect_read(full.clone() + "T,1,1,65,,00:00,0,0\n", 6, 65);
    // after a stop, a 65th station is out of place before it is too many
    host.expect_read(full.clone() + "T,1,1,64,,00:00,0,0\nS,65,0,1\n", 4, 66);
    host.expect_read(full + "T,1,1,64,,00:00,0,0\nT,1,2,63,00:01,,,0\n", 0, 66);
}

#[test]
fn at_most_256_trips() {
    let mut host = Host::new(3);
    let trips = |count| stations(2) + &(1..=count).map(|number| trip(number, 2)).collect::<String>();
    host.expect_read(trips(255), 0, 2 + 510);
    host.expect_read(trips(256), 0, 2 + 512);
    host.expect_read(trips(257), 5, 2 + 513);
    host.expect_read(trips(300), 5, 2 + 513);
}

#[test]
fn the_257th_trip_is_asked_in_order() {
    let mut host = Host::new(4);
    let full = stations(2) + &(1..=256).map(|number| trip(number, 2)).collect::<String>();
    let refused = [
        ("T,257,1,1,,00:00,,0", 2),
        ("T,257,1,1,,48:00,0,0", 3),
        ("T,257,1,1,,00:00,101,0", 3),
        ("T,258,1,1,,00:00,0,0", 4),
        ("T,256,1,1,,00:00,0,0", 4),
        ("T,256,3,1,00:09,,,0", 4),
        ("T,257,2,1,00:09,,,0", 4),
        ("S,3,0,1", 4),
        ("T,257,1,1,,00:00,0,0", 5),
        ("T,257,1,3,,00:00,0,0", 5),
        ("T,257,1,0,,00:00,0,0", 5),
    ];
    for (line, number) in refused {
        host.expect_read(format!("{full}{line}\n"), number, 515);
    }
}

#[test]
fn at_most_2048_stops_on_one_trip() {
    let mut host = Host::new(5);
    for (stops, number, beside) in [(2_047, 0, 2_049), (2_048, 0, 2_050), (2_049, 5, 2_051), (2_050, 5, 2_051)] {
        host.expect_read(stations(2) + &trip(1, stops), number, beside);
    }
    host.expect_read(stations(2) + &open_trip(1, 2_047), 7, 2_050);
    host.expect_read(stations(2) + &open_trip(1, 2_048), 7, 2_051);
    host.expect_read(stations(2) + &open_trip(1, 2_049), 5, 2_051);
}

#[test]
fn at_most_2048_stops_on_all_trips() {
    let mut host = Host::new(6);
    host.expect_read(stops_2040() + &trip(256, 7), 0, 2_049);
    host.expect_read(stops_2040() + &trip(256, 8), 0, 2_050);
    host.expect_read(stops_2040() + &trip(256, 9), 5, 2_051);
    // the 2,049th stop is a trip's first
    let mut host = Host::new(7);
    let full = stations(2) + &(1..=128).map(|number| trip(number, 16)).collect::<String>();
    host.expect_read(full.clone(), 0, 2_050);
    host.expect_read(full + "T,129,1,1,,00:00,0,0\n", 5, 2_051);
}

#[test]
fn the_2049th_stop_is_asked_in_order() {
    let mut host = Host::new(8);
    let full = stations(2) + &open_trip(1, 2_048);
    let refused = [
        ("T,1,2049,1,34:08,,0,0", 2),
        ("T,1,2049,1,48:00,,,0", 3),
        ("T,1,2049,1,34:08,34:08,101,0", 3),
        ("T,1,2050,1,34:08,,,0", 4),
        ("T,2,1,1,,00:00,0,0", 4),
        ("T,1,2049,1,34:08,,,0", 5),
        ("T,1,2049,2,34:08,,,0", 5),
        ("T,1,2049,3,34:08,,,0", 5),
        ("T,1,2049,1,34:07,,,0", 5),
        ("T,1,2049,1,34:08,34:07,0,0", 5),
    ];
    for (line, number) in refused {
        host.expect_read(format!("{full}{line}\n"), number, 2_051);
    }
}

#[test]
fn all_three_counts_full() {
    let mut host = Host::new(9);
    let full = stations(64) + &(1..=256).map(|number| trip(number, 8)).collect::<String>();
    host.expect_read(&full, 0, 2_112);
    host.expect_read(full.clone() + "T,257,1,1,,00:00,0,0\n", 5, 2_113);
    host.expect_read(full + "S,65,0,1\n", 4, 2_113);
    host.expect_read(long_lines().to_text(), 0, 2_112);
}

/// The text, made up to a length by bytes that are part of no line.
fn padded(text: &str, length: usize, padding: u8) -> Vec<u8> {
    let mut bytes = text.as_bytes().to_vec();
    bytes.resize(length, padding);
    bytes
}

#[test]
fn at_most_65536_bytes() {
    let mut host = Host::new(10);
    for padding in [b'\n', b'x', b' ', b'1', 0, 255] {
        for length in [65_535, 65_536] {
            host.expect_read(padded(M, length, padding), 2, 11);
            host.expect_read(padded("", length, padding), 2, 1);
        }
        for length in [65_537, 65_538, 65_536 + M.len(), 2 * 65_536, 2 * 65_536 + M.len(), 1_000_000] {
            host.expect_read(padded(M, length, padding), 1, 0);
            host.expect_read(padded("", length, padding), 1, 0);
        }
    }
}

#[test]
fn too_many_bytes_go_before_every_other_refusal_of_the_text() {
    let mut host = Host::new(11);
    for text in ["x\n", "S,1,241,1\n", "S,2,0,1\n", "T,1,1,1,,00:00,0,0\n"] {
        let number = host.read(text.as_bytes()).number;
        host.expect_read(padded(text, 65_536, b'\n'), number, 1);
        host.expect_read(padded(text, 65_537, b'\n'), 1, 0);
    }
    let stations_too_many = stations(65);
    host.expect_read(padded(&stations_too_many, 65_536, b'\n'), 5, 65);
    host.expect_read(padded(&stations_too_many, 65_537, b'\n'), 1, 0);
}

#[test]
fn a_timetable_slice_below_16384_words_gives_8_before_all_else() {
    for length in [0, 1, 2, 3, 51, 10_884, 16_383] {
        let mut host = Host::lending(length, 12);
        host.expect_read(M, 8, 0);
        host.expect_read("", 8, 0);
        host.expect_read("x", 8, 0);
        host.expect_read(padded(M, 65_537, b'\n'), 8, 0);
        host.expect_read(long_lines().to_text(), 8, 0);
    }
}

#[test]
fn a_timetable_slice_of_16384_words_or_more_is_long_enough() {
    for length in [16_384, 16_385, 20_000, 65_535, 65_536, 65_537, 2 * 65_536, 2 * 65_536 + 1] {
        let mut host = Host::lending(length, 13);
        host.expect_read(M, 0, 10);
        host.expect_read("", 7, 1);
        host.expect_read("x", 2, 1);
        host.expect_read(padded(M, 65_537, b'\n'), 1, 0);
        host.expect_read(long_lines().to_text(), 0, 2_112);
    }
}
