//! Changes that are refused: which question has the first no, and what is lent that is no timetable with its tables.

use crate::{second, Room};
use dairyepoch_tests::examples::{M, NIGHT};
use dairyepoch_tests::ffi::{self, Reply};
use dairyepoch_tests::generate::{any_timetable, overtaking};
use dairyepoch_tests::host::Host;
use dairyepoch_tests::lent::{noes, replies_to_tampered, Lent, LONGER_LENGTHS};
use dairyepoch_tests::lines::{LINE_WORDS, WORK_WORDS};
use dairyepoch_tests::random::Random;
use dairyepoch_tests::reference::accepted;
use dairyepoch_tests::timetable::trip_text;
use dairyepoch_tests::words::{numbers_place, TIMETABLE_WORDS};

#[test]
fn eighteen_and_nineteen_come_before_the_lines() {
    let mut room = Room::text(M);
    for text in ["", "x", "x\n", "T,3,1,2,,08:22,0,0\n", "S,4,0,0\n", "T,0,1,2,,08:22,0,0\n", &second(3), &second(4)] {
        room.refuses(3, text, 19, 0);
    }
    for trip in [0, 4, 5, 255, 256, 257, 9_999, 10_000] {
        assert_eq!(room.cancel(trip), Reply::refused(18), "cancelling {trip}");
    }
    room.cancels(3, 2);
    assert_eq!(room.cancel(3), Reply::refused(18));
    room.refuses(3, "x\n", 2, 1);
    room.refuses(3, "", 7, 1);
}

#[test]
fn the_number_of_the_call_has_no_question_of_its_own() {
    let mut room = Room::text(M);
    room.refuses(0, "T,0,1,2,,08:23,0,0\n", 3, 1);
    room.refuses(0, "T,5,1,2,,08:23,0,0\n", 4, 1);
    room.refuses(10_000, "T,1000,1,2,,08:23,0,0\n", 4, 1);
    room.refuses(10_000, "T,10000,1,2,,08:23,0,0\n", 2, 1);
    room.refuses(10_000, "", 7, 1);
    room.refuses(0, "", 7, 1);
    assert_eq!(room.cancel(65_537), Reply::refused(18));
}

/// Numbers that are those of running trips only in their lower 16 bits, or outside 1 to 9,999.
#[test]
fn a_number_is_32_bits_wide() {
    let mut room = Room::text(M);
    for low in [0, 1, 2, 3, 4, 9_999] {
        for high in [1, 2, 0x7fff, 0x8000, 0xffff] {
            let trip = high << 16 | low;
            assert_eq!(room.cancel(trip), Reply::refused(18), "cancelling {trip}");
            room.refuses(trip, "", 7, 1);
            room.refuses(trip, second(low), if low == 0 { 3 } else { 4 }, 1);
            room.refuses(trip, "T,0,1,2,,08:23,0,0\n", 3, 1);
        }
    }
    for trip in [10_000, 10_001, 16_383, 32_768, 65_535, 65_536, u32::MAX] {
        assert_eq!(room.cancel(trip), Reply::refused(18), "cancelling {trip}");
        room.refuses(trip, second(trip), 2, 1);
        for line in ["T,1,1,2,,08:23,0,0\n", "T,9999,1,2,,08:23,0,0\n", "T,5,1,2,,08:23,0,0\n"] {
            room.refuses(trip, line, 4, 1);
        }
    }
    room.adds(9_999, second(9_999), 2);
    room.adds(9_998, second(9_998), 2);
    assert_eq!(room.lines(), [vec![1], vec![3, 2, 9_998, 9_999]]);
}

/// The order of questions: each choice of those that have a no.
#[test]
fn the_first_no_ends_it() {
    let good = Lent::text(M);
    for ([short, nine, ten, not_running], number) in noes([8, 9, 10, 18]) {
        let trip = if not_running { 4 } else { 2 };
        let shorts: &[usize] = if short { &[0, 1, 51, 56, 10_884, 15_429, 16_383] } else { &[] };
        good.with_noes(nine, ten).lend(shorts, 5, |host, timetable, lines| {
            let (mut timetable, mut lines) = (timetable.to_vec(), lines.to_vec());
            let count = if number == 0 { 2 } else { 0 };
            let reply = host.cancel_trip(&mut timetable, &mut lines, trip);
            assert_eq!(reply, Reply { number, beside: count });
        });
    }
    for ([short, nine, ten, running, shapeless], number) in noes([8, 9, 10, 19, 2]) {
        let trip = if running { 2 } else { 4 };
        let text = if shapeless { "x".to_string() } else { second(trip) };
        let shorts: &[usize] = if short { &[0, 1, 51, 56, 10_884, 15_429, 16_383] } else { &[] };
        good.with_noes(nine, ten).lend(shorts, 9, |host, timetable, lines| {
            let (mut timetable, mut lines) = (timetable.to_vec(), lines.to_vec());
            let beside = [(0, 2), (2, 1)].iter().find(|case| case.0 == number).map_or(0, |case| case.1);
            let reply = host.add_trip(&mut timetable, &mut lines, trip, text.as_bytes());
            assert_eq!(reply, Reply { number, beside });
        });
    }
    assert_eq!(ffi::change_nothing(1), [Reply::refused(8); 2]);
}

#[test]
fn no_text_at_all_is_no_line() {
    let Lent { mut timetable, mut lines } = Lent::text(M);
    let mut work = vec![0; WORK_WORDS];
    let reply = |trip, timetable: &mut [u16], lines: &mut [u16], work: &mut [u32]| {
        ffi::add_trip_of_no_text(timetable, lines, work, trip)
    };
    assert_eq!(reply(4, &mut timetable, &mut lines, &mut work), Reply { number: 7, beside: 1 });
    assert_eq!(reply(3, &mut timetable, &mut lines, &mut work), Reply::refused(19));
    assert!(timetable == Lent::text(M).timetable && lines == Lent::text(M).lines);
}

#[test]
fn slices_of_16384_words_or_more_are_long_enough() {
    let mut random = Random::new(6);
    for model in [accepted(M), overtaking()] {
        let tables = Lent::new(&model, &mut random);
        let stops = model.trips[&2].clone();
        for length in LONGER_LENGTHS {
            let longer = tables.longer(length, &mut random);
            for (timetable, lines, work_length) in [
                (&longer.timetable, &tables.lines, 16_384),
                (&tables.timetable, &longer.lines, 16_384),
                (&tables.timetable, &tables.lines, length),
                (&longer.timetable, &longer.lines, length),
            ] {
                let mut host = Host::lending_both(0, work_length, 7);
                let mut tables = Lent { timetable: timetable.clone(), lines: lines.clone() };
                assert_eq!(tables.cancel(&mut host, 2).number, 0);
                assert_eq!(tables.add(&mut host, 9_999, trip_text(9_999, &stops)).number, 0);
                assert_eq!(tables.cancel(&mut host, 2), Reply::refused(18));
            }
        }
    }
}

#[test]
fn any_words_in_the_place_of_either_table() {
    let mut random = Random::new(19);
    let mut host = Host::new(20);
    let good = Lent::text(M);
    let mut ask = |timetable: &[u16], lines: &[u16], trip: u32, number: u32| {
        let mut tables = Lent { timetable: timetable.to_vec(), lines: lines.to_vec() };
        assert_eq!(tables.cancel(&mut host, trip), Reply::refused(number));
        assert_eq!(tables.add(&mut host, trip, second(trip)), Reply::refused(number));
    };
    for _ in 0..200 {
        let any = Lent::any(&mut random);
        let trip = random.pick(&[0, 1, 2, 3, 4, 9_999, 65_537, u32::MAX]);
        ask(&any.timetable, &any.lines, trip, 9);
        ask(&any.timetable, &good.lines, trip, 9);
        ask(&good.timetable, &any.lines, trip, 10);
        ask(&good.timetable, &vec![any.lines[0]; LINE_WORDS], trip, 10);
        ask(&vec![any.timetable[0]; TIMETABLE_WORDS], &good.lines, trip, 9);
    }
    for word in [0, 1, 2, 64, 9_999, u16::MAX] {
        ask(&vec![word; TIMETABLE_WORDS], &vec![word; LINE_WORDS], 1, 9);
        ask(&good.timetable, &vec![word; LINE_WORDS], 1, 10);
    }
    // tables of another timetable
    let night = Lent::text(NIGHT);
    ask(&good.timetable, &night.lines, 1, 10);
    ask(&night.timetable, &good.lines, 1, 10);
}

#[test]
fn tables_tampered_with() {
    let replies = replies_to_tampered(21, 2_000, any_timetable, |host, tables, random| {
        let mut tables = tables.clone();
        let trip = random.pick(&[tables.timetable[1], 1, 2, 9_999, 0]).into();
        if random.one_in(2) {
            tables.cancel(host, trip)
        } else {
            tables.add(host, trip, trip_text(trip, &[]))
        }
    });
    assert!(replies[9] > 500 && replies[10] > 500 && replies[7] > 20 && replies[18] > 20, "{replies:?}");
}

/// Each number of a trip changed, in either table: then they are two timetables' tables, or those of none.
#[test]
fn numbers_tampered_with() {
    let mut random = Random::new(22);
    let mut host = Host::new(23);
    let (mut other, mut none) = (0, 0);
    for _ in 0..150 {
        let timetable = any_timetable(&mut random);
        let tables = Lent::new(&timetable, &mut random);
        let first = numbers_place(&timetable);
        for at in first..first + timetable.trips.len() {
            let number = tables.timetable[at];
            for value in [number + 1, number - 1, 0, 9_999, 10_000, u16::MAX, random.within(1..=9_999) as u16] {
                let mut changed = tables.clone();
                changed.timetable[at] = value;
                let reply = changed.cancel(&mut host, value.into());
                let rises =
                    changed.timetable[first..first + timetable.trips.len()].windows(2).all(|two| two[0] < two[1]);
                let good = rises && (1..=9_999).contains(&value);
                let expected = if value == number {
                    0
                } else if good {
                    10
                } else {
                    9
                };
                assert_eq!(reply.number, expected, "{number} changed to {value} in\n{timetable}");
                (other, none) = (other + usize::from(expected == 10), none + usize::from(expected == 9));
            }
        }
    }
    assert!(other > 200 && none > 200, "{other} of another timetable, {none} of none");
}
