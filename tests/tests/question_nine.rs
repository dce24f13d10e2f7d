//! Could the timetable words come from an accepted text, by cancelled and extra trips too? Asked of words that do, and
//! of words that were damaged.

use dairyepoch_tests::ffi;
use dairyepoch_tests::generate::{
    largest, long_lines, marked, timetable, with_gaps, with_trips, with_walks, Size, LARGE, MIDDLING, SMALL,
};
use dairyepoch_tests::host::{lent, Host};
use dairyepoch_tests::random::Random;
use dairyepoch_tests::timetable::{Onward, Station, Stop, Timetable, BOTH, WALKS_MOST};
use dairyepoch_tests::words::{numbers_place, to_words, STOP_WORDS, TIMETABLE_WORDS, TIMETABLE_WORDS_MOST};

/// A timetable of the fewest words that have every kind of stop: a first, a middle and a last one.
fn smallest_whole() -> Timetable {
    with_trips(&mut Random::new(0), 2, &[3, 2])
}

/// Asks about each of the values in each place of the table, with the others as they are.
fn each_word_changed(host: &mut Host, table: &[u16], values: &[u16], random: &mut Random) -> [usize; 10] {
    let mut tally = [0; 10];
    let mut words = lent(table.to_vec(), random);
    for at in 0..table.len() {
        for &value in values {
            words[at] = value;
            tally[host.check_timetable(&words) as usize] += 1;
        }
        words[at] = table[at];
    }
    tally
}

/// The values at the edges of every range and count, and some that only a word of 16 bits can have.
fn edges() -> Vec<u16> {
    let around = [1, 3, 64, 100, 240, 256, 1_000, 2_048, 2_879, 4_096, 10_000, 16_384, 32_768, 65_534];
    around.iter().flat_map(|&edge| [edge - 1, edge, edge + 1]).collect()
}

fn words_of_texts_have_a_yes(size: &Size, count: u64) {
    let mut host = Host::new(count);
    let mut random = Random::new(count);
    for _ in 0..count {
        let table = to_words(&timetable(&mut random, size));
        assert_eq!(host.check_timetable(&lent(table, &mut random)), 0);
    }
}

#[test]
fn words_of_small_texts_have_a_yes() {
    words_of_texts_have_a_yes(&SMALL, 10_000);
}

#[test]
fn words_of_middling_texts_have_a_yes() {
    words_of_texts_have_a_yes(&MIDDLING, 2_000);
}

#[test]
fn words_of_large_texts_have_a_yes() {
    words_of_texts_have_a_yes(&LARGE, 200);
}

#[test]
fn words_of_the_largest_texts_have_a_yes() {
    let mut host = Host::new(1);
    let mut random = Random::new(2);
    for timetable in (0..50).map(|_| largest(&mut random)).chain([long_lines()]).collect::<Vec<_>>() {
        assert_eq!(host.check_timetable(&lent(to_words(&timetable), &mut random)), 0);
    }
}

#[test]
fn the_largest_timetable_has_11973_words() {
    let mut random = Random::new(45);
    let timetable = with_walks(&mut random, &long_lines(), WALKS_MOST);
    let words = to_words(&timetable);
    assert_eq!(words.len(), TIMETABLE_WORDS_MOST);
    assert_eq!(TIMETABLE_WORDS_MOST, 11_973);
    assert_eq!(Host::new(46).check_timetable(&lent(words, &mut random)), 0);
}

#[test]
fn words_with_gaps_have_a_yes() {
    let mut host = Host::new(31);
    let mut random = Random::new(32);
    for (size, count) in [(SMALL, 1_000), (MIDDLING, 100), (LARGE, 2)] {
        for _ in 0..count {
            let timetable = timetable(&mut random, &size);
            let table = to_words(&with_gaps(&mut random, &timetable));
            assert_eq!(host.check_timetable(&lent(table, &mut random)), 0);
        }
    }
}

/// The first and the last numbers that 256 trips can have, and those one beyond.
#[test]
fn the_numbers_of_256_trips() {
    let mut host = Host::new(33);
    let mut random = Random::new(34);
    let trips = with_trips(&mut random, 2, &[2; 256]);
    for (least, number) in [(0, 9), (1, 0), (2, 0), (9_743, 0), (9_744, 0), (9_745, 9), (65_280, 9)] {
        let numbered = (least..=u16::MAX).zip(trips.trips.values().cloned()).collect();
        let timetable = Timetable { trips: numbered, ..trips.without_trips() };
        let words = lent(to_words(&timetable), &mut random);
        assert_eq!(host.check_timetable(&words), number, "from {least} on");
    }
}

#[test]
fn every_value_in_each_number_of_a_trip() {
    let mut host = Host::new(35);
    let mut random = Random::new(36);
    let trips = with_trips(&mut random, 3, &[2, 2, 2]);
    for numbers in [[1, 2, 3], [1, 5_000, 9_999], [7, 8, 500], [9_997, 9_998, 9_999]] {
        let numbered = numbers.into_iter().zip(trips.trips.values().cloned()).collect();
        let timetable = Timetable { trips: numbered, ..trips.without_trips() };
        let table = to_words(&timetable);
        let mut words = lent(table.clone(), &mut random);
        let place = numbers_place(&timetable);
        for at in place..place + 3 {
            for value in (0..=20).chain((21..=9_900).step_by(89)).chain(9_900..=10_100).chain([32_768, 65_535]) {
                words[at] = value;
                let now = &words[place..place + 3];
                let yes = 0 < now[0] && now[0] < now[1] && now[1] < now[2] && now[2] < 10_000;
                assert_eq!(host.check_timetable(&words), if yes { 0 } else { 9 }, "{now:?}");
            }
            words[at] = table[at];
        }
    }
}

#[test]
fn every_numbers_over_telling_values() {
    let mut random = Random::new(37);
    let table = to_words(&with_trips(&mut random, 2, &[2, 3, 2]));
    let (start, end) = (&table[..table.len() - 6], &table[table.len() - 3..]);
    let tally = every_filling(&mut Host::new(38), start, &[0, 1, 2, 3, 4, 9_999, 10_000, 65_535], 3, end);
    // three of 1, 2, 3, 4 and 9,999, rising
    assert_eq!(tally[0], 10);
}

#[test]
fn what_reading_wrote_has_a_yes() {
    let mut random = Random::new(3);
    for size in [SMALL, MIDDLING, LARGE] {
        for _ in 0..200 {
            let mut words = lent(Vec::new(), &mut random);
            let text = timetable(&mut random, &size).to_text();
            assert_eq!(ffi::read(&text, &mut words).number, 0);
            assert_eq!(ffi::check_timetable(&words).number, 0);
        }
    }
}

#[test]
fn words_behind_the_table_are_not_judged() {
    let mut host = Host::new(4);
    let table = to_words(&smallest_whole());
    for filler in [0, 1, 2, 64, 2_880, 9_999, 10_000, 0x7fff, 0x8000, 0xffff] {
        let mut words = vec![filler; TIMETABLE_WORDS];
        words[..table.len()].copy_from_slice(&table);
        assert_eq!(host.check_timetable(&words), 0);
        // the number of the second trip, after number 1
        words[numbers_place(&smallest_whole()) + 1] = filler;
        assert_eq!(host.check_timetable(&words), if (2..=9_999).contains(&filler) { 0 } else { 9 });
    }
}

#[test]
fn a_slice_below_16384_words_gives_8_before_9() {
    let mut host = Host::new(5);
    let mut random = Random::new(6);
    let whole = lent(to_words(&smallest_whole()), &mut random);
    let zeros = vec![0; TIMETABLE_WORDS];
    for length in [0, 1, 2, 3, 39, 40, 11_973, 16_382, 16_383] {
        assert_eq!(host.check_timetable(&whole[..length]), 8);
        assert_eq!(host.check_timetable(&zeros[..length]), 8);
    }
    assert_eq!(host.check_timetable(&whole), 0);
    assert_eq!(host.check_timetable(&zeros), 9);
}

#[test]
fn a_slice_above_16384_words_is_long_enough() {
    let mut host = Host::new(7);
    let mut random = Random::new(8);
    let table = to_words(&largest(&mut random));
    for length in [16_384, 16_385, 32_768, 65_536, 65_537, 2 * 65_536 + 3] {
        let mut words = lent(table.clone(), &mut random);
        words.resize(length, 7);
        assert_eq!(host.check_timetable(&words), 0);
        words[0] = 65;
        assert_eq!(host.check_timetable(&words), 9);
    }
}

#[test]
fn words_all_alike_have_a_no() {
    let mut host = Host::new(9);
    for value in (0..=u16::MAX).step_by(31).chain(edges()).chain([u16::MAX]) {
        assert_eq!(host.check_timetable(&vec![value; TIMETABLE_WORDS]), 9, "all words {value}");
    }
}

#[test]
fn random_words_are_judged_as_the_reference_does() {
    let mut host = Host::new(10);
    let mut random = Random::new(11);
    for _ in 0..2_000 {
        let mut words = lent(Vec::new(), &mut random);
        host.check_timetable(&words);
        // small numbers lead further into the table
        words.iter_mut().for_each(|word| *word %= 4);
        host.check_timetable(&words);
    }
}

#[test]
fn every_value_in_each_word_of_a_small_table() {
    let mut host = Host::new(12);
    let mut random = Random::new(13);
    let values: Vec<u16> = (0..=3_000).chain((3_001..=u16::MAX).step_by(97)).chain(edges()).collect();
    let tally = each_word_changed(&mut host, &to_words(&smallest_whole()), &values, &mut random);
    assert!(tally[0] > 1_000 && tally[9] > 1_000, "{tally:?}");
}

#[test]
fn edge_values_in_each_word_of_many_tables() {
    let mut host = Host::new(14);
    let mut random = Random::new(15);
    for _ in 0..60 {
        let table = to_words(&timetable(&mut random, &SMALL));
        each_word_changed(&mut host, &table, &edges(), &mut random);
    }
}

#[test]
fn each_word_of_many_tables_one_up_and_one_down() {
    let mut host = Host::new(16);
    let mut random = Random::new(17);
    for _ in 0..1_000 {
        let table = to_words(&timetable(&mut random, &SMALL));
        let mut words = lent(table.clone(), &mut random);
        for at in 0..table.len() {
            for value in [table[at].wrapping_add(1), table[at].wrapping_sub(1), 0, random.word()] {
                words[at] = value;
                host.check_timetable(&words);
            }
            words[at] = table[at];
        }
    }
}

#[test]
fn two_words_of_a_table_changed_at_once() {
    let mut host = Host::new(18);
    let mut random = Random::new(19);
    let table = to_words(&smallest_whole());
    let mut words = lent(table.clone(), &mut random);
    for one in 0..table.len() {
        for other in 0..one {
            for (first, second) in (0..4).flat_map(|first| (0..6).map(move |second| (first, second))) {
                (words[one], words[other]) = (first, second);
                host.check_timetable(&words);
            }
            words[other] = table[other];
        }
        words[one] = table[one];
    }
}

#[test]
fn words_left_out_put_in_and_swapped() {
    let mut host = Host::new(20);
    let mut random = Random::new(21);
    for _ in 0..5_000 {
        let mut table = to_words(&timetable(&mut random, &SMALL));
        let (one, other) = (random.below(table.len()), random.below(table.len()));
        match random.below(4) {
            0 => drop(table.remove(one)),
            1 => table.insert(one, random.below(5) as u16),
            2 => table.swap(one, other),
            _ => table.truncate(one),
        }
        host.check_timetable(&lent(table, &mut random));
    }
}

/// Asks about every table that begins with `start`, has any of `values` in the next `free` words and ends with `end`.
fn every_filling(host: &mut Host, start: &[u16], values: &[u16], free: usize, end: &[u16]) -> [usize; 10] {
    let table = [start, &vec![values[0]; free], end].concat();
    let mut words = lent(table, &mut Random::new(22));
    let mut tally = [0; 10];
    for mut choice in 0..values.len().pow(free as u32) {
        for word in &mut words[start.len()..start.len() + free] {
            *word = values[choice % values.len()];
            choice /= values.len();
        }
        tally[host.check_timetable(&words) as usize] += 1;
    }
    tally
}

#[test]
fn every_trip_of_two_stops_over_small_values() {
    let tally = every_filling(&mut Host::new(23), &[2, 1, 2, 0, 1, 0, 1], &[0, 1, 2, 3], 9, &[2, 0, 2, 1, 0, 0, 0]);
    // two orders of the stations; 0 < 1, 2, 3 and 1 < 2, 3 and 2 < 3; four ride penalties; three marks
    assert_eq!(tally[0], 2 * 6 * 4 * 3);
}

#[test]
fn every_trip_of_three_stops_over_small_values() {
    let end = [2, 0, 0, 1, 0, 3, 1, 0, 0, 0];
    let tally = every_filling(&mut Host::new(24), &[2, 1, 3, 0, 1, 0, 1], &[0, 1, 2], 11, &end);
    // stations 1, 2, 1 or 2, 1, 2; minutes 0, 1, 1, 2; three ride penalties twice; three marks twice
    assert_eq!(tally[0], 2 * 9 * 9);
}

/// Where the mark of a stop stands in the words of a timetable; stops count from 0, over all trips.
fn mark_at(table: &[u16], stop: usize) -> usize {
    3 + 2 * usize::from(table[0]) + STOP_WORDS * stop + 4
}

#[test]
fn every_value_in_each_mark() {
    let mut host = Host::new(39);
    let mut random = Random::new(40);
    let unmarked = smallest_whole();
    for timetable in [marked(&mut random, &unmarked), unmarked] {
        let table = to_words(&timetable);
        let mut words = lent(table.clone(), &mut random);
        for stop in 0..timetable.stops() {
            let at = mark_at(&table, stop);
            for value in (0..=300).chain((301..=u16::MAX).step_by(61)).chain(edges()) {
                words[at] = value;
                assert_eq!(host.check_timetable(&words), if value <= 2 { 0 } else { 9 }, "mark {value} of stop {stop}");
            }
            words[at] = table[at];
        }
    }
}

#[test]
fn marks_above_2_at_the_limits_have_a_no() {
    let mut host = Host::new(41);
    let mut random = Random::new(42);
    for unmarked in [long_lines(), largest(&mut random), with_trips(&mut random, 64, &[2_048])] {
        let table = to_words(&marked(&mut random, &unmarked));
        let mut words = lent(table.clone(), &mut random);
        assert_eq!(host.check_timetable(&words), 0);
        for stop in [0, 1, 7, 8, 1_023, 2_046, 2_047] {
            let at = mark_at(&table, stop);
            for (value, number) in [(0, 0), (1, 0), (2, 0), (3, 9), (4, 9), (128, 9), (256, 9), (65_535, 9)] {
                words[at] = value;
                assert_eq!(host.check_timetable(&words), number, "mark {value} of stop {stop}");
            }
            words[at] = table[at];
        }
    }
}

/// The words of M before stops had marks: four for each stop.
#[rustfmt::skip]
const FORMER_M: [u16; 44] = [
    3, 3, 7,
    2, 10,  3, 10,  5, 10,
    1, 0, 480, 0,  2, 500, 501, 0,  3, 560, 0, 0,
    2, 0, 503, 0,  3, 520, 0, 0,
    2, 0, 502, 0,  3, 515, 0, 0,
    0, 3, 5, 7,
    1, 2, 3,
];

#[test]
fn words_without_marks_have_a_no() {
    assert_eq!(Host::new(43).check_timetable(&lent(FORMER_M.to_vec(), &mut Random::new(44))), 9);
}

#[test]
fn every_place_of_first_stops_over_small_values() {
    let stop = |station, arrive, depart| [station, arrive, depart, 0, 0];
    let trip = [stop(1, 0, 5), stop(2, 6, 0)].concat();
    let start = [&[2, 2, 4, 0, 1, 0, 1][..], &trip, &trip].concat();
    let tally = every_filling(&mut Host::new(25), &start, &[0, 1, 2, 3, 4, 5, 8, 65_535], 3, &[1, 2, 0, 0, 0]);
    assert_eq!(tally[0], 1);
}

#[test]
fn every_head_over_small_values() {
    let mut host = Host::new(26);
    for timetable in [with_trips(&mut Random::new(1), 1, &[]), smallest_whole()] {
        let table = to_words(&timetable);
        let tally = every_filling(&mut host, &[], &(0..=20).collect::<Vec<_>>(), 3, &table[3..]);
        assert!(tally[0] >= 1);
    }
}

/// A trip of the given number of stops, right in all but, perhaps, that number.
fn trip_of(stops: usize) -> Vec<Stop> {
    let stop = |place: usize| Stop {
        station: (place % 2 + 1) as u16,
        arrive: (place > 0).then_some(place as u16),
        onward: (place + 1 < stops).then_some(Onward { depart: place as u16, penalty: 0 }),
        mark: BOTH,
    };
    (0..stops).map(stop).collect()
}

#[test]
fn counts_above_the_limits_have_a_no() {
    let mut host = Host::new(27);
    let mut random = Random::new(28);
    let mut expect = |stations: usize, lengths: &[usize], number: u32| {
        let stations_alike = vec![Station { change_minutes: 0, change_penalty: 1 }; stations];
        let timetable = Timetable::new(stations_alike, lengths.iter().map(|&stops| trip_of(stops)));
        assert_eq!(host.check_timetable(&lent(to_words(&timetable), &mut random)), number, "{stations}, {lengths:?}");
    };
    expect(0, &[], 9);
    expect(1, &[], 0);
    expect(1, &[2], 9);
    expect(63, &[2], 0);
    expect(64, &[2], 0);
    expect(65, &[2], 9);
    expect(2, &[2; 255], 0);
    expect(2, &[2; 256], 0);
    expect(2, &[2; 257], 9);
    expect(2, &[2_047], 0);
    expect(2, &[2_048], 0);
    expect(2, &[2_049], 9);
    expect(2, &[8; 256], 0);
    expect(64, &[8; 256], 0);
    expect(64, &[[8; 16].as_slice(), &[9]].concat(), 0);
    expect(64, &[&[8; 255][..], &[9]].concat(), 9);
    expect(2, &[0], 9);
    expect(2, &[1], 9);
    expect(2, &[2, 1], 9);
    expect(2, &[2, 0, 2], 9);
    expect(2, &[1, 2], 9);
    expect(2, &[2, 2], 0);
}

#[test]
fn heads_that_lead_out_of_the_slice_have_a_no() {
    let mut host = Host::new(29);
    let mut random = Random::new(30);
    let counts = [0, 1, 2, 64, 65, 256, 257, 2_048, 2_049, 4_094, 4_095, 8_190, 8_191, 16_383, 16_384, 32_768, 65_535];
    let mut words = lent(to_words(&largest(&mut random)), &mut random);
    for stations in counts {
        for trips in counts {
            for stops in counts {
                words[..3].copy_from_slice(&[stations, trips, stops]);
                host.check_timetable(&words);
            }
        }
    }
}
