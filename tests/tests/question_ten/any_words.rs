//! Slices of any words, and of any length.

use crate::ask_both;
use dairyepoch_tests::examples::M;
use dairyepoch_tests::ffi::{self, Reply};
use dairyepoch_tests::generate::{any_timetable, overtaking, with_trips};
use dairyepoch_tests::host::{lent, Host};
use dairyepoch_tests::lent::{damaged, Lent};
use dairyepoch_tests::lines::LINE_WORDS;
use dairyepoch_tests::random::Random;
use dairyepoch_tests::reference::accepted;
use dairyepoch_tests::words::TIMETABLE_WORDS;

#[test]
fn slices_of_random_and_of_equal_words() {
    let mut host = Host::new(29);
    let mut random = Random::new(30);
    let Lent { timetable: words, .. } = Lent::new(&accepted(M), &mut random);
    for _ in 0..300 {
        let mut tables = lent(Vec::new(), &mut random);
        ask_both(&mut host, &words, &tables, false);
        // small numbers lead further into the tables
        tables.iter_mut().for_each(|word| *word %= 9);
        ask_both(&mut host, &words, &tables, false);
    }
    for value in (0..=u16::MAX).step_by(199).chain(0..=70).chain([255, 256, 257, 16_383, 16_384, u16::MAX]) {
        assert_eq!(ask_both(&mut host, &words, &vec![value; LINE_WORDS], false), 10, "all words {value}");
    }
}

#[test]
fn heads_that_lead_out_of_the_slice() {
    let mut host = Host::new(31);
    let mut random = Random::new(32);
    let Lent { timetable: words, lines: mut tables } = Lent::new(&accepted(M), &mut random);
    let head: Vec<u16> = tables[..4].to_vec();
    let counts = [0, 1, 2, 3, 42, 64, 65, 256, 16_383, 65_535];
    let heads = counts.iter().flat_map(|&stations| counts.iter().map(move |&lines| (stations, lines)));
    for (stations, lines) in heads {
        for (trips, index) in counts.iter().flat_map(|&trips| counts.iter().map(move |&index| (trips, index))) {
            let changed = [stations, lines, trips, index];
            tables[..4].copy_from_slice(&changed);
            ask_both(&mut host, &words, &tables, changed == head[..]);
        }
    }
}

#[test]
fn lines_that_lead_out_of_the_slice() {
    let mut host = Host::new(33);
    let mut random = Random::new(34);
    for timetable in [accepted(M), overtaking(), with_trips(&mut random, 64, &[2_048])] {
        let Lent { timetable: words, lines: tables } = Lent::new(&timetable, &mut random);
        let lines = usize::from(tables[1]);
        for value in [0, 4, 5, 6, 16_382, 16_383, 16_384, 32_768, 65_534, 65_535] {
            let line = random.below(lines);
            let begin = usize::from(tables[4 + line]);
            // where the line begins, its positions, its trips, where the first and the last list begin
            let index = usize::from(tables[3]);
            for at in [4 + line, begin, begin + 1, index, index + usize::from(tables[0])] {
                let mut changed = tables.clone();
                changed[at] = value;
                ask_both(&mut host, &words, &changed, changed == tables);
            }
        }
    }
}

/// Asks about every words that have any of `values` in the first `free` places.
fn every_filling(values: &[u16], free: usize, words: &[u16]) -> [usize; 11] {
    let mut host = Host::new(35);
    let mut tables = lent(vec![0; free], &mut Random::new(36));
    let mut tally = [0; 11];
    for mut choice in 0..values.len().pow(free as u32) {
        for word in &mut tables[..free] {
            *word = values[choice % values.len()];
            choice /= values.len();
        }
        let number = host.check_lines_alone(&tables);
        assert_eq!(host.check_lines(words, &tables), number);
        tally[number as usize] += 1;
    }
    tally
}

#[test]
fn every_words_that_could_be_tables_of_one_station() {
    let mut random = Random::new(37);
    let Lent { timetable: words, .. } = Lent::new(&with_trips(&mut random, 1, &[]), &mut random);
    let tally = every_filling(&[0, 1, 2, 4, 6], 6, &words);
    assert_eq!(tally[0], 1);
}

#[test]
fn the_first_no_ends_it() {
    let mut host = Host::new(38);
    let mut random = Random::new(39);
    for timetable in [accepted(M), overtaking(), any_timetable(&mut random)] {
        let Lent { timetable: words, lines: tables } = Lent::new(&timetable, &mut random);
        let mut wrong = tables.clone();
        wrong[0] ^= 1;
        assert_eq!(host.check_lines(&words, &tables), 0);
        assert_eq!(host.check_lines(&words, &wrong), 10);
        assert_eq!(host.check_lines(&damaged(words.clone()), &tables), 9);
        assert_eq!(host.check_lines(&damaged(words.clone()), &wrong), 9);
        assert_eq!(host.check_lines(&vec![u16::MAX; TIMETABLE_WORDS], &vec![u16::MAX; LINE_WORDS]), 9);
        for words in [&words, &damaged(words.clone())] {
            for tables in [&tables, &wrong] {
                for short in [0, 1, 56, 15_429, 16_383] {
                    assert_eq!(host.check_lines(&words[..short], tables), 8);
                    assert_eq!(host.check_lines(words, &tables[..short]), 8);
                    assert_eq!(host.check_lines_alone(&tables[..short]), 8);
                    let mut with_less = Host::lending_both(0, short, 40);
                    assert_eq!(with_less.check_lines(words, tables), 8);
                    assert_eq!(with_less.check_lines_alone(tables), 8);
                    assert_eq!(with_less.check_lines(&words[..short], &tables[..short]), 8);
                    assert_eq!(with_less.check_lines_alone(&tables[..short]), 8);
                }
            }
        }
    }
    assert_eq!(ffi::ask_lines_of_nothing(), [Reply::refused(8); 3]);
}

#[test]
fn slices_of_16384_words_or_more_are_long_enough() {
    let mut random = Random::new(41);
    let lent = Lent::new(&overtaking(), &mut random);
    for length in [16_385, 20_000, 65_535, 65_536, 65_537, 2 * 65_536] {
        let longer = lent.longer(length, &mut random);
        for (words, tables, work_length) in [
            (&longer.timetable, &lent.lines, 16_384),
            (&lent.timetable, &longer.lines, 16_384),
            (&lent.timetable, &lent.lines, length),
            (&longer.timetable, &longer.lines, length),
        ] {
            let mut host = Host::lending_both(0, work_length, 42);
            let mut wrong = tables.clone();
            wrong[15_428] ^= 1;
            assert_eq!(ask_both(&mut host, words, tables, true), 0);
            assert_eq!(ask_both(&mut host, words, &wrong, false), 10);
            assert_eq!(host.check_lines(&damaged(words.clone()), tables), 9);
        }
    }
}
