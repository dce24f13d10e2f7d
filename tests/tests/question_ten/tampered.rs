//! Tables of which words were changed, left out, put in or cut off.

use crate::{ask_both, tamper, timetables_at_the_limits, KINDS};
use dairyepoch_tests::examples::M;
use dairyepoch_tests::generate::{any_timetable, crowded, with_trips, CROWDED};
use dairyepoch_tests::host::{lent, Host};
use dairyepoch_tests::lent::Lent;
use dairyepoch_tests::lines::{self, LINE_WORDS};
use dairyepoch_tests::random::Random;
use dairyepoch_tests::reference::accepted;
use dairyepoch_tests::words::to_words;

#[test]
fn each_word_of_many_tables_tampered_with() {
    let mut host = Host::new(7);
    let mut random = Random::new(8);
    let mut tally = [0; 11];
    for _ in 0..60 {
        let timetable = any_timetable(&mut random);
        let length = lines::to_words(&timetable).len();
        let Lent { timetable: words, lines: mut tables } = Lent::new(&timetable, &mut random);
        for at in 0..length {
            for kind in 0..KINDS {
                let (word, next) = (tables[at], tables[at + 1]);
                let changed = tamper(&mut tables, at, kind, &mut random);
                tally[ask_both(&mut host, &words, &tables, !changed) as usize] += usize::from(changed);
                (tables[at], tables[at + 1]) = (word, next);
            }
        }
    }
    assert!(tally[0] > 500 && tally[10] > 5_000, "by reply number: {tally:?}");
}

#[test]
fn words_of_tables_at_the_limits_tampered_with() {
    let mut host = Host::new(9);
    let mut random = Random::new(10);
    for timetable in timetables_at_the_limits(&mut random) {
        let length = lines::to_words(&timetable).len();
        let Lent { timetable: words, lines: mut tables } = Lent::new(&timetable, &mut random);
        for round in 0..60 {
            let at = if round < 6 { round } else { random.below(length) };
            let (word, next) = (tables[at], tables[at + 1]);
            let changed = tamper(&mut tables, at, round % KINDS, &mut random);
            ask_both(&mut host, &words, &tables, !changed);
            (tables[at], tables[at + 1]) = (word, next);
        }
    }
}

#[test]
fn many_values_in_each_word_of_m() {
    let mut host = Host::new(11);
    let mut random = Random::new(12);
    let Lent { timetable: words, lines: mut tables } = Lent::new(&accepted(M), &mut random);
    let edges = [1_000, 2_878, 2_879, 2_880, 4_096, 16_383, 16_384, 32_767, 32_768, 65_534, 65_535];
    let mut tally = [0; 11];
    for at in 0..56 {
        let word = tables[at];
        for value in (0..=120).chain((121..600).step_by(7)).chain([514, 515, 516, 520, 521, 559, 560]).chain(edges) {
            tables[at] = value;
            tally[ask_both(&mut host, &words, &tables, value == word) as usize] += 1;
        }
        tables[at] = word;
    }
    assert!(tally[0] > 300 && tally[10] > 5_000, "by reply number: {tally:?}");
}

#[test]
fn two_words_changed_at_once() {
    let mut host = Host::new(13);
    let mut random = Random::new(14);
    let smallest = with_trips(&mut random, 2, &[2]);
    let length = lines::to_words(&smallest).len();
    let Lent { timetable: words, lines: tables } = Lent::new(&smallest, &mut random);
    let mut changed = tables.clone();
    for one in 0..length {
        for other in 0..one {
            for (first, second) in (0..4).flat_map(|first| (0..6).map(move |second| (first, second))) {
                (changed[one], changed[other]) = (first, second);
                let same = changed[one] == tables[one] && changed[other] == tables[other];
                ask_both(&mut host, &words, &changed, same);
            }
            changed[other] = tables[other];
        }
        changed[one] = tables[one];
    }
}

#[test]
fn words_left_out_put_in_and_swapped() {
    let mut host = Host::new(15);
    let mut random = Random::new(16);
    for _ in 0..4_000 {
        let timetable = any_timetable(&mut random);
        let whole = lines::to_words(&timetable);
        let mut table = whole.clone();
        let (one, other) = (random.below(table.len()), random.below(table.len()));
        match random.below(5) {
            0 => drop(table.remove(one)),
            1 => table.insert(one, random.below(5) as u16),
            2 => table.swap(one, other),
            3 => table.copy_within(one.min(other)..one.max(other), 0),
            _ => table.truncate(one),
        }
        let words = lent(to_words(&timetable), &mut random);
        let tables = lent(table, &mut random);
        ask_both(&mut host, &words, &tables, tables.starts_with(&whole));
    }
}

#[test]
fn tables_cut_short() {
    let mut host = Host::new(17);
    let mut random = Random::new(18);
    for timetable in [accepted(M), any_timetable(&mut random), crowded(&mut random, &CROWDED)] {
        let words = lent(to_words(&timetable), &mut random);
        let table = lines::to_words(&timetable);
        for cut in 0..table.len() {
            for filler in [0, 1, 0xffff, random.word()] {
                let mut tables = table[..cut].to_vec();
                tables.resize(LINE_WORDS, filler);
                ask_both(&mut host, &words, &tables, tables.starts_with(&table));
            }
        }
    }
}
