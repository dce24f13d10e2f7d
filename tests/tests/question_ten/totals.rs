//! The totals of ride penalties, of two words each.

use crate::{ask_both, tamper, KINDS};
use dairyepoch_tests::examples::M;
use dairyepoch_tests::generate::{long_lines, one_way, with_trips};
use dairyepoch_tests::host::{lent, Host};
use dairyepoch_tests::lent::Lent;
use dairyepoch_tests::lines::{self, total_words};
use dairyepoch_tests::random::Random;
use dairyepoch_tests::reference::accepted;
use dairyepoch_tests::timetable::Timetable;
use dairyepoch_tests::words::to_words;

/// Where in line tables the low word of the first line's total at a position stands, which counts from 0. The station
/// stands before it and the high word after it.
fn total_at(tables: &[u16], position: usize) -> usize {
    let begin = usize::from(tables[4]);
    begin + 2 + usize::from(tables[begin + 1]) + 3 * position + 1
}

/// The totals of the first line.
fn totals(tables: &[u16]) -> Vec<u32> {
    let total = |position| {
        let at = total_at(tables, position);
        u32::from(tables[at]) + 65_536 * u32::from(tables[at + 1])
    };
    (0..usize::from(tables[usize::from(tables[4])])).map(total).collect()
}

/// Timetables of one line, all but one so long and dear that some high words are not 0.
fn dear_lines(random: &mut Random) -> Vec<Timetable> {
    let mut shared = one_way(1_024, 99, &[0, 1_023]);
    shared.trips.insert(2, shared.trips[&1].clone());
    let penalties = [(2_044, 100), (2_048, 100), (2_048, 50), (2_048, 33)];
    let mut dear: Vec<Timetable> =
        penalties.iter().map(|&(stops, penalty)| one_way(stops, penalty, &[0, stops - 1])).collect();
    dear.extend([with_trips(random, 64, &[2_048]), shared, long_lines()]);
    dear
}

/// The positions at which words of totals are tampered with: the ends, those where a high word rises with those beside
/// them, and some others.
fn telling_positions(totals: &[u32], random: &mut Random) -> Vec<usize> {
    let last = totals.len() - 1;
    let rises = (1..=last).filter(|&position| totals[position] / 65_536 > totals[position - 1] / 65_536);
    let mut positions: Vec<usize> = rises.flat_map(|position| [position - 1, position, position + 1]).collect();
    positions.extend([0, 1, last - 1, last, random.within(0..=last), random.within(0..=last)]);
    positions.retain(|&position| position <= last);
    positions.sort_unstable();
    positions.dedup();
    positions
}

/// Asks both forms about tables of one line, with these totals in the place of its own. Alone they have a yes exactly
/// if the totals begin with 0, never fall, and rise by at most 100 a stop.
fn ask_with_totals(host: &mut Host, lent: &Lent, totals: &[u32], what: &str) -> u32 {
    let mut tables = lent.lines.clone();
    for (position, &total) in totals.iter().enumerate() {
        let at = total_at(&tables, position);
        tables[at..at + 2].copy_from_slice(&total_words(total));
    }
    let number = ask_both(host, &lent.timetable, &tables, tables == lent.lines);
    let rises = |pair: &[u32]| pair[1].checked_sub(pair[0]).is_some_and(|penalty| penalty <= 100);
    let yes = totals[0] == 0 && totals.windows(2).all(rises);
    assert_eq!(number, if yes { 0 } else { 10 }, "{what}");
    number
}

const MOVES: [u32; 9] = [1, 50, 51, 67, 68, 100, 101, 65_535, 65_536];

/// Asks about totals of which some, from a position on, were moved by as much, up and down.
fn ask_with_moved(seed: u64, moved: impl Fn(&mut [u32], usize) -> &mut [u32]) {
    let mut host = Host::new(seed);
    let mut random = Random::new(seed + 1);
    let mut tally = [0; 11];
    for timetable in dear_lines(&mut random) {
        let lent = Lent::new(&timetable, &mut random);
        let totals = totals(&lent.lines);
        for position in telling_positions(&totals, &mut random) {
            for by in MOVES.iter().flat_map(|&by| [by, by.wrapping_neg()]) {
                let mut other = totals.clone();
                moved(&mut other, position).iter_mut().for_each(|total| *total = total.wrapping_add(by));
                let what = format!("moved by {} at {position}", by as i32);
                tally[ask_with_totals(&mut host, &lent, &other, &what) as usize] += 1;
            }
        }
    }
    assert!(tally[0] > 50 && tally[10] > 500, "by reply number: {tally:?}");
}

#[test]
fn one_total_moved() {
    ask_with_moved(45, |totals, position| &mut totals[position..=position]);
}

#[test]
fn all_totals_moved_from_a_position_on() {
    ask_with_moved(47, |totals, position| &mut totals[position..]);
}

#[test]
fn station_and_both_words_of_a_total_tampered_with() {
    let mut host = Host::new(49);
    let mut random = Random::new(50);
    for timetable in dear_lines(&mut random) {
        let Lent { timetable: words, lines: mut tables } = Lent::new(&timetable, &mut random);
        for position in telling_positions(&totals(&tables), &mut random) {
            let low = total_at(&tables, position);
            for at in [low - 1, low, low + 1] {
                for kind in 0..KINDS {
                    let (word, next) = (tables[at], tables[at + 1]);
                    let changed = tamper(&mut tables, at, kind, &mut random);
                    ask_both(&mut host, &words, &tables, !changed);
                    (tables[at], tables[at + 1]) = (word, next);
                }
            }
        }
    }
}

#[test]
fn totals_that_another_rule_tells() {
    let mut host = Host::new(51);
    let mut random = Random::new(52);
    for timetable in dear_lines(&mut random) {
        let lent = Lent::new(&timetable, &mut random);
        let totals = totals(&lent.lines);
        let all = totals[totals.len() - 1];
        let high = all > 65_535;
        let mut penalties: Vec<u32> = totals.windows(2).map(|pair| pair[1] - pair[0]).collect();
        penalties.push(0);
        let mut ask = |what: &str, rule: &dyn Fn(usize) -> u32| {
            let other: Vec<u32> = (0..totals.len()).map(rule).collect();
            let number = ask_with_totals(&mut host, &lent, &other, what);
            (other != totals).then_some(number)
        };
        assert_eq!(ask("as it is", &|at| totals[at]), None);
        assert_eq!(ask("low words alone", &|at| totals[at] % 65_536), high.then_some(10));
        assert_eq!(ask("at most 65,535", &|at| totals[at].min(65_535)), high.then_some(0));
        assert_eq!(ask("words swapped", &|at| totals[at].rotate_left(16)), Some(10));
        assert_eq!(ask("parted at 256", &|at| totals[at] % 256 + totals[at] / 256 * 65_536), Some(10));
        assert_eq!(ask("from the end", &|at| all - totals[at]), Some(10));
        ask("the single penalties", &|at| penalties[at]);
        ask("from the second stop", &|at| totals[at].saturating_sub(penalties[0]));
        ask("with the stop's own penalty", &|at| totals[at] + penalties[at]);
        ask("without the last ride", &|at| totals[at.min(totals.len() - 2)]);
        for by in [1, 100, 65_535, 65_536, 131_072, u32::MAX] {
            assert_eq!(ask("shifted", &|at| totals[at].wrapping_add(by)), Some(10), "by {by}");
        }
    }
}

#[test]
fn dear_lines_have_totals_of_two_words() {
    let mut random = Random::new(53);
    let greatest = |timetable: &Timetable| totals(&lines::to_words(timetable)).pop().expect("a line has positions");
    let last: Vec<u32> = dear_lines(&mut random).iter().map(greatest).collect();
    assert_eq!(
        (last[0], last[1], last[2], last[3], last[5], last[6]),
        (204_300, 204_700, 102_350, 67_551, 101_277, 700)
    );
    assert!(last[4] > 65_536);
}

/// M's tables as they were with a single ride penalty at each position.
#[rustfmt::skip]
const FORMER_M: [u16; 51] = [
    3, 2, 3, 37,
    6, 21,
    3, 1,  1,  1, 0,  2, 0,  3, 0,  0, 480,  500, 501,  560, 0,
    2, 2,  3, 2,  2, 0,  3, 0,  0, 0, 502, 503,  515, 520, 0, 0,
    41, 43, 47, 51,
    1, 1,
    1, 2,  2, 1,
    1, 3,  2, 2,
];

#[test]
fn tables_of_single_penalties_have_a_no() {
    let mut host = Host::new(54);
    let mut random = Random::new(55);
    let words = lent(to_words(&accepted(M)), &mut random);
    let tables = lent(FORMER_M.to_vec(), &mut random);
    assert_eq!(ask_both(&mut host, &words, &tables, false), 10);
}
