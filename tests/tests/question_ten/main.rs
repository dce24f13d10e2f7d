//! Are the line tables those of the timetable words lent with them or, lent without any, could they come from an
//! accepted timetable, by cancelled and extra trips too? Asked of tables that are and could, and of words that were
//! tampered with.

mod any_words;
mod built;
mod regrouped;
mod tampered;
mod totals;

use dairyepoch_tests::ffi::{self, Reply};
use dairyepoch_tests::generate::{largest, long_lines, one_way, overtaking, with_trips};
use dairyepoch_tests::host::{lent, Host};
use dairyepoch_tests::lines::{lines, LINE_WORDS, WORK_WORDS};
use dairyepoch_tests::random::Random;
use dairyepoch_tests::timetable::{Timetable, RIDE_PENALTY_MOST};
use dairyepoch_tests::words::to_words;

/// Timetables of 64 stations, 256 trips and 2,048 stops, of one line, of 256 and of any, and two of a single trip, the
/// second with the greatest total.
fn timetables_at_the_limits(random: &mut Random) -> [Timetable; 5] {
    let dearest = one_way(2_048, RIDE_PENALTY_MOST, &[0, 2_047]);
    [long_lines(), overtaking(), largest(random), with_trips(random, 64, &[2_048]), dearest]
}

/// What was built for the timetable has a yes in both forms.
fn built_has_a_yes(host: &mut Host, timetable: &Timetable, random: &mut Random) {
    let words = lent(to_words(timetable), random);
    let mut tables: Vec<u16> = (0..LINE_WORDS).map(|_| random.word()).collect();
    let reply = ffi::build_lines(&words, &mut tables, &mut vec![0; WORK_WORDS]);
    assert_eq!(reply, Reply { number: 0, beside: lines(timetable).len() as u32 });
    assert_eq!(host.check_lines(&words, &tables), 0);
    assert_eq!(host.check_lines_alone(&tables), 0);
}

/// Both forms of the question, of tables that are the timetable's if and only if `are` says so.
fn ask_both(host: &mut Host, words: &[u16], tables: &[u16], are: bool) -> u32 {
    assert_eq!(host.check_lines(words, tables), if are { 0 } else { 10 });
    host.check_lines_alone(tables)
}

/// Changes one word, in one of several ways, and tells whether it is another word now.
fn tamper(words: &mut [u16], at: usize, kind: usize, random: &mut Random) -> bool {
    let before = words[at];
    match kind {
        0 => words[at] = before.wrapping_add(1),
        1 => words[at] = before.wrapping_sub(1),
        2 => words[at] = 0,
        3 => words[at] = 65_535,
        4 => words[at] = random.word(),
        5 => words[at] = random.below(12) as u16,
        _ => words.swap(at, at + 1),
    }
    words[at] != before
}

const KINDS: usize = 7;
