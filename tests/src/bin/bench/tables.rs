//! Reading, line tables in both layouts, and changes of trips.

use std::hint::black_box;
use std::time::Instant;

use crate::timing::{median, medians, report, ROUNDS_MOST};
use crate::wanted;
use dairyepoch_tests::ffi::{
    add_trip, build_lines, cancel_trip, check_lines, check_lines_alone, check_timetable, read, times_by_stop,
    times_by_trip, Reply,
};
use dairyepoch_tests::generate::long_lines;
use dairyepoch_tests::lines::{self, LINE_WORDS, WORK_WORDS};
use dairyepoch_tests::timetable::{trip_text, Timetable};
use dairyepoch_tests::words::{timetable_of, to_words, TIMETABLE_WORDS};
use dairyepoch_tests::{reference, tables};

/// Times reading the largest text, and question 9.
pub fn reading() {
    if !wanted("reading a text, question 9") {
        return;
    }
    let text = long_lines().to_text();
    let mut words = vec![0; TIMETABLE_WORDS];
    let lines = 64 + 2_048;
    assert_eq!(read(&text, &mut words), Reply { number: 0, beside: lines }, "the largest text is accepted");
    println!("the largest timetable: {lines} lines, {} bytes; medians of up to {ROUNDS_MOST} rounds", text.len());

    let table = words.clone();
    let [reading, reference, question, reference_question] = medians([
        &mut || {
            black_box(read(black_box(&text), &mut words));
        },
        &mut || {
            let timetable = reference::read(black_box(&text)).expect("the largest text is accepted");
            black_box(to_words(&timetable));
        },
        &mut || {
            black_box(check_timetable(black_box(&table)));
        },
        &mut || {
            black_box(timetable_of(black_box(&table)));
        },
    ]);
    report("reading a text into words", reading, reference);
    report("question 9 on its words", question, reference_question);
}

/// Times building, with question 9 on both sides and then without it on the reference's.
pub fn building(what: &str, timetable: &Timetable, lines: u32) {
    if !wanted(what) {
        return;
    }
    let mut table = to_words(timetable);
    table.resize(TIMETABLE_WORDS, 0);
    let (mut words, mut work) = (vec![0; LINE_WORDS], vec![0; WORK_WORDS]);
    let reply = build_lines(&table, &mut words, &mut work);
    assert_eq!(reply, Reply { number: 0, beside: lines }, "the lines of the largest timetable");
    let [library, reference, alone] = medians([
        &mut || {
            black_box(build_lines(black_box(&table), &mut words, &mut work));
        },
        &mut || {
            let timetable = timetable_of(black_box(&table)).expect("the words of a timetable");
            black_box(lines::to_words(&timetable));
        },
        &mut || {
            black_box(lines::to_words(black_box(timetable)));
        },
    ]);
    report(&format!("{what}, question 9 asked"), library, reference);
    report(&format!("{what}, the reference not asking"), library, alone);
}

/// The words of a timetable and of its line tables, as they are lent.
pub fn lent(timetable: &Timetable) -> [Vec<u16>; 2] {
    [(to_words(timetable), TIMETABLE_WORDS), (lines::to_words(timetable), LINE_WORDS)].map(|(mut words, length)| {
        words.resize(length, 0);
        words
    })
}

/// Times question 10 to tables that have a yes, lent with timetable words and alone.
pub fn asking(what: &str, timetable: &Timetable) {
    if !wanted(what) {
        return;
    }
    let [table, lines] = lent(timetable);
    let (mut work, mut work_alone) = (vec![0; WORK_WORDS], vec![0; WORK_WORDS]);
    let yes = Reply { number: 0, beside: 0 };
    assert_eq!(check_lines(&table, &lines, &mut work), yes, "with its timetable");
    assert_eq!(check_lines_alone(&lines, &mut work), yes, "alone");
    let [with, reference_with, alone, reference_alone] = medians([
        &mut || {
            black_box(check_lines(black_box(&table), black_box(&lines), &mut work));
        },
        &mut || {
            let timetable = timetable_of(black_box(&table)).expect("the words of a timetable");
            black_box(tables::are_of(&timetable, black_box(&lines)));
        },
        &mut || {
            black_box(check_lines_alone(black_box(&lines), &mut work_alone));
        },
        &mut || {
            black_box(tables::timetable_of(black_box(&lines)));
        },
    ]);
    report(&format!("{what}, with timetable words"), with, reference_with);
    report(&format!("{what}, alone"), alone, reference_alone);
}

/// Times cancelling the first, the middle and the last trip and adding it again, beside building the line tables afresh
/// and question 9: a change is to take at most 1.5 times these two. Every change asks question 10 first.
pub fn changing(what: &str, timetable: &Timetable) {
    if !wanted(what) {
        return;
    }
    let [mut table, mut lines] = lent(timetable);
    let (fresh, fresh_lines) = (table.clone(), lines.clone());
    let (mut built, mut work, mut work_built) = (vec![0; LINE_WORDS], vec![0; WORK_WORDS], vec![0; WORK_WORDS]);
    let mut work_asked = vec![0; WORK_WORDS];
    let numbers: Vec<u16> = timetable.trips.keys().copied().collect();
    let last = numbers.len() - 1;
    for (place, number) in [("first", numbers[0]), ("middle", numbers[last / 2]), ("last", numbers[last])] {
        let (trip, text) = (number.into(), trip_text(number.into(), &timetable.trips[&number]));
        let [mut cancels, mut adds] = [Vec::new(), Vec::new()];
        let [building, nine, nine_and_ten, _] = medians([
            &mut || {
                black_box(build_lines(black_box(&fresh), &mut built, &mut work_built));
            },
            &mut || {
                black_box(check_timetable(black_box(&fresh)));
            },
            &mut || {
                black_box(check_lines(black_box(&fresh), black_box(&fresh_lines), &mut work_asked));
            },
            &mut || {
                let began = Instant::now();
                let cancelled = cancel_trip(black_box(&mut table), &mut lines, &mut work, trip);
                cancels.push(began.elapsed());
                let began = Instant::now();
                let added = add_trip(black_box(&mut table), &mut lines, &mut work, trip, text.as_bytes());
                adds.push(began.elapsed());
                assert_eq!((cancelled.number, added.number), (0, 0), "{what}, trip {trip}");
            },
        ]);
        assert_eq!(table, fresh, "{what}: cancelled and added again");
        let beside = building + nine;
        for (change, mut times) in [("cancelling", cancels), ("adding", adds)] {
            let time = median(&mut times);
            let ratio = time.as_secs_f64() / beside.as_secs_f64();
            let verdict = if ratio <= 1.5 { "" } else { ", more than 1.5" };
            println!(
                "{what}, {change} the {place} trip: {time:.1?}, building and question 9 {beside:.1?}, ratio \
                 {ratio:.2}{verdict}"
            );
        }
        println!("  of a change questions 9 and 10 take {nine_and_ten:.1?}");
    }
}

/// Times both translations against question 10 to the same tables.
pub fn translating(what: &str, timetable: &Timetable) {
    if !wanted(what) {
        return;
    }
    let [table, lines] = lent(timetable);
    let (mut other, mut back) = (vec![0; LINE_WORDS], vec![0; LINE_WORDS]);
    let [mut work, mut work_there, mut work_back] = [0; 3].map(|_| vec![0; WORK_WORDS]);
    let count = Reply::done(lines::lines(timetable).len());
    assert_eq!(times_by_trip(&table, &lines, &mut work, &mut other), count, "to times by trip");
    assert_eq!(times_by_stop(&table, &other, &mut work, &mut back), count, "to times by stop");
    let turned = other.clone();
    let [asked, there, and_back] = medians([
        &mut || {
            black_box(check_lines(black_box(&table), black_box(&lines), &mut work));
        },
        &mut || {
            black_box(times_by_trip(black_box(&table), black_box(&lines), &mut work_there, &mut other));
        },
        &mut || {
            black_box(times_by_stop(black_box(&table), black_box(&turned), &mut work_back, &mut back));
        },
    ]);
    report(&format!("{what}, to times by trip, against question 10"), there, asked);
    report(&format!("{what}, to times by stop, against question 10"), and_back, asked);
}
