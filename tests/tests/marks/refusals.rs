//! Marks that are none, or that the two tables do not share.

use crate::mark_at;
use dairyepoch_tests::direct::Query;
use dairyepoch_tests::examples::M;
use dairyepoch_tests::generate::{every_marking, marked, with_shared_ways, SMALL};
use dairyepoch_tests::host::Host;
use dairyepoch_tests::lent::Lent;
use dairyepoch_tests::lines::MARK_UNIT;
use dairyepoch_tests::random::Random;
use dairyepoch_tests::reference::accepted;

/// Every call that is lent both tables, of a timetable with station 1 to 3: the numbers of the replies.
fn every_call(tables: &Lent) -> [u32; 9] {
    let mut host = Host::new(26);
    let Lent { timetable, lines } = tables;
    let query = Query { from: 1, to: 3, minute: 470 };
    let mut changed = [tables.clone(), tables.clone()];
    [
        host.build_lines(timetable).number,
        host.check_lines(timetable, lines),
        host.times_by_trip(timetable, lines).number,
        host.times_by_stop(timetable, lines).number,
        host.direct(timetable, lines, query).number,
        host.make_store(timetable, lines, 1).number,
        host.query(tables.with(&[0, 1, 3, 0]), query).number,
        changed[0].cancel(&mut host, 1).number,
        changed[1].add(&mut host, 4, "T,4,1,2,,08:23,0,0\nT,4,2,3,08:40,,,0\n").number,
    ]
}

#[test]
fn every_call_refuses_a_mark_of_3_in_timetable_words() {
    let good = Lent::text(M);
    assert_eq!(every_call(&good), [0, 0, 0, 10, 0, 0, 0, 0, 0]);
    for stop in 0..7 {
        for mark in [3, 4, 128, 255, 256, 9_999, 32_768, 65_535] {
            let mut harmed = good.clone();
            harmed.timetable[mark_at(&good.timetable, stop)] = mark;
            assert_eq!(Host::new(27).check_timetable(&harmed.timetable), 9);
            assert_eq!(every_call(&harmed), [9; 9], "mark {mark} of stop {stop}");
        }
    }
}

/// A mark that is in one table and not in the other: both could come from some timetable, and not from the same.
#[test]
fn every_call_refuses_marks_that_the_tables_do_not_share() {
    let good = Lent::text(M);
    for marked in every_marking(&accepted(M)).step_by(131).skip(1) {
        let other = Lent::new(&marked, &mut Random::new(28));
        let [one, another] = [(&good, &other), (&other, &good)]
            .map(|(timetable, lines)| Lent { timetable: timetable.timetable.clone(), lines: lines.lines.clone() });
        for harmed in [one, another] {
            let [building, rest @ ..] = every_call(&harmed);
            assert_eq!((building, rest), (0, [10; 8]), "{marked}");
            assert_eq!(Host::new(29).check_lines_alone(&harmed.lines), 0);
        }
    }
}

/// Where the first word of each position of M's tables stands, with its station.
const M_POSITIONS: [(usize, u16); 5] = [(9, 1), (12, 2), (15, 3), (28, 2), (31, 3)];

#[test]
fn marks_in_line_tables() {
    let mut host = Host::new(30);
    let Lent { timetable: words, lines: tables } = Lent::text(M);
    for (at, station) in M_POSITIONS {
        assert_eq!(tables[at], station);
        for value in (0..=520).chain([1_023, 1_024, 32_768, 32_769, 65_408 + station, 65_535]) {
            let mut harmed = tables.clone();
            harmed[at] = value;
            let (marked_as, mark) = (value % MARK_UNIT, value / MARK_UNIT);
            let number = if value == station { 0 } else { 10 };
            assert_eq!(host.check_lines(&words, &harmed), number, "{value} at {at}");
            // the lists of stations have the station at this position, whatever its mark
            let alone = if marked_as == station && mark <= 2 { 0 } else { 10 };
            assert_eq!(host.check_lines_alone(&harmed), alone, "{value} at {at}");
            assert_eq!(host.line_trips(&harmed, 1).number, alone, "{value} at {at}");
        }
    }
}

#[test]
fn marks_of_tables_tampered_with() {
    let mut host = Host::new(33);
    let mut random = Random::new(34);
    let mut tally = [[0; 11]; 2];
    for _ in 0..300 {
        let bare = with_shared_ways(&mut random, &SMALL);
        let timetable = marked(&mut random, &bare);
        let Lent { timetable: mut words, lines: mut tables } = Lent::new(&timetable, &mut random);
        for stop in 0..timetable.stops() {
            let at = mark_at(&words, stop);
            let mark = words[at];
            words[at] = random.pick(&[0, 1, 2, 3, 4, 5]);
            tally[0][host.check_lines(&words, &tables) as usize] += 1;
            words[at] = mark;
        }
        for line in 0..usize::from(tables[1]) {
            let begin = usize::from(tables[4 + line]);
            let [positions, trips] = [0, 1].map(|count| usize::from(tables[begin + count]));
            let at = begin + 2 + trips + 3 * random.below(positions);
            let word = tables[at];
            tables[at] = word % MARK_UNIT + MARK_UNIT * random.below(5) as u16;
            tally[1][host.check_lines_alone(&tables) as usize] += 1;
            host.check_lines(&words, &tables);
            tables[at] = word;
        }
    }
    let counts = [tally[0][0], tally[0][9], tally[0][10], tally[1][0], tally[1][10]];
    assert!(counts.iter().all(|&count| count > 50), "{tally:?}");
}
