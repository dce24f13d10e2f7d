//! The trips of one line, handed out as the piece of the line tables that holds them.

use dairyepoch_tests::examples::M;
use dairyepoch_tests::ffi::Reply;
use dairyepoch_tests::generate::{
    crowded, largest, long_lines, overtaking, timetable, with_shared_ways, with_trips, CROWDED, LARGE, MIDDLING, SMALL,
};
use dairyepoch_tests::host::{lent, Host};
use dairyepoch_tests::lines::{self, lines};
use dairyepoch_tests::random::Random;
use dairyepoch_tests::reference::accepted;
use dairyepoch_tests::timetable::Timetable;

/// Asks for each line of a timetable: its piece holds the numbers of its trips. Asks for lines that are not there.
fn pieces(host: &mut Host, timetable: &Timetable, random: &mut Random) {
    let tables = lent(lines::to_words(timetable), random);
    let lines = lines(timetable);
    for (number, line) in (1..).zip(&lines) {
        let reply = host.line_trips(&tables, number);
        assert_eq!((reply.number, &tables[reply.piece()]), (0, &line[..]), "line {number} of\n{timetable}");
    }
    let next = lines.len() as u32 + 1;
    for number in [0, next, next + 1, 0x8000, 0x1_0000, 0x1_0001, 0x8000_0000, u32::MAX - 1, u32::MAX] {
        assert_eq!(host.line_trips(&tables, number), Reply::refused(11), "line {number} of\n{timetable}");
    }
}

#[test]
fn case_e_the_lines_of_m() {
    let tables = lent(lines::to_words(&accepted(M)), &mut Random::new(1));
    let mut host = Host::new(2);
    assert_eq!(host.line_trips(&tables, 1), Reply { number: 0, beside: 8 * 65_536 + 1 });
    assert_eq!(host.line_trips(&tables, 2), Reply { number: 0, beside: 26 * 65_536 + 2 });
    assert_eq!((tables[8], &tables[26..28]), (1, &[3, 2][..]));
    assert_eq!([0, 3].map(|line| host.line_trips(&tables, line)), [Reply::refused(11); 2]);
}

#[test]
fn case_f_three_lines() {
    let overtaken = accepted(&M.replace("08:40", "08:34"));
    let tables = lent(lines::to_words(&overtaken), &mut Random::new(3));
    let mut host = Host::new(4);
    let trips = [1, 2, 3].map(|line| tables[host.line_trips(&tables, line).piece()].to_vec());
    assert_eq!(trips, [[1], [3], [2]]);
    assert_eq!(host.line_trips(&tables, 4), Reply::refused(11));
}

#[test]
fn every_line_of_many_timetables() {
    let mut host = Host::new(5);
    let mut random = Random::new(6);
    for _ in 0..500 {
        pieces(&mut host, &crowded(&mut random, &CROWDED), &mut random);
        pieces(&mut host, &with_shared_ways(&mut random, &SMALL), &mut random);
        pieces(&mut host, &timetable(&mut random, &SMALL), &mut random);
    }
    for _ in 0..60 {
        pieces(&mut host, &with_shared_ways(&mut random, &MIDDLING), &mut random);
        pieces(&mut host, &timetable(&mut random, &MIDDLING), &mut random);
    }
    pieces(&mut host, &with_shared_ways(&mut random, &LARGE), &mut random);
}

#[test]
fn without_trips_there_is_no_line() {
    let mut host = Host::new(7);
    let mut random = Random::new(8);
    for stations in [1, 2, 63, 64] {
        pieces(&mut host, &with_trips(&mut random, stations, &[]), &mut random);
    }
}

#[test]
fn lines_at_the_limits() {
    let mut host = Host::new(9);
    let mut random = Random::new(10);
    pieces(&mut host, &long_lines(), &mut random);
    pieces(&mut host, &with_trips(&mut random, 64, &[2_048]), &mut random);
    for timetable in [overtaking(), largest(&mut random)] {
        let tables = lent(lines::to_words(&timetable), &mut random);
        let lines = lines(&timetable);
        for number in [1, 2, 127, 128, 255, 256, 257] {
            let reply = host.line_trips(&tables, number);
            let trips = lines.get(number as usize - 1);
            assert_eq!(reply.number, if trips.is_some() { 0 } else { 11 });
            assert_eq!(tables[reply.piece()], trips.cloned().unwrap_or_default());
        }
    }
}

#[test]
fn tables_tampered_with_give_10_before_11() {
    let mut host = Host::new(11);
    let mut random = Random::new(12);
    let mut tally = [0; 12];
    for _ in 0..25 {
        let timetable = crowded(&mut random, &CROWDED);
        let length = lines::to_words(&timetable).len();
        let mut tables = lent(lines::to_words(&timetable), &mut random);
        let last = lines(&timetable).len() as u32;
        for at in 0..length {
            let word = tables[at];
            for value in [word.wrapping_add(1), word.wrapping_sub(1), 0, 65_535, random.word()] {
                tables[at] = value;
                for line in [random.within(1..=last.max(1) as usize) as u32, 0, last + 1, u32::MAX] {
                    tally[host.line_trips(&tables, line).number as usize] += 1;
                }
            }
            tables[at] = word;
        }
    }
    assert!(tally[0] > 100 && tally[10] > 5_000 && tally[11] > 500, "by reply number: {tally:?}");
}

#[test]
fn random_words_give_10() {
    let mut host = Host::new(13);
    let mut random = Random::new(14);
    for _ in 0..200 {
        let tables = lent(Vec::new(), &mut random);
        for line in [0, 1, u32::from(tables[1]), u32::MAX] {
            assert_eq!(host.line_trips(&tables, line), Reply::refused(10));
        }
        assert_eq!(host.line_trips(&vec![tables[0]; 16_384], 1), Reply::refused(10));
    }
}

#[test]
fn a_slice_too_short_gives_8_before_10_and_11() {
    let mut random = Random::new(15);
    for timetable in [accepted(M), overtaking()] {
        let tables = lent(lines::to_words(&timetable), &mut random);
        let mut wrong = tables.clone();
        wrong[1] += 1;
        for tables in [&tables, &wrong] {
            for line in [0, 1, 2, 257, u32::MAX] {
                for short in [0, 1, 4, 56, 15_429, 16_383] {
                    assert_eq!(Host::new(16).line_trips(&tables[..short], line), Reply::refused(8));
                    assert_eq!(Host::lending_both(0, short, 17).line_trips(tables, line), Reply::refused(8));
                    assert_eq!(Host::lending_both(0, short, 18).line_trips(&tables[..short], line), Reply::refused(8));
                }
            }
        }
    }
}

#[test]
fn slices_of_16384_words_or_more_are_long_enough() {
    let mut random = Random::new(19);
    for length in [16_384, 16_385, 65_535, 65_536, 65_537, 2 * 65_536] {
        let mut tables = lent(lines::to_words(&overtaking()), &mut random);
        tables.resize_with(length, || random.word());
        for work_length in [16_384, length] {
            let mut host = Host::lending_both(0, work_length, 20);
            for line in [1, 200, 256] {
                let reply = host.line_trips(&tables, line);
                assert_eq!((reply.number, &tables[reply.piece()]), (0, &[line as u16][..]));
            }
            assert_eq!(host.line_trips(&tables, 257), Reply::refused(11));
        }
    }
}
