//! Marks in lines and in the words of both tables.

use dairyepoch_tests::ffi::Reply;
use dairyepoch_tests::host::{lent, Host};
use dairyepoch_tests::lent::Lent;
use dairyepoch_tests::lines::{self, lines};
use dairyepoch_tests::random::Random;
use dairyepoch_tests::reference::accepted;
use dairyepoch_tests::timetable::{Timetable, MARKS};
use dairyepoch_tests::words::to_words;

/// Two trips over stations 1, 2, 1, five minutes apart, with these marks.
fn two_trips(one: [u16; 3], other: [u16; 3]) -> Timetable {
    let trip = |trip: u32, [first, second, third]: [u16; 3]| {
        let minute = 5 * trip;
        format!(
            "T,{trip},1,1,,00:{minute:02},0,{first}\nT,{trip},2,2,01:{minute:02},02:{minute:02},0,{second}\n\
             T,{trip},3,1,03:{minute:02},,,{third}\n"
        )
    };
    accepted(&("S,1,0,1\nS,2,0,1\n".to_string() + &trip(1, one) + &trip(2, other)))
}

/// "Trips of a line must agree in it", at every stop, also where marks make no difference.
#[test]
fn trips_of_a_line_agree_in_marks() {
    let mut host = Host::new(8);
    let every = || MARKS.into_iter().flat_map(|a| MARKS.into_iter().flat_map(move |b| MARKS.map(|c| [a, b, c])));
    for one in every() {
        for other in every() {
            let timetable = two_trips(one, other);
            let expected: &[&[u16]] = if one == other { &[&[1, 2]] } else { &[&[1], &[2]] };
            assert_eq!(lines(&timetable), expected, "{one:?}, {other:?}");
            let words = lent(to_words(&timetable), &mut Random::new(9));
            host.expect_lines(&words, 0, expected.len() as u32);
        }
    }
}

/// "Take trips by first departure": the one at stop 1, though nobody may board there.
#[test]
fn the_first_departure_counts_where_nobody_may_board() {
    // trip 2 leaves stop 1 first, and trip 1 the first stop at which it takes riders in
    let text = "S,1,0,1\nS,2,0,1\nT,1,1,1,,00:20,0,2\nT,1,2,2,00:30,00:31,0,0\nT,1,3,1,00:40,,,0\n\
                T,2,1,1,,00:10,0,2\nT,2,2,2,00:30,00:32,0,0\nT,2,3,1,00:50,,,0\n";
    assert_eq!(lines(&accepted(text)), [[2], [1]]);
    Host::new(10).expect_lines(&lent(to_words(&accepted(text)), &mut Random::new(11)), 0, 2);
}

/// A timetable with every mark, its words and its line tables in both layouts, written by hand.
const MARKED: &str = "\
S,1,2,10
S,2,3,20
T,1,1,1,,00:10,7,1
T,1,2,2,00:20,00:21,90,0
T,1,3,1,00:30,,,2
T,2,1,1,,00:12,7,1
T,2,2,2,00:20,00:23,90,0
T,2,3,1,00:33,,,2
T,3,1,1,,00:12,7,1
T,3,2,2,00:20,00:23,90,2
T,3,3,1,00:33,,,2
";

#[rustfmt::skip]
const MARKED_WORDS: [u16; 62] = [
    2, 3, 9,
    2, 10,  3, 20,
    1, 0, 10, 7, 1,  2, 20, 21, 90, 0,  1, 30, 0, 0, 2,
    1, 0, 12, 7, 1,  2, 20, 23, 90, 0,  1, 33, 0, 0, 2,
    1, 0, 12, 7, 1,  2, 20, 23, 90, 2,  1, 33, 0, 0, 2,
    0, 3, 6, 9,
    1, 2, 3,
    0, 0, 0,
];

/// Stations 1, 2, 1 with marks 1, 0, 2 are 129, 2 and 257; with marks 1, 2, 2 they are 129, 258 and 257. The lists of
/// stations have every position, whatever its mark.
#[rustfmt::skip]
const MARKED_LINES: [u16; 64] = [
    2, 2, 3, 49,
    6, 31,
    3, 2,  1, 2,  129, 0, 0,  2, 7, 0,  257, 97, 0,  0, 0, 10, 12,  20, 20, 21, 23,  30, 33, 0, 0,
    3, 1,  3,  129, 0, 0,  258, 7, 0,  257, 97, 0,  0, 12,  20, 23,  33, 0,
    52, 60, 64,
    1, 1,  1, 3,  2, 1,  2, 3,
    1, 2,  2, 2,
];

#[rustfmt::skip]
const MARKED_BY_TRIP: [u16; 64] = [
    2, 2, 3, 49,
    6, 31,
    3, 2,  1, 2,  129, 0, 0,  2, 7, 0,  257, 97, 0,  0, 10, 20, 21, 30, 0,  0, 12, 20, 23, 33, 0,
    3, 1,  3,  129, 0, 0,  258, 7, 0,  257, 97, 0,  0, 12,  20, 23,  33, 0,
    52, 60, 64,
    1, 1,  1, 3,  2, 1,  2, 3,
    1, 2,  2, 2,
];

#[test]
fn marks_in_words_and_tables() {
    let mut host = Host::new(12);
    let timetable = accepted(MARKED);
    assert_eq!(to_words(&timetable), MARKED_WORDS);
    assert_eq!(lines::to_words(&timetable), MARKED_LINES);
    assert_eq!(lines::to_words_by_trip(&timetable), MARKED_BY_TRIP);
    host.expect_read(MARKED, 0, 11);
    let lent = Lent::new(&timetable, &mut Random::new(13));
    host.expect_lines(&lent.timetable, 0, 2);
    assert_eq!(host.check_lines(&lent.timetable, &lent.lines), 0);
    assert_eq!(host.check_lines_alone(&lent.lines), 0);
    assert_eq!(host.times_by_trip(&lent.timetable, &lent.lines), Reply::done(2));
    let by_trip = self::lent(MARKED_BY_TRIP.to_vec(), &mut Random::new(14));
    assert_eq!(host.times_by_stop(&lent.timetable, &by_trip), Reply::done(2));
}

/// Two lines that are alike but for a mark: with the mark of the one at the other, they would be one line.
#[test]
fn lines_alike_but_for_a_mark_do_not_stand_apart_without_it() {
    let mut host = Host::new(31);
    let Lent { timetable: words, lines: mut tables } = Lent::new(&accepted(MARKED), &mut Random::new(32));
    assert_eq!((tables[13], tables[37]), (2, 258));
    for (one, other, alone) in [(2, 258, 0), (2, 130, 0), (130, 258, 0), (2, 2, 10), (258, 258, 10), (130, 130, 10)] {
        (tables[13], tables[37]) = (one, other);
        let number = if (one, other) == (2, 258) { 0 } else { 10 };
        assert_eq!(host.check_lines(&words, &tables), number, "{one}, {other}");
        assert_eq!(host.check_lines_alone(&tables), alone, "{one}, {other}");
    }
}
