//! The same trips on other lines, in another order or under other numbers.

use crate::ask_both;
use dairyepoch_tests::examples::M;
use dairyepoch_tests::generate::{crowded, Size};
use dairyepoch_tests::host::{lent, Host};
use dairyepoch_tests::lent::Lent;
use dairyepoch_tests::lines::{lines, same_way, words_of};
use dairyepoch_tests::random::Random;
use dairyepoch_tests::reference::accepted;
use dairyepoch_tests::timetable::Timetable;
use dairyepoch_tests::words::to_words;

/// Other lines than these of the same trips: one parted, two joined or exchanged, a trip on another place or line.
fn regrouped(timetable: &Timetable, lines: &[Vec<u16>], random: &mut Random) -> Vec<Vec<u16>> {
    let mut lines = lines.to_vec();
    let (one, other) = (random.below(lines.len()), random.below(lines.len()));
    let joins = one != other && same_way(&timetable.trips[&lines[one][0]], &timetable.trips[&lines[other][0]]);
    match random.below(4) {
        0 => {
            let at = random.below(lines[one].len());
            let rest = lines[one].split_off(at);
            lines.insert(random.within(0..=lines.len()), rest);
        }
        1 => lines.swap(one, other),
        2 => {
            let (first, second) = (random.below(lines[one].len()), random.below(lines[one].len()));
            lines[one].swap(first, second);
        }
        _ if joins => {
            let moved = if random.one_in(2) { lines[one].len() } else { 1 };
            let at = random.below(lines[one].len() + 1 - moved);
            let trips: Vec<u16> = lines[one].drain(at..at + moved).collect();
            lines[other].extend(trips);
            if random.one_in(2) {
                lines[other].sort_by_key(|trip| (timetable.trips[trip][0].onward.map(|onward| onward.depart), *trip));
            }
        }
        _ => {}
    }
    lines.retain(|line| !line.is_empty());
    lines
}

#[test]
fn trips_on_other_lines() {
    let mut host = Host::new(25);
    let mut random = Random::new(26);
    let size = Size { stations: 2..=3, trips: 2..=8, stops_of_a_trip: 2..=3 };
    let mut regroupings = 0;
    for _ in 0..6_000 {
        let timetable = crowded(&mut random, &size);
        let right = lines(&timetable);
        let wrong = regrouped(&timetable, &right, &mut random);
        let words = lent(to_words(&timetable), &mut random);
        let tables = lent(words_of(&timetable, &wrong), &mut random);
        let same = wrong == right;
        assert_eq!(ask_both(&mut host, &words, &tables, same), if same { 0 } else { 10 }, "{wrong:?}");
        regroupings += usize::from(!same);
    }
    assert!(regroupings > 2_000, "only {regroupings}");
}

/// M's tables with other numbers: of line 1 one trip, of line 2 two, which leave at 08:22 and 08:23.
#[test]
fn other_numbers_in_the_tables() {
    let mut host = Host::new(56);
    let Lent { timetable: words, lines: mut tables } = Lent::text(M);
    let values = [0, 1, 2, 3, 4, 257, 9_998, 9_999, 10_000, 32_768, 65_535];
    let mut yes = 0;
    for numbers in values.iter().flat_map(|&one| values.iter().map(move |&other| [one, other])) {
        for third in values {
            let [first, second] = numbers;
            (tables[8], tables[26], tables[27]) = (first, second, third);
            let are = [first, second, third] == [1, 3, 2];
            let apart = first != second && first != third && second != third;
            let named = [first, second, third].iter().all(|number| (1..=9_999).contains(number));
            let number = ask_both(&mut host, &words, &tables, are);
            assert_eq!(number, if apart && named { 0 } else { 10 }, "{first}, {second}, {third}");
            yes += usize::from(number == 0);
        }
    }
    assert_eq!(yes, 7 * 6 * 5);
}

/// Where trips leave at the same minute, the one of the lower number goes first.
#[test]
fn numbers_of_trips_that_leave_together() {
    let mut host = Host::new(57);
    let trips = [1, 2].map(|trip| format!("T,{trip},1,1,,00:10,0,0\nT,{trip},2,2,00:20,,,0\n")).concat();
    let together = accepted(&format!("S,1,0,1\nS,2,0,1\n{trips}"));
    let Lent { timetable: words, lines: mut tables } = Lent::new(&together, &mut Random::new(58));
    for (numbers, number) in [([1, 2], 0), ([2, 1], 10), ([1, 9_999], 0), ([9_999, 1], 10), ([7, 7], 10), ([6, 7], 0)] {
        tables[7..9].copy_from_slice(&numbers);
        assert_eq!(ask_both(&mut host, &words, &tables, numbers == [1, 2]), number, "{numbers:?}");
    }
}

#[test]
fn overtaking_trips_on_one_line() {
    let mut host = Host::new(27);
    let mut random = Random::new(28);
    let overtaken = accepted(&M.replace("08:40", "08:34"));
    let words = lent(to_words(&overtaken), &mut random);
    for (lines, are) in [
        (&[vec![1], vec![3], vec![2]][..], true),
        (&[vec![1], vec![3, 2]], false),
        (&[vec![1], vec![2, 3]], false),
        (&[vec![1], vec![2], vec![3]], false),
        (&[vec![3], vec![1], vec![2]], false),
    ] {
        let tables = lent(words_of(&overtaken, lines), &mut random);
        assert_eq!(ask_both(&mut host, &words, &tables, are), if are { 0 } else { 10 }, "{lines:?}");
    }
}
