//! Walks in the words of a timetable.

use dairyepoch_tests::generate::{largest, timetable, walked, with_trips, with_walks, SMALL};
use dairyepoch_tests::host::{lent, Host};
use dairyepoch_tests::random::Random;
use dairyepoch_tests::timetable::{Timetable, Walk};
use dairyepoch_tests::words::to_words;

/// Asks about each of the values in each place of the table from `first` on, with the others as they are.
fn each_word_changed(table: &[u16], first: usize, values: impl Iterator<Item = u16> + Clone) -> [usize; 10] {
    let mut host = Host::new(7);
    let mut words = lent(table.to_vec(), &mut Random::new(8));
    let mut tally = [0; 10];
    for at in first..table.len() {
        for value in values.clone() {
            words[at] = value;
            tally[host.check_timetable(&words) as usize] += 1;
        }
        words[at] = table[at];
    }
    tally
}

#[test]
fn every_value_in_each_word_of_walks() {
    let timetable = Timetable {
        walks: [(1, 2, 1, 1), (1, 3, 60, 1_000), (2, 2, 30, 500), (3, 1, 2, 2)]
            .map(|(from, to, minutes, penalty)| Walk { from, to, minutes, penalty })
            .to_vec(),
        ..with_trips(&mut Random::new(9), 3, &[2])
    };
    let table = to_words(&timetable);
    let first = table.len() - 4 - 4 * 4;
    assert_eq!(table[first..first + 4], [0, 2, 3, 4]);
    let values = (0..=1_010).chain((1_011..=u16::MAX).step_by(97)).chain([u16::MAX]);
    let tally = each_word_changed(&table, first, values);
    // each count alone, and one less in the last, which leaves the last walk out; to of the first walk 1, 2; of the
    // second 3, and of the third and fourth any of three; 60 minutes and 1,000 points of each walk; from of a walk
    // never another
    assert_eq!(tally[0], 5 + 4 + 2 + 1 + 3 + 3 + 4 * (60 + 1_000));
}

#[test]
fn every_count_and_pair_over_small_values() {
    // two stations, no trip; counts of walks up to no station, 1 and 2, and two walks of which the second may be past
    // the table
    let mut host = Host::new(10);
    let mut yes = 0;
    for choice in 0..4usize.pow(7) {
        let value = |place: u32| (choice / 4usize.pow(place) % 4) as u16;
        let walk = |place| [value(place), value(place + 1), 1, 1];
        let table = [&[2, 0, 0, 0, 1, 0, 1, 0, value(0), value(1), value(2)][..], &walk(3), &walk(5)].concat();
        let words = lent(table, &mut Random::new(11));
        yes += usize::from(host.check_timetable(&words) == 0);
    }
    // no walk, and any words where walks would stand; one of four walks, and any after it; one of six pairs that rise
    assert_eq!(yes, 4usize.pow(4) + 4 * 16 + 6);
}

#[test]
fn walks_past_the_limits_have_a_no() {
    let mut random = Random::new(12);
    let plain = with_trips(&mut random, 64, &[2; 256]);
    for count in [0, 1, 255, 256] {
        let words = to_words(&with_walks(&mut random, &plain, count));
        assert_eq!(Host::new(13).check_timetable(&lent(words, &mut random)), 0, "{count}");
    }
    for count in [257, 300, 1_000] {
        let words = to_words(&with_walks(&mut random, &plain, count));
        assert_eq!(Host::new(14).check_timetable(&lent(words, &mut random)), 9, "{count}");
    }
    // a count of walks that would lead out of the slice
    let table = to_words(&with_walks(&mut random, &largest(&mut Random::new(15)), 256));
    let mut words = lent(table.clone(), &mut random);
    let last_count = table.len() - 4 * 256 - 1;
    for count in [0, 257, 1_102, 1_103, 1_104, 4_096, 16_384, 32_768, u16::MAX] {
        words[last_count] = count;
        assert_eq!(Host::new(16).check_timetable(&words), 9, "{count}");
    }
}

#[test]
fn words_of_walks_left_out_put_in_and_swapped() {
    let mut host = Host::new(17);
    let mut random = Random::new(18);
    let mut tally = [0; 10];
    for _ in 0..20_000 {
        let plain = timetable(&mut random, &SMALL);
        let mut table = to_words(&walked(&mut random, &plain));
        let plain_words = to_words(&plain.clone()).len() - plain.stations.len() - 1;
        let tail = plain_words.min(table.len() - 1);
        let [one, other] = [0, 1].map(|_| random.within(tail..=table.len() - 1));
        match random.below(5) {
            0 => drop(table.remove(one)),
            1 => table.insert(one, random.below(5) as u16),
            2 => table.swap(one, other),
            3 => table[one] = table[one].wrapping_add(random.pick(&[1, u16::MAX])),
            _ => table[one] = random.below(5) as u16,
        }
        tally[host.check_timetable(&lent(table, &mut random)) as usize] += 1;
    }
    assert!(tally[0] > 1_000 && tally[9] > 5_000, "{tally:?}");
}
