//! Timetables by the thousand, whole and damaged.

use dairyepoch_tests::damage::{damaged, DAMAGES};
use dairyepoch_tests::generate::{largest, timetable, Size, LARGE, MIDDLING, SMALL};
use dairyepoch_tests::host::Host;
use dairyepoch_tests::random::Random;

/// Reads `count` generated texts; all are accepted, with their number of lines.
fn accepted(size: &Size, count: u64) {
    let mut host = Host::new(count);
    let mut random = Random::new(count + 1);
    for _ in 0..count {
        let text = timetable(&mut random, size).to_text();
        let lines = text.iter().filter(|&&byte| byte == b'\n').count();
        host.expect_read(text, 0, lines as u32);
    }
}

#[test]
fn small_texts_are_accepted() {
    accepted(&SMALL, 20_000);
}

#[test]
fn middling_texts_are_accepted() {
    accepted(&MIDDLING, 4_000);
}

#[test]
fn large_texts_are_accepted() {
    accepted(&LARGE, 400);
}

#[test]
fn the_largest_texts_are_accepted() {
    let mut host = Host::new(2);
    let mut random = Random::new(3);
    for _ in 0..100 {
        host.expect_read(largest(&mut random).to_text(), 0, 64 + 2_048);
    }
}

/// Reads `count` damaged texts, and fails unless each of the reply numbers was met.
fn damaged_texts(seed: u64, count: usize, numbers: &[usize], mut text: impl FnMut(&mut Random) -> Vec<u8>) {
    let mut host = Host::new(seed);
    let mut random = Random::new(seed);
    let mut tally = [0; 8];
    for _ in 0..count {
        let whole = text(&mut random);
        tally[host.read(&damaged(&mut random, &whole)).number as usize] += 1;
    }
    assert!(numbers.iter().all(|&number| tally[number] > 0), "by reply number: {tally:?}");
}

#[test]
fn small_texts_damaged() {
    damaged_texts(4, 60_000, &[0, 2, 3, 4, 6, 7], |random| timetable(random, &SMALL).to_text());
}

#[test]
fn middling_texts_damaged() {
    damaged_texts(5, 15_000, &[0, 2, 3, 4, 6, 7], |random| timetable(random, &MIDDLING).to_text());
}

#[test]
fn large_texts_damaged() {
    damaged_texts(6, 1_000, &[0, 2, 3, 4, 6], |random| timetable(random, &LARGE).to_text());
}

#[test]
fn the_largest_texts_damaged() {
    damaged_texts(7, 1_000, &[0, 2, 3, 4, 5, 6], |random| largest(random).to_text());
}

#[test]
fn each_damage_alone() {
    let mut host = Host::new(8);
    let mut random = Random::new(9);
    let mut refused = 0;
    for damage in DAMAGES {
        for _ in 0..500 {
            let mut text = timetable(&mut random, &SMALL).to_text();
            damage(&mut random, &mut text);
            refused += usize::from(host.read(&text).number != 0);
        }
    }
    assert!(refused > 250 * DAMAGES.len(), "only {refused} texts were refused");
}

#[test]
fn lines_of_several_timetables_mixed() {
    let mut host = Host::new(10);
    let mut random = Random::new(11);
    for _ in 0..20_000 {
        let (one, other) = (timetable(&mut random, &SMALL).to_text(), timetable(&mut random, &SMALL).to_text());
        let (cut, from) = (random.within(0..=one.len()), random.within(0..=other.len()));
        host.read(&[&one[..cut], &other[from..]].concat());
    }
}

#[test]
fn texts_of_random_bytes() {
    let mut host = Host::new(12);
    let mut random = Random::new(13);
    for _ in 0..20_000 {
        let length = random.within(0..=60);
        let text: Vec<u8> = (0..length).map(|_| random.pick(b"STST,,,,,,0012345678::\n\n")).collect();
        host.read(&text);
        let text: Vec<u8> = (0..length).map(|_| random.byte()).collect();
        host.read(&text);
    }
}
