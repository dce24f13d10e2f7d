//! What document 01 itself shows: timetable M, case k and the cases that are only run.

use dairyepoch_tests::examples::{M, M_WORDS};
use dairyepoch_tests::ffi;
use dairyepoch_tests::host::Host;
use dairyepoch_tests::words::TIMETABLE_WORDS;

#[test]
fn m_has_ten_lines() {
    Host::new(1).expect_read(M, 0, 10);
}

#[test]
fn m_leads_to_its_words_and_keeps_those_behind() {
    let mut words = vec![0xabcd; TIMETABLE_WORDS];
    ffi::read(M.as_bytes(), &mut words);
    assert_eq!(words[..M_WORDS.len()], M_WORDS);
    assert!(words[M_WORDS.len()..].iter().all(|&word| word == 0xabcd));
}

#[test]
fn the_words_of_m_have_a_yes() {
    let mut words = vec![0xffff; TIMETABLE_WORDS];
    words[..M_WORDS.len()].copy_from_slice(&M_WORDS);
    assert_eq!(Host::new(2).check_timetable(&words), 0);
}

#[test]
fn no_text_at_all_is_the_empty_text() {
    let mut words = vec![0x5a5a; TIMETABLE_WORDS];
    assert_eq!(ffi::read_nothing(&mut words), ffi::Reply { number: 7, beside: 1 });
    assert!(words.iter().all(|&word| word == 0x5a5a));
}

#[test]
fn case_k_the_empty_text() {
    Host::new(3).expect_read("", 7, 1);
}

#[test]
fn time_47_59_passes_and_48_00_gives_3() {
    let mut host = Host::new(4);
    host.expect_read(M.replace("09:20", "47:59"), 0, 10);
    host.expect_read(M.replace("09:20", "48:00"), 3, 6);
    host.expect_read(M.replace("08:21", "47:59").replace("09:20", "47:59"), 6, 6);
    host.expect_read(M.replace("08:21", "48:00"), 3, 5);
    host.expect_read(M.replace("08:22", "48:00"), 3, 9);
}

#[test]
fn change_penalty_0_gives_3() {
    let mut host = Host::new(5);
    host.expect_read(M.replace("S,2,3,10", "S,2,3,0"), 3, 2);
    host.expect_read(M.replace("S,2,3,10", "S,2,3,1"), 0, 10);
}

#[test]
fn arrival_equal_to_the_previous_departure_gives_6() {
    let mut host = Host::new(6);
    host.expect_read(M.replace("08:40", "08:23"), 6, 8);
    host.expect_read(M.replace("08:40", "08:24"), 0, 10);
}

#[test]
fn a_65th_station_gives_5() {
    let mut host = Host::new(7);
    let mut text: String = (1..=64).map(|station| format!("S,{station},0,1\n")).collect();
    host.expect_read(&text, 0, 64);
    text += "S,65,0,1\n";
    host.expect_read(&text, 5, 65);
}

#[test]
fn every_piece_of_m_is_judged_without_what_lies_around_it() {
    let mut host = Host::new(8);
    for begin in 0..=M.len() {
        for end in begin..=M.len() {
            host.read(&M.as_bytes()[begin..end]);
        }
    }
}
