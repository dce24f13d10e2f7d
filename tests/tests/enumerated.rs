//! Every text of some small kinds, without exception.

use dairyepoch_tests::examples::M;
use dairyepoch_tests::host::Host;

/// How often each reply number, from 0 to 8, was given.
type Tally = [usize; 9];

/// Calls `visit` with every sequence of up to `most` of the pieces, joined.
fn every_sequence(pieces: &[&[u8]], most: usize, visit: &mut impl FnMut(&[u8])) {
    fn grow(text: &mut Vec<u8>, pieces: &[&[u8]], left: usize, visit: &mut impl FnMut(&[u8])) {
        visit(text);
        if left == 0 {
            return;
        }
        for piece in pieces {
            text.extend(*piece);
            grow(text, pieces, left - 1, visit);
            text.truncate(text.len() - piece.len());
        }
    }
    grow(&mut Vec::new(), pieces, most, visit);
}

/// Reads every choice of one piece of each kind, joined by commas, as a line after the text before it.
fn every_line(host: &mut Host, before: &str, kinds: &[&[&str]], tally: &mut Tally) {
    fn grow(host: &mut Host, text: &str, kinds: &[&[&str]], tally: &mut Tally) {
        match kinds {
            [] => tally[host.read(format!("{text}\n").as_bytes()).number as usize] += 1,
            [kind, rest @ ..] => {
                for piece in *kind {
                    grow(host, &format!("{text},{piece}"), rest, tally);
                }
            }
        }
    }
    let (first, rest) = kinds.split_first().expect("a line has a kind");
    for piece in *first {
        grow(host, &format!("{before}{piece}"), rest, tally);
    }
}

#[test]
fn every_short_text_of_five_bytes() {
    let mut host = Host::new(1);
    let mut accepted = Vec::new();
    every_sequence(&[b"S", b",", b"0", b"1", b"\n"], 8, &mut |text| {
        if host.read(text).number == 0 {
            accepted.push(text.to_vec());
        }
    });
    assert_eq!(accepted, [b"S,1,0,1\n", b"S,1,1,1\n"]);
}

#[test]
fn every_sequence_of_up_to_five_lines() {
    let lines: &[&[u8]] = &[
        b"S,1,0,1\n",
        b"S,2,240,1000\n",
        b"S,3,241,1\n",
        b"T,1,1,1,,00:10,0,0\n",
        b"T,1,2,2,00:11,,,0\n",
        b"T,1,2,2,00:11,00:12,0,0\n",
        b"T,1,3,1,00:13,,,0\n",
        b"T,2,1,2,,00:12,5,0\n",
        b"T,2,2,1,47:59,,,0\n",
        b"\n",
        b"T,1,1,1,,00:10,0,0",
    ];
    let mut host = Host::new(2);
    let mut tally = Tally::default();
    every_sequence(lines, 5, &mut |text| tally[host.read(text).number as usize] += 1);
    assert!([0, 2, 3, 4, 6, 7].iter().all(|&number| tally[number] > 0), "{tally:?}");
}

#[test]
fn every_stop_line_of_telling_fields() {
    let fields: &[&[&str]] = &[
        &["T"],
        &["", "0", "1", "2"],
        &["", "0", "1", "2", "3"],
        &["", "0", "1", "2", "3"],
        &["", "00:00", "00:10", "00:11", "47:59", "48:00", "10", "0:10"],
        &["", "00:00", "00:10", "00:11", "47:59", "48:00", "10", "0:10"],
        &["", "0", "100", "101"],
        &["", "0", "2", "3"],
    ];
    let mut host = Host::new(3);
    let mut tally = Tally::default();
    let stations = "S,1,0,1\nS,2,0,1\n";
    for before in ["", "T,1,1,1,,00:10,0,0\n", "T,1,1,1,,00:10,0,0\nT,1,2,2,00:11,,,0\n"] {
        every_line(&mut host, &format!("{stations}{before}"), fields, &mut tally);
    }
    assert!([0, 2, 3, 4, 6, 7].iter().all(|&number| tally[number] > 0), "{tally:?}");
}

#[test]
fn every_line_with_fields_empty_or_filled() {
    let either: &[&str] = &["", "1"];
    let time: &[&str] = &["", "00:01"];
    let mut host = Host::new(4);
    let mut tally = Tally::default();
    for before in ["", "S,1,0,1\n", "S,1,0,1\nS,2,0,1\n", "S,1,0,1\nS,2,0,1\nT,1,1,2,,00:00,0,0\n"] {
        for fields in 0..=9 {
            for second in [either, &["", "2"]] {
                let mut kinds = vec![either; fields];
                if let Some(kind) = kinds.get_mut(1) {
                    *kind = second;
                }
                if fields == 7 {
                    kinds[3..5].fill(time);
                }
                kinds.insert(0, &["S", "T", ""]);
                every_line(&mut host, before, &kinds, &mut tally);
            }
        }
    }
    assert!([0, 2, 4, 6, 7].iter().all(|&number| tally[number] > 0), "{tally:?}");
}

/// Texts with one field left open, to be filled with any number or time.
const OPEN_FIELDS: &[&str] = &[
    "S,#,0,1\n",
    "S,1,#,1\n",
    "S,1,0,#\n",
    "S,1,0,1\nS,#,0,1\n",
    "S,1,0,1\nS,2,0,1\nT,#,1,1,,00:10,0,0\nT,1,2,2,00:11,,,0\n",
    "S,1,0,1\nS,2,0,1\nT,1,#,1,,00:10,0,0\nT,1,2,2,00:11,,,0\n",
    "S,1,0,1\nS,2,0,1\nT,1,1,#,,00:10,0,0\nT,1,2,2,00:11,,,0\n",
    "S,1,0,1\nS,2,0,1\nT,1,1,1,#,00:10,0,0\nT,1,2,2,00:11,,,0\n",
    "S,1,0,1\nS,2,0,1\nT,1,1,1,,#,0,0\nT,1,2,2,23:20,,,0\n",
    "S,1,0,1\nS,2,0,1\nT,1,1,1,,00:10,#,0\nT,1,2,2,00:11,,,0\n",
    "S,1,0,1\nS,2,0,1\nT,1,1,1,,00:10,0,0\nT,#,2,2,00:11,,,0\n",
    "S,1,0,1\nS,2,0,1\nT,1,1,1,,00:10,0,0\nT,1,#,2,00:11,,,0\n",
    "S,1,0,1\nS,2,0,1\nT,1,1,1,,00:10,0,0\nT,1,2,#,00:11,,,0\n",
    "S,1,0,1\nS,2,0,1\nT,1,1,1,,00:10,0,0\nT,1,2,2,#,,,0\n",
    "S,1,0,1\nS,2,0,1\nT,1,1,1,,00:10,0,0\nT,1,2,2,23:20,#,0,0\nT,1,3,1,47:59,,,0\n",
    "S,1,0,1\nS,2,0,1\nT,1,1,1,,00:10,0,0\nT,1,2,2,00:11,00:12,#,0\nT,1,3,1,47:59,,,0\n",
    "S,1,0,1\nS,2,0,1\nT,1,1,1,,00:10,0,#\nT,1,2,2,00:11,,,0\n",
    "S,1,0,1\nS,2,0,1\nT,1,1,1,,00:10,0,0\nT,1,2,2,00:11,00:12,0,#\nT,1,3,1,47:59,,,0\n",
    "S,1,0,1\nS,2,0,1\nT,1,1,1,,00:10,0,0\nT,1,2,2,00:11,,,#\n",
];

#[test]
fn every_number_in_every_field() {
    let mut host = Host::new(5);
    for text in OPEN_FIELDS {
        let numbers = (0..=10_100).chain([65_535, 65_536, 65_537, 75_536, 99_999]);
        for number in numbers {
            host.read(text.replace('#', &number.to_string()).as_bytes());
        }
    }
}

#[test]
fn every_time_in_every_field() {
    let mut host = Host::new(16);
    for text in OPEN_FIELDS {
        for (hours, minutes) in (0..100).flat_map(|hours| (0..100).map(move |minutes| (hours, minutes))) {
            host.read(text.replace('#', &format!("{hours:02}:{minutes:02}")).as_bytes());
            host.read(text.replace('#', &format!("{hours}:{minutes}")).as_bytes());
        }
    }
}

#[test]
fn every_byte_in_every_place_of_a_time() {
    let mut host = Host::new(17);
    for text in OPEN_FIELDS {
        let (before, after) = text.split_once('#').expect("an open field");
        for (at, byte) in (0..5).flat_map(|at| (0..=255).map(move |byte| (at, byte))) {
            let mut field = *b"00:30";
            field[at] = byte;
            host.read(&[before.as_bytes(), &field, after.as_bytes()].concat());
        }
    }
}

#[test]
fn every_short_run_of_number_bytes_in_every_field() {
    let mut host = Host::new(6);
    for text in OPEN_FIELDS {
        let (before, after) = text.split_once('#').expect("an open field");
        every_sequence(&[b"0", b"1", b"9", b"-", b":"], 5, &mut |field| {
            host.read(&[before.as_bytes(), field, after.as_bytes()].concat());
        });
    }
}

#[test]
fn every_byte_in_every_place_of_m() {
    let mut host = Host::new(7);
    for at in 0..M.len() {
        let mut text = M.as_bytes().to_vec();
        for byte in 0..=255 {
            text[at] = byte;
            host.read(&text);
        }
    }
}

#[test]
fn every_byte_put_before_every_place_of_m() {
    let mut host = Host::new(8);
    for at in 0..=M.len() {
        let mut text = M.as_bytes().to_vec();
        text.insert(at, 0);
        for byte in 0..=255 {
            text[at] = byte;
            host.read(&text);
        }
    }
}

#[test]
fn every_piece_cut_out_of_m() {
    let mut host = Host::new(9);
    for begin in 0..M.len() {
        for end in begin + 1..=M.len() {
            host.read([&M[..begin], &M[end..]].concat().as_bytes());
        }
    }
}

#[test]
fn every_line_of_m_dropped_doubled_moved_or_swapped() {
    let mut host = Host::new(10);
    let lines: Vec<&str> = M.split_inclusive('\n').collect();
    for one in 0..lines.len() {
        let mut dropped = lines.clone();
        let line = dropped.remove(one);
        host.read(dropped.concat().as_bytes());
        for other in 0..lines.len() {
            let mut moved = dropped.clone();
            moved.insert(other, line);
            host.read(moved.concat().as_bytes());
            let mut doubled = lines.clone();
            doubled.insert(other, line);
            host.read(doubled.concat().as_bytes());
            let mut swapped = lines.clone();
            swapped.swap(one, other);
            host.read(swapped.concat().as_bytes());
        }
    }
}
