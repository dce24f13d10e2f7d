//! Ways in which a timetable text comes to harm.

#![allow(clippy::ptr_arg)] // every damage is of one type, whether or not it changes the length

use crate::random::Random;
use crate::timetable::clock;

pub type Damage = fn(&mut Random, &mut Vec<u8>);

pub const DAMAGES: &[Damage] = &[
    flip_a_bit,
    set_a_byte,
    insert_a_byte,
    remove_a_byte,
    cut_the_end_off,
    drop_the_final_newline,
    append_bytes,
    drop_a_line,
    double_a_line,
    swap_neighbours,
    swap_two_lines,
    insert_an_empty_line,
    join_two_lines,
    end_a_line_with_carriage_return,
    put_a_station_last,
    put_a_walk_elsewhere,
    empty_a_field,
    fill_a_field,
    add_a_leading_zero,
    write_five_digits,
    add_a_sign_or_blank,
    count_one_up,
    count_one_down,
    put_an_edge_in_a_field,
    shift_a_time,
    put_an_edge_in_a_time,
    misspell_a_time,
    write_a_time_as_its_minute,
    set_a_mark,
    misspell_a_mark,
    drop_a_mark,
    swap_two_fields,
    add_a_comma,
    drop_a_comma,
    change_the_kind,
    add_a_station,
    add_a_walk,
    add_a_trip,
    add_a_stop,
];

/// Bytes that have a part in the text, or that careless readers give one.
const TELLING_BYTES: &[u8] = b"STW,0123456789\n\r\t -+.\"st\x00\x7f\x80\xff:/";

/// Numbers at the edges of the ranges and counts.
const EDGES: &[&str] = &[
    "0", "1", "2", "59", "60", "61", "63", "64", "65", "99", "100", "101", "239", "240", "241", "255", "256", "257",
    "999", "1000", "1001", "2047", "2048", "2049", "2878", "2879", "2880", "9999", "10000", "65535", "65536",
];

/// Times at the edges of their ranges, and fields that are nearly times.
const TIME_EDGES: &[&str] =
    &["00:00", "00:59", "00:60", "23:59", "24:00", "24:60", "47:59", "47:60", "48:00", "99:59", "99:99"];
const NEARLY_TIMES: &[&str] = &[
    "8:00", "08:0", "008:00", "08:000", "08:00:00", "0800", "480", "08-00", "08.00", "08;00", ":", " 8:00", "08: 0",
    "0a:00", "08:0/", "/8:00", "08::0", "::::;", "-8:00", "08:+1", "08:00 ",
];

/// Marks, numbers that are none, and fields that are no number.
const MARK_EDGES: &[&str] = &["0", "1", "2", "3", "4", "9", "10", "12", "128", "255", "256", "9999"];
const NEARLY_MARKS: &[&str] =
    &["", "00", "01", "02", "x", "-1", "+1", " 1", "1 ", "1.", "10000", "65536", "1,", "00:01"];

/// Does up to three damages to a copy of the text.
pub fn damaged(random: &mut Random, text: &[u8]) -> Vec<u8> {
    let mut text = text.to_vec();
    for _ in 0..random.within(1..=3) {
        random.pick(DAMAGES)(random, &mut text);
    }
    text
}

fn flip_a_bit(random: &mut Random, text: &mut Vec<u8>) {
    change_a_byte(random, text, |random, byte| byte ^ (1 << random.below(8)));
}

fn set_a_byte(random: &mut Random, text: &mut Vec<u8>) {
    change_a_byte(random, text, |random, _| random.pick(TELLING_BYTES));
}

fn change_a_byte(random: &mut Random, text: &mut [u8], change: fn(&mut Random, u8) -> u8) {
    if !text.is_empty() {
        let at = random.below(text.len());
        text[at] = change(random, text[at]);
    }
}

fn insert_a_byte(random: &mut Random, text: &mut Vec<u8>) {
    let byte = if random.one_in(4) { random.byte() } else { random.pick(TELLING_BYTES) };
    text.insert(random.within(0..=text.len()), byte);
}

fn remove_a_byte(random: &mut Random, text: &mut Vec<u8>) {
    if !text.is_empty() {
        text.remove(random.below(text.len()));
    }
}

fn cut_the_end_off(random: &mut Random, text: &mut Vec<u8>) {
    text.truncate(random.within(0..=text.len()));
}

fn drop_the_final_newline(_: &mut Random, text: &mut Vec<u8>) {
    text.pop();
}

fn append_bytes(random: &mut Random, text: &mut Vec<u8>) {
    for _ in 0..random.within(1..=5) {
        text.push(random.pick(TELLING_BYTES));
    }
}

/// The lines of a text, each with its line end.
fn change_lines(text: &mut Vec<u8>, change: impl FnOnce(&mut Vec<Vec<u8>>)) {
    let mut lines: Vec<Vec<u8>> = text.split_inclusive(|&byte| byte == b'\n').map(<[u8]>::to_vec).collect();
    if !lines.is_empty() {
        change(&mut lines);
        *text = lines.concat();
    }
}

fn drop_a_line(random: &mut Random, text: &mut Vec<u8>) {
    change_lines(text, |lines| {
        lines.remove(random.below(lines.len()));
    });
}

fn double_a_line(random: &mut Random, text: &mut Vec<u8>) {
    change_lines(text, |lines| {
        let at = random.below(lines.len());
        lines.insert(at, lines[at].clone());
    });
}

fn swap_neighbours(random: &mut Random, text: &mut Vec<u8>) {
    change_lines(text, |lines| {
        let at = random.below(lines.len());
        lines.swap(at.saturating_sub(1), at);
    });
}

fn swap_two_lines(random: &mut Random, text: &mut Vec<u8>) {
    change_lines(text, |lines| {
        let (one, other) = (random.below(lines.len()), random.below(lines.len()));
        lines.swap(one, other);
    });
}

fn insert_an_empty_line(random: &mut Random, text: &mut Vec<u8>) {
    change_lines(text, |lines| lines.insert(random.within(0..=lines.len()), b"\n".to_vec()));
}

fn join_two_lines(random: &mut Random, text: &mut Vec<u8>) {
    change_lines(text, |lines| {
        let at = random.below(lines.len());
        lines[at].pop();
    });
}

fn end_a_line_with_carriage_return(random: &mut Random, text: &mut Vec<u8>) {
    change_lines(text, |lines| {
        let at = random.below(lines.len());
        lines[at].pop();
        lines[at].extend(random.pick(&[&b"\r\n"[..], b"\r", b"\n\r"]));
    });
}

fn put_a_station_last(random: &mut Random, text: &mut Vec<u8>) {
    change_lines(text, |lines| {
        let stations = lines.iter().take_while(|line| line.starts_with(b"S")).count();
        if stations > 0 {
            let station = lines.remove(random.below(stations));
            lines.push(station);
        }
    });
}

fn put_a_walk_elsewhere(random: &mut Random, text: &mut Vec<u8>) {
    change_lines(text, |lines| {
        let walks: Vec<usize> = (0..lines.len()).filter(|&at| lines[at].starts_with(b"W")).collect();
        if !walks.is_empty() {
            let walk = lines.remove(random.pick(&walks));
            lines.insert(random.within(0..=lines.len()), walk);
        }
    });
}

/// The fields of some line, its kind the first.
fn change_fields(random: &mut Random, text: &mut Vec<u8>, change: impl FnOnce(&mut Random, &mut Vec<Vec<u8>>)) {
    change_lines(text, |lines| {
        let at = random.below(lines.len());
        let line = lines[at].strip_suffix(b"\n").unwrap_or(&lines[at]);
        let mut fields: Vec<Vec<u8>> = line.split(|&byte| byte == b',').map(<[u8]>::to_vec).collect();
        change(random, &mut fields);
        lines[at] = fields.join(&b","[..]);
        lines[at].push(b'\n');
    });
}

fn change_a_field(random: &mut Random, text: &mut Vec<u8>, change: impl FnOnce(&mut Random, &mut Vec<u8>)) {
    change_fields(random, text, |random, fields| {
        let at = random.below(fields.len());
        change(random, &mut fields[at]);
    });
}

fn empty_a_field(random: &mut Random, text: &mut Vec<u8>) {
    change_a_field(random, text, |_, field| field.clear());
}

/// Fills a field if it is empty: the last fields of a trip's end both, so that the trip may go on.
fn fill_a_field(random: &mut Random, text: &mut Vec<u8>) {
    change_fields(random, text, |random, fields| {
        for (at, field) in fields.iter_mut().enumerate().filter(|(_, field)| field.is_empty()) {
            let number = random.within(0..=2_900);
            let filling = if at == 4 || at == 5 { clock(number as u16) } else { number.to_string() };
            field.extend(filling.bytes());
        }
    });
}

fn add_a_leading_zero(random: &mut Random, text: &mut Vec<u8>) {
    change_a_field(random, text, |_, field| field.insert(0, b'0'));
}

fn write_five_digits(random: &mut Random, text: &mut Vec<u8>) {
    change_a_field(random, text, |random, field| *field = random.within(10_000..=99_999).to_string().into_bytes());
}

fn add_a_sign_or_blank(random: &mut Random, text: &mut Vec<u8>) {
    change_a_field(random, text, |random, field| {
        field.insert(random.within(0..=field.len()), random.pick(b"+- \t."));
    });
}

fn count_one_up(random: &mut Random, text: &mut Vec<u8>) {
    change_a_number(random, text, |number| number + 1);
}

fn count_one_down(random: &mut Random, text: &mut Vec<u8>) {
    change_a_number(random, text, |number| number.saturating_sub(1));
}

fn change_a_number(random: &mut Random, text: &mut Vec<u8>, change: fn(u64) -> u64) {
    change_a_field(random, text, |_, field| {
        if let Some(number) = std::str::from_utf8(field).ok().and_then(|digits| digits.parse().ok()) {
            *field = change(number).to_string().into_bytes();
        }
    });
}

fn put_an_edge_in_a_field(random: &mut Random, text: &mut Vec<u8>) {
    change_a_field(random, text, |random, field| *field = random.pick(EDGES).as_bytes().to_vec());
}

/// Changes the fields of a line that has as many as a stop's.
fn change_a_stop(random: &mut Random, text: &mut Vec<u8>, change: impl FnOnce(&mut Random, &mut Vec<Vec<u8>>)) {
    change_fields(random, text, |random, fields| {
        if fields.len() == 8 {
            change(random, fields);
        }
    });
}

/// Changes a stop's arrive or depart, where it has one.
fn change_a_time(random: &mut Random, text: &mut Vec<u8>, change: impl FnOnce(&mut Random, &mut Vec<u8>)) {
    change_a_stop(random, text, |random, fields| {
        let at = random.within(4..=5);
        if !fields[at].is_empty() {
            change(random, &mut fields[at]);
        }
    });
}

/// A time that may differ in one digit.
fn shift_a_time(random: &mut Random, text: &mut Vec<u8>) {
    change_a_time(random, text, |random, field| {
        let at = random.below(field.len());
        if field[at].is_ascii_digit() {
            field[at] = random.pick(b"0123456789");
        }
    });
}

fn put_an_edge_in_a_time(random: &mut Random, text: &mut Vec<u8>) {
    change_a_time(random, text, |random, field| *field = random.pick(TIME_EDGES).as_bytes().to_vec());
}

fn misspell_a_time(random: &mut Random, text: &mut Vec<u8>) {
    change_a_time(random, text, |random, field| *field = random.pick(NEARLY_TIMES).as_bytes().to_vec());
}

/// The form of times before document 02.
fn write_a_time_as_its_minute(random: &mut Random, text: &mut Vec<u8>) {
    change_a_time(random, text, |_, field| {
        let digits: Vec<u16> =
            field.iter().filter(|byte| byte.is_ascii_digit()).map(|byte| u16::from(byte - b'0')).collect();
        if let [a, b, c, d] = digits[..] {
            *field = (600 * a + 60 * b + 10 * c + d).to_string().into_bytes();
        }
    });
}

fn set_a_mark(random: &mut Random, text: &mut Vec<u8>) {
    change_a_stop(random, text, |random, fields| fields[7] = random.pick(MARK_EDGES).as_bytes().to_vec());
}

fn misspell_a_mark(random: &mut Random, text: &mut Vec<u8>) {
    change_a_stop(random, text, |random, fields| fields[7] = random.pick(NEARLY_MARKS).as_bytes().to_vec());
}

/// The form of a stop's line before it had a mark.
fn drop_a_mark(random: &mut Random, text: &mut Vec<u8>) {
    change_a_stop(random, text, |_, fields| drop(fields.pop()));
}

fn swap_two_fields(random: &mut Random, text: &mut Vec<u8>) {
    change_fields(random, text, |random, fields| {
        let (one, other) = (random.below(fields.len()), random.below(fields.len()));
        fields.swap(one, other);
    });
}

fn add_a_comma(random: &mut Random, text: &mut Vec<u8>) {
    change_fields(random, text, |random, fields| fields.insert(random.within(0..=fields.len()), Vec::new()));
}

fn drop_a_comma(random: &mut Random, text: &mut Vec<u8>) {
    change_fields(random, text, |random, fields| {
        let at = random.below(fields.len());
        if at + 1 < fields.len() {
            let after = fields.remove(at + 1);
            fields[at].extend(after);
        }
    });
}

fn change_the_kind(random: &mut Random, text: &mut Vec<u8>) {
    change_fields(random, text, |random, fields| {
        fields[0] = random.pick(&["S", "T", "s", "t", "W", "", "SS", "ST", "Q"]).as_bytes().to_vec();
    });
}

/// Adds the next station after the others: a fault only where the stations are full.
fn add_a_station(_: &mut Random, text: &mut Vec<u8>) {
    change_lines(text, |lines| {
        let stations = lines.iter().take_while(|line| line.starts_with(b"S")).count();
        lines.insert(stations, format!("S,{},0,1\n", stations + 1).into_bytes());
    });
}

/// Adds a walk after the stations and some of the walks: a fault only where those are full, or where it does not rise.
fn add_a_walk(random: &mut Random, text: &mut Vec<u8>) {
    change_lines(text, |lines| {
        let stations = lines.iter().take_while(|line| line.starts_with(b"S")).count();
        let walks = lines[stations..].iter().take_while(|line| line.starts_with(b"W")).count();
        let [from, to] = [0, 1].map(|_| random.within(0..=stations + 1));
        let walk = format!("W,{from},{to},{},{}\n", random.within(0..=61), random.within(0..=1_001));
        lines.insert(stations + random.within(0..=walks), walk.into_bytes());
    });
}

/// Adds a trip at the end: a fault only where the trips or stops are full, or the last trip is open.
fn add_a_trip(_: &mut Random, text: &mut Vec<u8>) {
    let trip = last_number(text, 1) + 1;
    text.extend(format!("T,{trip},1,1,,00:00,0,0\nT,{trip},2,2,00:01,,,0\n").bytes());
}

/// Adds a stop to the last trip: a fault, since that trip has ended, unless something opened it.
fn add_a_stop(random: &mut Random, text: &mut Vec<u8>) {
    let (trip, stop) = (last_number(text, 1), last_number(text, 2) + 1);
    let station = random.within(1..=3);
    text.extend(format!("T,{trip},{stop},{station},47:59,,,0\n").bytes());
}

/// The number in a field of the last line, if that is a stop.
fn last_number(text: &[u8], field: usize) -> u64 {
    let last = text.split(|&byte| byte == b'\n').rfind(|line| line.starts_with(b"T,"));
    let digits = last.and_then(|line| line.split(|&byte| byte == b',').nth(field));
    digits.and_then(|digits| std::str::from_utf8(digits).ok()).and_then(|digits| digits.parse().ok()).unwrap_or(0)
}
