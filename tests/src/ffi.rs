//! The exported calls, each behind a safe function: a slice in place of a pointer and a length.

use std::ops::Range;
use std::ptr::{null, null_mut};

use crate::direct::Query;

mod exported {
    // each pointer stands beside its length
    #[rustfmt::skip]
    extern "C" {
        pub fn dairyepoch_read(text: *const u8, text_len: usize, timetable: *mut u16, timetable_len: usize) -> u64;
        pub fn dairyepoch_check_timetable(timetable: *const u16, timetable_len: usize) -> u64;
        pub fn dairyepoch_build_lines(
            timetable: *const u16, timetable_len: usize, lines: *mut u16, lines_len: usize,
            work: *mut u32, work_len: usize,
        ) -> u64;
        pub fn dairyepoch_check_lines(
            timetable: *const u16, timetable_len: usize, lines: *const u16, lines_len: usize,
            work: *mut u32, work_len: usize,
        ) -> u64;
        pub fn dairyepoch_check_lines_alone(
            lines: *const u16, lines_len: usize, work: *mut u32, work_len: usize,
        ) -> u64;
        pub fn dairyepoch_line_trips(
            lines: *const u16, lines_len: usize, work: *mut u32, work_len: usize, line: u32,
        ) -> u64;
        pub fn dairyepoch_times_by_trip(
            timetable: *const u16, timetable_len: usize, lines: *const u16, lines_len: usize,
            work: *mut u32, work_len: usize, other: *mut u16, other_len: usize,
        ) -> u64;
        pub fn dairyepoch_times_by_stop(
            timetable: *const u16, timetable_len: usize, other: *const u16, other_len: usize,
            work: *mut u32, work_len: usize, lines: *mut u16, lines_len: usize,
        ) -> u64;
        pub fn dairyepoch_direct(
            timetable: *const u16, timetable_len: usize, lines: *const u16, lines_len: usize,
            work: *mut u32, work_len: usize, from: u32, to: u32, minute: u32, answer: *mut u32, answer_len: usize,
        ) -> u64;
        pub fn dairyepoch_make_store(
            timetable: *const u16, timetable_len: usize, lines: *const u16, lines_len: usize,
            work: *mut u32, work_len: usize, source: u32, store: *mut u16, store_len: usize,
        ) -> u64;
        pub fn dairyepoch_query(
            timetable: *const u16, timetable_len: usize, lines: *const u16, lines_len: usize,
            store: *const u16, store_len: usize, work: *mut u32, work_len: usize, from: u32, to: u32, minute: u32,
            answer: *mut u32, answer_len: usize,
        ) -> u64;
        pub fn dairyepoch_cancel_trip(
            timetable: *mut u16, timetable_len: usize, lines: *mut u16, lines_len: usize,
            work: *mut u32, work_len: usize, trip: u32,
        ) -> u64;
        pub fn dairyepoch_add_trip(
            timetable: *mut u16, timetable_len: usize, lines: *mut u16, lines_len: usize,
            work: *mut u32, work_len: usize, trip: u32, text: *const u8, text_len: usize,
        ) -> u64;
    }
}

/// What a call replies: 0 with a count, or the number of the question that had a no with a line, or with 0.
#[derive(Clone, Copy, Debug, PartialEq, Eq)]
pub struct Reply {
    pub number: u32,
    /// The lower half of the returned word.
    pub beside: u32,
}

impl Reply {
    fn from_bits(bits: u64) -> Reply {
        Reply { number: (bits >> 32) as u32, beside: bits as u32 }
    }

    /// A success with this count.
    pub fn done(count: usize) -> Reply {
        Reply { number: 0, beside: count as u32 }
    }

    /// The refusal of a call that has no line to tell of.
    pub fn refused(number: u32) -> Reply {
        Reply { number, beside: 0 }
    }

    /// The piece of the line tables that `line_trips` tells of in the place of a count.
    pub fn piece(self) -> Range<usize> {
        let (start, count) = (self.beside as usize >> 16, self.beside as usize & 0xffff);
        start..start + count
    }
}

/// What an exported call takes in the place of a slice: a pointer and a length, null and 0 where there is no slice.
trait Parts {
    type Pointer;
    fn parts(self) -> (Self::Pointer, usize);
}

impl<W> Parts for Option<&[W]> {
    type Pointer = *const W;
    fn parts(self) -> (*const W, usize) {
        self.map_or((null(), 0), |slice| (slice.as_ptr(), slice.len()))
    }
}

impl<W> Parts for Option<&mut [W]> {
    type Pointer = *mut W;
    fn parts(self) -> (*mut W, usize) {
        self.map_or((null_mut(), 0), |slice| (slice.as_mut_ptr(), slice.len()))
    }
}

/// Makes an exported call: with slices, then with numbers, then with one more slice where there is one.
macro_rules! call {
    ($call:ident, $($slice:ident),+; $($number:ident),*; $($last:ident)?) => {{
        $(let $slice = $slice.parts();)+
        $(let $last = $last.parts();)?
        // SAFETY: each pointer and length are those of a slice, and one that is written overlaps no other; or there is
        // no slice, so that nothing is read or written of it.
        let bits = unsafe { exported::$call($($slice.0, $slice.1,)+ $($number,)* $($last.0, $last.1)?) };
        Reply::from_bits(bits)
    }};
}

pub fn read(text: &[u8], timetable: &mut [u16]) -> Reply {
    read_of(Some(text), Some(timetable))
}

/// Reading with no text at all: a null pointer and length 0, as a host has it whose file did not open.
pub fn read_nothing(timetable: &mut [u16]) -> Reply {
    read_of(None, Some(timetable))
}

fn read_of(text: Option<&[u8]>, timetable: Option<&mut [u16]>) -> Reply {
    call!(dairyepoch_read, text, timetable;;)
}

pub fn check_timetable(timetable: &[u16]) -> Reply {
    let timetable = Some(timetable);
    call!(dairyepoch_check_timetable, timetable;;)
}

pub fn build_lines(timetable: &[u16], lines: &mut [u16], work: &mut [u32]) -> Reply {
    build_lines_of(Some(timetable), Some(lines), Some(work))
}

/// Building with nothing lent at all: null pointers and lengths 0.
pub fn build_lines_of_nothing() -> Reply {
    build_lines_of(None, None, None)
}

fn build_lines_of(timetable: Option<&[u16]>, lines: Option<&mut [u16]>, work: Option<&mut [u32]>) -> Reply {
    call!(dairyepoch_build_lines, timetable, lines, work;;)
}

pub fn check_lines(timetable: &[u16], lines: &[u16], work: &mut [u32]) -> Reply {
    check_lines_of(Some(timetable), Some(lines), Some(work))
}

fn check_lines_of(timetable: Option<&[u16]>, lines: Option<&[u16]>, work: Option<&mut [u32]>) -> Reply {
    call!(dairyepoch_check_lines, timetable, lines, work;;)
}

pub fn check_lines_alone(lines: &[u16], work: &mut [u32]) -> Reply {
    check_lines_alone_of(Some(lines), Some(work))
}

fn check_lines_alone_of(lines: Option<&[u16]>, work: Option<&mut [u32]>) -> Reply {
    call!(dairyepoch_check_lines_alone, lines, work;;)
}

pub fn line_trips(lines: &[u16], work: &mut [u32], line: u32) -> Reply {
    line_trips_of(Some(lines), Some(work), line)
}

fn line_trips_of(lines: Option<&[u16]>, work: Option<&mut [u32]>, line: u32) -> Reply {
    call!(dairyepoch_line_trips, lines, work; line;)
}

/// The three calls that ask about line tables, with nothing lent at all: null pointers and lengths 0.
pub fn ask_lines_of_nothing() -> [Reply; 3] {
    [check_lines_of(None, None, None), check_lines_alone_of(None, None), line_trips_of(None, None, 1)]
}

pub fn times_by_trip(timetable: &[u16], lines: &[u16], work: &mut [u32], other: &mut [u16]) -> Reply {
    times_by_trip_of(Some(timetable), Some(lines), Some(work), Some(other))
}

fn times_by_trip_of(
    timetable: Option<&[u16]>,
    lines: Option<&[u16]>,
    work: Option<&mut [u32]>,
    other: Option<&mut [u16]>,
) -> Reply {
    call!(dairyepoch_times_by_trip, timetable, lines, work;; other)
}

pub fn times_by_stop(timetable: &[u16], other: &[u16], work: &mut [u32], lines: &mut [u16]) -> Reply {
    times_by_stop_of(Some(timetable), Some(other), Some(work), Some(lines))
}

fn times_by_stop_of(
    timetable: Option<&[u16]>,
    other: Option<&[u16]>,
    work: Option<&mut [u32]>,
    lines: Option<&mut [u16]>,
) -> Reply {
    call!(dairyepoch_times_by_stop, timetable, other, work;; lines)
}

/// Both translations with nothing lent at all: null pointers and lengths 0.
pub fn translate_nothing() -> [Reply; 2] {
    [times_by_trip_of(None, None, None, None), times_by_stop_of(None, None, None, None)]
}

pub fn direct(timetable: &[u16], lines: &[u16], work: &mut [u32], query: Query, answer: &mut [u32]) -> Reply {
    direct_of(Some(timetable), Some(lines), Some(work), query, Some(answer))
}

/// A direct query without an answer slice: a null pointer and length 0.
pub fn direct_to_nothing(timetable: &[u16], lines: &[u16], work: &mut [u32], query: Query) -> Reply {
    direct_of(Some(timetable), Some(lines), Some(work), query, None)
}

/// A direct query with nothing lent at all: null pointers and lengths 0.
pub fn direct_of_nothing(query: Query) -> Reply {
    direct_of(None, None, None, query, None)
}

fn direct_of(
    timetable: Option<&[u16]>,
    lines: Option<&[u16]>,
    work: Option<&mut [u32]>,
    Query { from, to, minute }: Query,
    answer: Option<&mut [u32]>,
) -> Reply {
    call!(dairyepoch_direct, timetable, lines, work; from, to, minute; answer)
}

pub fn make_store(timetable: &[u16], lines: &[u16], work: &mut [u32], source: u32, store: &mut [u16]) -> Reply {
    make_store_of(Some(timetable), Some(lines), Some(work), source, Some(store))
}

/// A store call without a store slice: a null pointer and length 0.
pub fn make_store_of_no_words(timetable: &[u16], lines: &[u16], work: &mut [u32], source: u32) -> Reply {
    make_store_of(Some(timetable), Some(lines), Some(work), source, None)
}

/// A store call with nothing lent at all: null pointers and lengths 0.
pub fn make_store_of_nothing(source: u32) -> Reply {
    make_store_of(None, None, None, source, None)
}

fn make_store_of(
    timetable: Option<&[u16]>,
    lines: Option<&[u16]>,
    work: Option<&mut [u32]>,
    source: u32,
    store: Option<&mut [u16]>,
) -> Reply {
    call!(dairyepoch_make_store, timetable, lines, work; source; store)
}

/// What a query is lent for reading.
#[derive(Clone, Copy)]
pub struct Tables<'a> {
    pub timetable: &'a [u16],
    pub lines: &'a [u16],
    pub store: &'a [u16],
}

pub fn query(Tables { timetable, lines, store }: Tables, work: &mut [u32], query: Query, answer: &mut [u32]) -> Reply {
    query_of([Some(timetable), Some(lines), Some(store)], Some(work), query, Some(answer))
}

/// A query without an answer slice: a null pointer and length 0.
pub fn query_to_nothing(Tables { timetable, lines, store }: Tables, work: &mut [u32], query: Query) -> Reply {
    query_of([Some(timetable), Some(lines), Some(store)], Some(work), query, None)
}

/// A query with no store, or with nothing lent at all: null pointers and lengths 0.
pub fn query_of_no_store(timetable: &[u16], lines: &[u16], work: &mut [u32], query: Query) -> [Reply; 2] {
    let without_store = query_of([Some(timetable), Some(lines), None], Some(work), query, None);
    [without_store, query_of([None; 3], None, query, None)]
}

fn query_of(
    [timetable, lines, store]: [Option<&[u16]>; 3],
    work: Option<&mut [u32]>,
    Query { from, to, minute }: Query,
    answer: Option<&mut [u32]>,
) -> Reply {
    call!(dairyepoch_query, timetable, lines, store, work; from, to, minute; answer)
}

pub fn cancel_trip(timetable: &mut [u16], lines: &mut [u16], work: &mut [u32], trip: u32) -> Reply {
    cancel_trip_of(Some(timetable), Some(lines), Some(work), trip)
}

fn cancel_trip_of(
    timetable: Option<&mut [u16]>,
    lines: Option<&mut [u16]>,
    work: Option<&mut [u32]>,
    trip: u32,
) -> Reply {
    call!(dairyepoch_cancel_trip, timetable, lines, work; trip;)
}

pub fn add_trip(timetable: &mut [u16], lines: &mut [u16], work: &mut [u32], trip: u32, text: &[u8]) -> Reply {
    add_trip_of(Some(timetable), Some(lines), Some(work), trip, Some(text))
}

/// Adding with no text at all: a null pointer and length 0.
pub fn add_trip_of_no_text(timetable: &mut [u16], lines: &mut [u16], work: &mut [u32], trip: u32) -> Reply {
    add_trip_of(Some(timetable), Some(lines), Some(work), trip, None)
}

/// Cancelling and adding with nothing lent at all: null pointers and lengths 0.
pub fn change_nothing(trip: u32) -> [Reply; 2] {
    [cancel_trip_of(None, None, None, trip), add_trip_of(None, None, None, trip, None)]
}

fn add_trip_of(
    timetable: Option<&mut [u16]>,
    lines: Option<&mut [u16]>,
    work: Option<&mut [u32]>,
    trip: u32,
    text: Option<&[u8]>,
) -> Reply {
    call!(dairyepoch_add_trip, timetable, lines, work; trip; text)
}
