//! Times the calls on the largest timetable, beside the reference, in one run: `cargo run --release --bin bench`. With
//! words after it, `-- direct 2,044`, it runs the cases that have all of them in their names; what those of `-- growth`
//! print, `docs/speed.py` draws.
//!
//! It is a program and no test: a time says nothing on a machine that is busy with something else.

mod growth;
mod queries;
mod stores;
mod tables;
mod timing;

use std::env;

use crate::growth::growing;
use crate::queries::{asking_once, asking_stores, asking_useless, querying};
use crate::stores::storing;
use crate::tables::{asking, building, changing, reading, translating};
use dairyepoch_tests::direct::Query;
use dairyepoch_tests::generate::{
    diamonds_behind_shuttles, largest, long_lines, most_rows, one_way, overtaking, rural, with_trips, with_walks,
    Diamonds, DIRECT_ROWS_MOST,
};
use dairyepoch_tests::random::Random;
use dairyepoch_tests::timetable::{Timetable, RIDE_PENALTY_MOST};

fn main() {
    reading();
    let dear = one_way(2_044, RIDE_PENALTY_MOST, &[0, 500, 1_000, 1_500, 2_043]);
    building("line tables of one line", &long_lines(), 1);
    building("line tables of 256 lines", &overtaking(), 256);
    building("line tables of one trip of 2,044 stops", &dear, 1);
    asking("question 10 on one line", &long_lines());
    asking("question 10 on 256 lines", &overtaking());
    asking("question 10 on one trip of 2,044 stops", &dear);
    changing("a change on one line", &long_lines());
    changing("a change on 256 lines", &overtaking());
    changing("a change of random trips", &largest(&mut Random::new(4)));
    changing("a change of a rural timetable", &rural(&mut Random::new(1), 8));
    changing("a change of one trip of 2,044 stops", &dear);
    translating("times by trip and by stop of one line", &long_lines());
    translating("times by trip and by stop of 256 lines", &overtaking());
    translating("times by trip and by stop of one trip of 2,044 stops", &dear);
    translating("times by trip and by stop of a rural timetable", &rural(&mut Random::new(1), 8));
    querying("direct rides on one line of 256 trips", &long_lines(), Query { from: 60, to: 61, minute: 0 }, 1);
    querying("direct rides on 256 lines of one trip", &overtaking(), Query { from: 1, to: 64, minute: 0 }, 1);
    let query = Query { from: 1, to: 2, minute: 0 };
    querying("direct rides in 507 rows on one trip of 2,044 stops", &most_rows(), query, DIRECT_ROWS_MOST);
    querying("direct rides along one trip of 2,044 stops", &dear, Query { to: 5, ..query }, 1);
    querying("direct rides to and fro on one trip of 2,044 stops", &dear, Query { from: 6, to: 7, minute: 0 }, 1);
    for seed in 1..=3 {
        storing(&format!("stores of rural timetable {seed}"), &rural(&mut Random::new(seed), 8));
    }
    for rounds in [1, 2, 4] {
        storing(&format!("stores of a rural timetable of {} trips", 32 * rounds), &rural(&mut Random::new(1), rounds));
    }
    for walks in [64, 256] {
        for seed in 1..=3 {
            let what = format!("stores of rural timetable {seed} with {walks} walks");
            storing(&what, &walking(seed, 8, walks));
        }
    }
    let mut random = Random::new(4);
    storing("stores of random trips", &largest(&mut random));
    storing("stores of one line of 256 trips", &long_lines());
    storing("stores of 256 lines of one trip", &overtaking());
    storing("stores of one trip of 2,044 stops", &most_rows());
    storing("stores of one trip of 2,048 stops at 2 stations", &with_trips(&mut random, 2, &[2_048]));
    storing("stores of 12 diamonds", &Diamonds { count: 12, late: false, beyond: false, chain: 3 }.timetable());
    storing("stores of 12 late diamonds", &Diamonds { count: 12, late: true, beyond: true, chain: 4 }.timetable());
    storing("stores of 20 diamonds", &Diamonds { count: 20, ..Diamonds::default() }.timetable());
    for rounds in [1, 2, 4, 8] {
        let what = format!("queries of a rural timetable of {} trips", 32 * rounds);
        asking_stores(&what, &rural(&mut Random::new(1), rounds));
    }
    for walks in [64, 256] {
        for rounds in [1, 2, 4, 8] {
            let what = format!("queries of a rural timetable of {} trips with {walks} walks", 32 * rounds);
            asking_stores(&what, &walking(1, rounds, walks));
        }
    }
    asking_stores("queries of random trips", &largest(&mut Random::new(4)));
    asking_stores("queries of 256 lines of one trip", &overtaking());
    asking_stores("queries in up to 507 rows of one trip of 2,044 stops", &most_rows());
    asking_stores("queries along one trip of 2,044 stops", &dear);
    let diamonds = Diamonds { count: 12, ..Diamonds::default() }.timetable();
    asking_once("12 diamonds", &diamonds, Query { from: 1, to: 37, minute: 0 });
    for departures in [10, 100, 300] {
        let what = format!("12 diamonds behind two shuttles of {departures} departures");
        asking_once(&what, &diamonds_behind_shuttles(departures), Query { from: 1, to: 39, minute: 0 });
    }
    for arcs in [1, 10, 16_322] {
        asking_useless(arcs);
    }
    growing();
}

/// A rural timetable with so many walks.
fn walking(seed: u64, rounds: usize, walks: usize) -> Timetable {
    let timetable = rural(&mut Random::new(seed), rounds);
    with_walks(&mut Random::new(seed), &timetable, walks)
}

/// Whether the case of this name is to be run.
fn wanted(what: &str) -> bool {
    env::args().skip(1).all(|word| what.contains(&word))
}
