//! Document 02, Nine, "Two rules for one platform": what both rules store and show of one timetable, where they differ,
//! and the page that says so, `docs/two-rules.md`.

use std::collections::BTreeSet;

use crate::connections::{list_by, rows, Connection, Rule};
use crate::direct::Query;
use crate::examples::M;
use crate::expected::LISTED_MOST;
use crate::reference::accepted;
use crate::store::{by_list, kept, to_words, Sequence};
use crate::timetable::{clock, Timetable, LAST_MINUTE};

/// The W line that is added to timetable M.
pub const WALK: &str = "W,2,2,4,15";

/// Document 02, Nine: "timetable M with `W,2,2,4,15` added".
pub fn platform() -> Timetable {
    accepted(&M.replacen("T,", &format!("{WALK}\nT,"), 1))
}

/// All sources of a timetable.
pub fn sources(timetable: &Timetable) -> impl Iterator<Item = u32> {
    1..=timetable.stations.len() as u32
}

/// All pairs of two different stations.
pub fn pairs(timetable: &Timetable) -> Vec<(u32, u32)> {
    let others = |from: u32| sources(timetable).filter(move |&to| to != from).map(move |to| (from, to));
    sources(timetable).flat_map(others).collect()
}

/// All minutes that a query can name.
pub fn minutes() -> impl Iterator<Item = u32> {
    0..=LAST_MINUTE.into()
}

/// The displays of a timetable by one rule: for each source all connections, and the sequences that are stored.
pub struct Displays(Vec<(Vec<Connection>, BTreeSet<Sequence>)>);

impl Displays {
    pub fn new(timetable: &Timetable, rule: Rule) -> Displays {
        let display = |source: u32| {
            let list = list_by(timetable, source, LISTED_MOST, rule).expect("a list that is not too long");
            let sequences = by_list(&list, source);
            (list, sequences)
        };
        Displays(sources(timetable).map(display).collect())
    }

    /// The words of a source's store.
    pub fn store(&self, source: u32) -> Vec<u16> {
        to_words(&self.0[source as usize - 1].1).expect("a store that is made")
    }

    /// The rows of a query from the store of its source.
    pub fn rows(&self, query: Query) -> Vec<Connection> {
        let (list, sequences) = &self.0[query.from as usize - 1];
        rows(kept(list, sequences, query), query.minute)
    }
}

/// A store that differs.
#[derive(Debug)]
pub struct OtherStore {
    pub source: u32,
    pub before: Vec<u16>,
    pub now: Vec<u16>,
}

/// Answers that differ: those of one pair of stations at all minutes from the first to the last, at which the rows are
/// the same but for their durations.
#[derive(Debug)]
pub struct OtherAnswers {
    pub from: u32,
    pub to: u32,
    pub first: u32,
    pub last: u32,
    pub before: Vec<Connection>,
    pub now: Vec<Connection>,
}

impl OtherAnswers {
    /// How many they are.
    fn count(&self) -> usize {
        (self.last + 1 - self.first) as usize
    }
}

/// The stores that differ between the displays of a timetable.
pub fn other_stores(timetable: &Timetable, before: &Displays, now: &Displays) -> Vec<OtherStore> {
    let stores =
        sources(timetable).map(|source| OtherStore { source, before: before.store(source), now: now.store(source) });
    stores.filter(|store| store.before != store.now).collect()
}

/// The answers that differ between the displays of a timetable.
pub fn other_answers(timetable: &Timetable, before: &Displays, now: &Displays) -> Vec<OtherAnswers> {
    let mut found: Vec<OtherAnswers> = Vec::new();
    for (from, to) in pairs(timetable) {
        for minute in minutes() {
            let query = Query { from, to, minute };
            let (before, now) = (before.rows(query), now.rows(query));
            if before == now {
                continue;
            }
            let goes_on = |one: &&mut OtherAnswers| {
                (one.from, one.to, one.last + 1) == (from, to, minute) && (&one.before, &one.now) == (&before, &now)
            };
            match found.last_mut().filter(goes_on) {
                Some(run) => run.last = minute,
                None => found.push(OtherAnswers { from, to, first: minute, last: minute, before, now }),
            }
        }
    }
    found
}

/// The page `docs/two-rules.md`.
pub fn page() -> String {
    let timetable = platform();
    let [before, now] = [Rule::BothOpen, Rule::WalkFirst].map(|rule| Displays::new(&timetable, rule));
    let stores = other_stores(&timetable, &before, &now);
    let answers = other_answers(&timetable, &before, &now);
    let all = [sources(&timetable).count(), pairs(&timetable).len() * minutes().count()].map(grouped);
    let differ = [stores.len(), answers.iter().map(OtherAnswers::count).sum()].map(grouped);
    format!(
        "\
# Two rules for one platform

Some stations have both an S line and a W line from the station to itself. There the W line goes first: the S values do
not apply to changes (document 02, Nine). Before, both ways of changing were open (document 02, One). For one timetable
this page lists each store and each query answer that differs from before; every other one is as it was.

`cargo run --release --bin two_rules` in `tests/` printed it: that program lists every connection by either rule, and
compares the stores of all sources and the answers for all pairs of two stations at all minutes from 0 to 2,879.
`tests/tests/two_rules.rs` holds the page to the program, and the library to what stands under \"now\".

## The timetable

Timetable M of document 01, with `{WALK}` added. Trip 1 reaches station 2 at 08:20: by the S line a rider was ready at
08:23 to board another trip, by the W line at 08:24.

```
{timetable}```

## Stores

Stores that differ: {} of {}.
{}
## Query answers

Answers that differ: {} of {}. A row is told by the minute of its arrival, which is the same at all minutes of a table;
its duration is that minute less the query's.
{}",
        differ[0],
        all[0],
        stores_table(&stores),
        differ[1],
        all[1],
        answers.iter().map(answers_table).collect::<String>(),
    )
}

fn stores_table(stores: &[OtherStore]) -> String {
    let line = |OtherStore { source, before, now }: &OtherStore| {
        format!("| {source} | `{}` | `{}` |\n", numbers(before), numbers(now))
    };
    format!("\n| source | before | now |\n|---|---|---|\n{}", stores.iter().map(line).collect::<String>())
}

fn answers_table(answers: &OtherAnswers) -> String {
    let OtherAnswers { from, to, first, last, before, now } = answers;
    let time = |minute: &u32| clock(*minute as u16);
    let ride = |[trip, board, alight]: &[u32; 3]| format!("trip {trip} from stop {board} to {alight}");
    let line = |when: &str, row: &Connection| {
        let rides: Vec<String> = row.rides.iter().map(ride).collect();
        let (arrive, at) = (row.arrive, time(&row.arrive));
        format!("| {when} | {arrive} ({at}) | {} | {} |\n", row.penalty, rides.join(", "))
    };
    let lines = |when: &str, rows: &[Connection]| match rows {
        [] => format!("| {when} | none: 14 | | |\n"),
        _ => rows.iter().map(|row| line(when, row)).collect(),
    };
    format!(
        "
From station {from} to station {to} at minutes {first} to {last} ({} to {}):

| | arrival | points | rides |
|---|---|---|---|
{}{}",
        time(first),
        time(last),
        lines("before", before),
        lines("now", now),
    )
}

/// Numbers apart by commas.
fn numbers(numbers: &[u16]) -> String {
    numbers.iter().map(u16::to_string).collect::<Vec<_>>().join(",")
}

/// A number with a comma before its last three digits, where it has more.
fn grouped(number: usize) -> String {
    if number < 1_000 {
        number.to_string()
    } else {
        format!("{},{:03}", number / 1_000, number % 1_000)
    }
}

#[cfg(test)]
mod tests {
    use super::*;

    /// The answers that differ with these trips in place of M's.
    fn runs(trips: &str) -> Vec<OtherAnswers> {
        let timetable = accepted(&format!("{}{trips}", platform().without_trips()));
        let [before, now] = [Rule::BothOpen, Rule::WalkFirst].map(|rule| Displays::new(&timetable, rule));
        other_answers(&timetable, &before, &now)
    }

    /// Stations, first and last minute, and the arrivals of the rows before and now.
    fn told(runs: &[OtherAnswers]) -> Vec<([u32; 4], Vec<u32>, Vec<u32>)> {
        let arrivals = |rows: &[Connection]| rows.iter().map(|row| row.arrive).collect();
        let tell =
            |run: &OtherAnswers| ([run.from, run.to, run.first, run.last], arrivals(&run.before), arrivals(&run.now));
        runs.iter().map(tell).collect()
    }

    #[test]
    fn a_run_ends_where_either_answer_is_another() {
        // the 08:00 reached a slow and cheap trip by the S line alone, the 09:00 does not
        let before = "T,1,1,1,,08:00,0,0\nT,1,2,2,08:20,,,0\nT,2,1,1,,09:00,0,0\nT,2,2,2,09:20,,,0\n\
            T,3,1,2,,10:00,20,0\nT,3,2,3,10:20,,,0\nT,4,1,2,,08:23,0,0\nT,4,2,3,10:30,,,0\n";
        assert_eq!(
            told(&runs(before)),
            [([1, 3, 0, 480], vec![620, 630], vec![620]), ([1, 3, 481, 540], vec![620], vec![620])]
        );
        // a direct ride at 08:00 is slower than a change, dearer than one by the S line and cheaper than one on foot
        let now = "T,1,1,1,,08:00,12,0\nT,1,2,3,10:30,,,0\n\
            T,2,1,1,,09:00,0,0\nT,2,2,2,09:20,,,0\nT,3,1,2,,10:00,0,0\nT,3,2,3,10:20,,,0\n";
        assert_eq!(
            told(&runs(now)),
            [([1, 3, 0, 480], vec![620], vec![620, 630]), ([1, 3, 481, 540], vec![620], vec![620])]
        );
    }

    #[test]
    fn an_answer_without_rows_is_told_by_its_number() {
        let lost = runs("T,1,1,1,,08:00,0,0\nT,1,2,2,08:20,,,0\nT,2,1,2,,08:23,0,0\nT,2,2,3,08:40,,,0\n");
        assert_eq!(told(&lost), [([1, 3, 0, 480], vec![520], vec![])]);
        assert!(answers_table(&lost[0]).ends_with("| now | none: 14 | | |\n"));
    }

    #[test]
    fn numbers_in_groups_of_three() {
        assert_eq!([0, 999, 1_000, 17_280].map(grouped), ["0", "999", "1,000", "17,280"]);
    }
}
