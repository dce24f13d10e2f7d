//! The planner's program beside the independent implementation: whatever it says of sequences, rows, mistakes and
//! differences is worked out again from the list of all connections, or by a search of the whole timetable.

use std::collections::BTreeSet;
use std::env::temp_dir;
use std::fs;
use std::mem::swap;
use std::path::{Path, PathBuf};
use std::process::{self, Command};

use dairyepoch_tests::connections::{self, ways, Connection, Rule, Transfer, Way};
use dairyepoch_tests::damage::damaged;
use dairyepoch_tests::direct::Query;
use dairyepoch_tests::generate::{changing, crowded, rural, timetable, CHANGING, CROWDED, MIDDLING, SMALL};
use dairyepoch_tests::random::Random;
use dairyepoch_tests::reference;
use dairyepoch_tests::search::{patterns, whole, Network};
use dairyepoch_tests::store::{self, Sequence, Store};
use dairyepoch_tests::timetable::{clock, Stop, Timetable, MARKS};

const PROGRAM: &str = concat!(env!("CARGO_MANIFEST_DIR"), "/../target/planner");
/// A list of more connections is not looked through.
const LIST_MOST: usize = 3_000;

/// A folder of its own for each test, with the timetables that the program reads.
struct Folder(PathBuf);

/// What the program printed, and how it ended.
struct Printed {
    output: String,
    code: i32,
}

impl Folder {
    fn new(test: &str) -> Folder {
        let folder = temp_dir().join(format!("dairyepoch-{test}-{}", process::id()));
        fs::create_dir_all(&folder).expect("a folder for the test");
        Folder(folder)
    }

    fn write(&self, name: &str, text: &[u8]) -> String {
        let path = self.0.join(name);
        fs::write(&path, text).expect("a file in the test's folder");
        path.to_str().expect("a path of letters").to_owned()
    }
}

impl Drop for Folder {
    fn drop(&mut self) {
        let _ = fs::remove_dir_all(&self.0);
    }
}

/// Runs the program; what it tells on standard error must be nothing, as all these inputs are good ones.
fn planner(arguments: &[&str]) -> Printed {
    let output = Command::new(PROGRAM).args(arguments).output().expect("target/planner, which planner/build builds");
    assert!(output.stderr.is_empty(), "{arguments:?} told {}", String::from_utf8_lossy(&output.stderr));
    let code = output.status.code().expect("an exit code");
    Printed { output: String::from_utf8(output.stdout).expect("plain text"), code }
}

/// The lines that the program prints with `--csv`, without the first, field by field.
fn csv(arguments: &[&str]) -> Vec<Vec<String>> {
    let printed = planner(&[arguments, &["--csv"]].concat());
    assert_eq!(printed.code, 0);
    printed.output.lines().skip(1).map(|line| line.split(',').map(str::to_owned).collect()).collect()
}

fn stations(timetable: &Timetable) -> impl Iterator<Item = u32> {
    1..=timetable.stations.len() as u32
}

/// All pairs of two different stations.
fn pairs(timetable: &Timetable) -> Vec<(u32, u32)> {
    let others = |from: u32| stations(timetable).filter(move |&to| to != from).map(move |to| (from, to));
    stations(timetable).flat_map(others).collect()
}

fn sequences(network: &Network, source: u32) -> BTreeSet<Sequence> {
    let words = patterns(network, source).expect("few patterns").to_words();
    Store::from_words(&words).expect("a store").sequences()
}

/// A change as the program writes it, its two stations apart by `on_foot` if they differ.
fn named((alighted, boarded): Transfer, on_foot: &str) -> String {
    if alighted == boarded {
        alighted.to_string()
    } else {
        format!("{alighted}{on_foot}{boarded}")
    }
}

/// Source, changes and target as the program writes them, apart by `between`.
fn spelled(source: u32, (changes, target): &Sequence, between: &str, on_foot: &str) -> String {
    let mut names = vec![source.to_string()];
    names.extend(changes.iter().map(|&change| named(change, on_foot)));
    names.push(target.to_string());
    names.join(between)
}

fn minute(clock: &str) -> u32 {
    let (hours, minutes) = clock.split_once(':').expect("hh:mm");
    60 * hours.parse::<u32>().expect("hours") + minutes.parse::<u32>().expect("minutes")
}

fn stop(timetable: &Timetable, trip: u32, number: u32) -> Stop {
    timetable.trips[&(trip as u16)][number as usize - 1]
}

/// Departure and station, arrival and station of each ride, in what a rider reads.
fn read_rides(timetable: &Timetable, connection: &Connection) -> Vec<[u32; 4]> {
    let read = |&[trip, board, alight]: &[u32; 3]| {
        let (board, alight) = (stop(timetable, trip, board), stop(timetable, trip, alight));
        let depart = board.onward.expect("a stop boarded at has a departure").depart;
        let arrive = alight.arrive.expect("a stop alighted at has an arrival");
        [depart, board.station, arrive, alight.station].map(u32::from)
    };
    connection.rides.iter().map(read).collect()
}

fn generated(random: &mut Random) -> Timetable {
    match random.below(4) {
        0 => timetable(random, &SMALL),
        1 => crowded(random, &CROWDED),
        _ => changing(random, &CHANGING),
    }
}

fn compare_sequences(folder: &Folder, timetable: &Timetable, sources: impl Iterator<Item = u32>) -> usize {
    let path = folder.write("timetable.txt", &timetable.to_text());
    let network = Network::new(timetable);
    let mut count = 0;
    for source in sources {
        let mut shown = BTreeSet::new();
        for line in csv(&["sequences", &path, &source.to_string()]) {
            assert_eq!(line[0], source.to_string());
            shown.insert((line[3].clone(), line[1].clone(), line[2].clone()));
        }
        let expected: BTreeSet<(String, String, String)> = (sequences(&network, source).iter())
            .map(|sequence| (spelled(source, sequence, " ", "-"), sequence.1.to_string(), sequence.0.len().to_string()))
            .collect();
        assert_eq!(shown, expected, "source {source} of\n{timetable}");
        count += expected.len();
    }
    count
}

#[test]
fn sequences_are_those_of_the_reference() {
    let folder = Folder::new("sequences");
    let mut random = Random::new(1);
    let mut count = 0;
    for _ in 0..120 {
        let timetable = generated(&mut random);
        count += compare_sequences(&folder, &timetable, stations(&timetable));
    }
    assert!(count > 500, "{count} sequences");
    compare_sequences(&folder, &rural(&mut random, 8), [1, 30, 64].into_iter());
}

/// Each reason is a connection of the sequence, feasible at its minute, whose cost no connection dominates.
fn check_reasons(folder: &Folder, timetable: &Timetable, source: u32) -> usize {
    let path = folder.write("timetable.txt", &timetable.to_text());
    let network = Network::new(timetable);
    let lines = csv(&["sequences", &path, &source.to_string(), "--why"]);
    assert_eq!(lines.len(), sequences(&network, source).len());
    for line in &lines {
        let [source, to] = [&line[0], &line[1]].map(|station| station.parse().expect("a station"));
        let query = Query { from: source, to, minute: minute(&line[4]) };
        let cost = (line[5].parse().expect("minutes"), line[6].parse().expect("points"));
        assert!(
            whole(&network, query).iter().any(|row| row.cost(query.minute) == cost),
            "{cost:?} is not optimal for {query:?} of\n{timetable}"
        );
        check_rides(timetable, query, cost, line);
    }
    lines.len()
}

/// The rides of a reason lead along its stations, each change is in time, and they cost what they are said to.
fn check_rides(timetable: &Timetable, query: Query, cost: (u32, u32), line: &[String]) {
    let ways = ways(timetable, Rule::WalkFirst);
    let mut names = vec![query.from.to_string()];
    let (mut arrived, mut penalty, mut at) = (query.minute, 0, query.from as u16);
    for (number, ride) in line[7].split(' ').enumerate() {
        let numbers: Vec<u32> = ride.split([':', '-']).map(|number| number.parse().expect("a number")).collect();
        let [trip, board, alight] = numbers[..] else { panic!("{ride} is no ride") };
        assert!(board < alight);
        let [boarded, alighted] = [board, alight].map(|number| stop(timetable, trip, number));
        assert!(boarded.may_board() && alighted.may_alight());
        let depart = u32::from(boarded.onward.expect("a departure").depart);
        if number == 0 {
            assert!(boarded.station == at && depart >= query.minute);
        } else {
            let leads = |way: &&Way| (way.from, way.to) == (at, boarded.station);
            let way = ways.iter().find(leads).expect("a way of changing");
            assert!(arrived + way.minutes <= depart);
            penalty += way.penalty;
            names.push(named((at, boarded.station), "-"));
        }
        penalty += (board..alight)
            .map(|at| u32::from(stop(timetable, trip, at).onward.expect("a ride onward").penalty))
            .sum::<u32>();
        (arrived, at) = (alighted.arrive.expect("an arrival").into(), alighted.station);
    }
    names.push(at.to_string());
    assert_eq!((arrived - query.minute, penalty), cost);
    assert_eq!(names.join(" "), line[3]);
}

#[test]
fn each_sequence_has_a_reason() {
    let folder = Folder::new("reasons");
    let mut random = Random::new(2);
    let mut count = 0;
    for _ in 0..70 {
        let timetable = generated(&mut random);
        count += stations(&timetable).map(|source| check_reasons(&folder, &timetable, source)).sum::<usize>();
    }
    assert!(count > 300, "{count} sequences");
    check_reasons(&folder, &rural(&mut random, 2), 1);
}

/// The lines of a row as `planner ask --csv` writes them.
fn row_lines(timetable: &Timetable, number: usize, row: &Connection, minute: u32) -> Vec<Vec<String>> {
    let (duration, penalty) = row.cost(minute);
    let read = read_rides(timetable, row);
    let line = |ride: usize| {
        let ([trip, board, alight], [depart, from, arrive, to]) = (row.rides[ride], read[ride]);
        let mut fields: Vec<String> = [number as u32, duration, penalty, ride as u32 + 1, trip, board, from]
            .map(|field| field.to_string())
            .into();
        fields.extend([clock(depart as u16), alight.to_string(), to.to_string(), clock(arrive as u16)]);
        fields
    };
    (0..row.rides.len()).map(line).collect()
}

/// Asks as a rider would; how many rows there were.
fn compare_rows(timetable: &Timetable, path: &str, network: &Network, query: Query) -> usize {
    let Query { from, to, minute } = query;
    let (from, to, time) = (from.to_string(), to.to_string(), clock(minute as u16));
    let rows = whole(network, query);
    if rows.is_empty() {
        let printed = planner(&["ask", path, &from, &to, &time]);
        assert_eq!(printed.code, 1, "{query:?} of\n{timetable}");
        let minutes = network.minutes(query.from);
        let last = minutes.iter().rev().find(|&&minute| !whole(network, Query { minute, ..query }).is_empty());
        let expected = last.map_or("There is none at any time.".to_owned(), |&minute| {
            format!("There is none from this minute on: the last one left at {}.", clock(minute as u16))
        });
        assert_eq!(printed.output.lines().nth(1), Some(&expected[..]), "{query:?} of\n{timetable}");
        return 0;
    }
    let expected: Vec<Vec<String>> =
        (1..).zip(&rows).flat_map(|(number, row)| row_lines(timetable, number, row, minute)).collect();
    assert_eq!(csv(&["ask", path, &from, &to, &time]), expected, "{query:?} of\n{timetable}");
    rows.len()
}

#[test]
fn rows_are_those_of_the_reference() {
    let folder = Folder::new("rows");
    let mut random = Random::new(3);
    let mut tally = [0; 3];
    for timetable in (0..60).map(|_| generated(&mut random)).chain([rural(&mut Random::new(4), 4)]).collect::<Vec<_>>()
    {
        let pairs = pairs(&timetable);
        if pairs.is_empty() {
            continue;
        }
        let path = folder.write("timetable.txt", &timetable.to_text());
        let network = Network::new(&timetable);
        for _ in 0..20 {
            let (from, to) = random.pick(&pairs);
            let minutes: Vec<u32> = network.minutes(from).into_iter().flat_map(|minute| [minute, minute + 1]).collect();
            let minute = if minutes.is_empty() { 0 } else { random.pick(&minutes).min(2_879) };
            tally[compare_rows(&timetable, &path, &network, Query { from, to, minute }).min(2)] += 1;
        }
    }
    assert!(tally.iter().all(|&count| count > 50), "queries by rows: {tally:?}");
}

/// The minute of the first row that each mistake loses, worked out from the list of all connections.
fn first_losses(timetable: &Timetable, list: &[Connection], from: u32, to: u32) -> [Option<u32>; 3] {
    let all: Vec<&Connection> = store::feasible(list, Query { from, to, minute: 0 }).collect();
    let minutes: BTreeSet<u32> = list.iter().map(|connection| connection.depart).collect();
    let ways = ways(timetable, Rule::WalkFirst);
    let taken = |connection: &Connection| connection.arrive - connection.depart;
    let slower = |row: &Connection| {
        let quicker = |other: &&Connection| {
            other.depart < row.depart && taken(other) < taken(row) && other.penalty <= row.penalty
        };
        all.iter().any(quicker)
    };
    let hurried = |&[trip, board, alight]: &[u32; 3]| {
        (board + 1..alight).map(|number| stop(timetable, trip, number)).any(|stop| {
            let stands = stop.onward.expect("a ride onward").depart - stop.arrive.expect("an arrival");
            let change = |way: &&Way| (way.from, way.to) == (stop.station, stop.station);
            u32::from(stands) < ways.iter().find(change).expect("a change at each station").minutes
        })
    };
    let mut losses = [None; 3];
    for &minute in &minutes {
        let rows = connections::rows(store::feasible(list, Query { from, to, minute }), minute);
        for (number, row) in rows.iter().enumerate() {
            let lost = [slower(row), row.rides.iter().any(hurried), number > 0];
            for (loss, lost) in losses.iter_mut().zip(lost) {
                if lost && loss.is_none() {
                    *loss = Some(minute);
                }
            }
        }
    }
    losses
}

/// A line of the table that `planner mistakes` prints.
fn table_line(from: u32, to: u32, losses: [Option<u32>; 3]) -> String {
    let [slower, seated, quickest] = losses.map(|loss| loss.map_or("-".to_owned(), |minute| clock(minute as u16)));
    format!("{slower:<8}{seated:<8}{quickest:<10}{from} > {to}")
}

#[test]
fn mistakes_are_those_of_the_list() {
    let folder = Folder::new("mistakes");
    let mut random = Random::new(5);
    let mut tally = [0; 3];
    for _ in 0..200 {
        let timetable = generated(&mut random);
        let lists: Option<Vec<Vec<Connection>>> =
            stations(&timetable).map(|source| connections::list(&timetable, source, LIST_MOST)).collect();
        let Some(lists) = lists else { continue };
        let mut expected = Vec::new();
        for (from, to) in pairs(&timetable) {
            let list = &lists[from as usize - 1];
            if list.iter().any(|connection| u32::from(connection.to) == to) {
                let losses = first_losses(&timetable, list, from, to);
                tally.iter_mut().zip(losses).for_each(|(count, loss)| *count += usize::from(loss.is_some()));
                expected.push(table_line(from, to, losses));
            }
        }
        let path = folder.write("timetable.txt", &timetable.to_text());
        let printed = planner(&["mistakes", &path]);
        let shown: Vec<&str> = printed.output.lines().skip(3).take_while(|line| !line.is_empty()).collect();
        assert_eq!(shown, expected, "the mistakes of\n{timetable}");
        assert_eq!(printed.code, 0);
    }
    assert!(tally.iter().all(|&count| count > 50), "pairs that lose a row: {tally:?}");
}

/// A timetable with one trip left out, with another mark at a stop, or with one station quicker to change at.
fn varied(random: &mut Random, timetable: &Timetable) -> Timetable {
    let mut varied = timetable.clone();
    match random.below(4) {
        0 | 1 if !varied.trips.is_empty() => {
            varied.trips.remove(&(random.within(1..=timetable.trips.len()) as u16));
            let renumbered = Timetable::new(varied.stations, varied.trips.into_values());
            varied = Timetable { walks: varied.walks, ..renumbered };
        }
        2 if !varied.trips.is_empty() => {
            let mut stops: Vec<&mut Stop> = varied.trips.values_mut().flatten().collect();
            let at = random.below(stops.len());
            stops[at].mark = random.pick(&MARKS);
        }
        _ => {
            let station = random.below(timetable.stations.len());
            varied.stations[station].change_minutes = 0;
            varied.stations[station].change_penalty = 1;
        }
    }
    varied
}

/// Cost and rides of a row.
type ReadRow = ((u32, u32), Vec<[u32; 4]>);

/// What a rider reads of the rows of a query, but for the numbers of the trips.
fn read_rows(timetable: &Timetable, network: &Network, query: Query) -> Vec<ReadRow> {
    let read = |row: &Connection| (row.cost(query.minute), read_rides(timetable, row));
    whole(network, query).iter().map(read).collect()
}

/// The sequences lost and gained, and how many answers differ at a minute.
struct Differences {
    lost: BTreeSet<String>,
    gained: BTreeSet<String>,
    answers: usize,
}

impl Differences {
    fn new(old: &Timetable, new: &Timetable, minute: u32) -> Differences {
        let [before, after] = [old, new].map(Network::new);
        let mut differences = Differences { lost: BTreeSet::new(), gained: BTreeSet::new(), answers: 0 };
        for source in stations(old) {
            let [before, after] = [&before, &after].map(|network| sequences(network, source));
            let only = |one: &BTreeSet<Sequence>, other: &BTreeSet<Sequence>| -> Vec<String> {
                one.difference(other).map(|sequence| spelled(source, sequence, " > ", " on foot to ")).collect()
            };
            differences.lost.extend(only(&before, &after));
            differences.gained.extend(only(&after, &before));
        }
        for (from, to) in pairs(old) {
            let query = Query { from, to, minute };
            differences.answers += usize::from(read_rows(old, &before, query) != read_rows(new, &after, query));
        }
        differences
    }

    /// The last line that the program prints.
    fn summary(&self) -> String {
        let Differences { lost, gained, answers } = self;
        let sequences = if lost.len() == 1 { "" } else { "s" };
        let differ = if *answers == 1 { " differs" } else { "s differ" };
        format!("{} sequence{sequences} lost, {} gained; {answers} answer{differ}", lost.len(), gained.len())
    }
}

#[test]
fn differences_are_those_of_the_reference() {
    let folder = Folder::new("compare");
    let mut random = Random::new(6);
    let mut tally = [0; 3];
    for _ in 0..350 {
        let mut old = generated(&mut random);
        let mut new = varied(&mut random, &old);
        if random.one_in(2) {
            swap(&mut old, &mut new);
        }
        let minute = Network::new(&old).hops.first().map_or(0, |hop| hop.depart);
        let expected = Differences::new(&old, &new, minute);
        let [old_path, new_path] =
            [("old.txt", &old), ("new.txt", &new)].map(|(name, timetable)| folder.write(name, &timetable.to_text()));
        let printed = planner(&["compare", &old_path, &new_path, "--at", &clock(minute as u16)]);
        let told = |what: &str| -> BTreeSet<String> {
            printed.output.lines().filter_map(|line| line.strip_prefix(what)).map(str::to_owned).collect()
        };
        assert_eq!(told("  lost      "), expected.lost, "lost from\n{old}to\n{new}");
        assert_eq!(told("  gained    "), expected.gained, "gained from\n{old}to\n{new}");
        assert_eq!(printed.output.lines().last(), Some(&expected.summary()[..]), "from\n{old}to\n{new}");
        let counts = [expected.lost.len(), expected.gained.len(), expected.answers];
        tally.iter_mut().zip(counts).for_each(|(sum, count)| *sum += count);
    }
    assert!(tally.iter().all(|&count| count > 50), "lost, gained and answers: {tally:?}");
}

#[test]
fn stores_are_written_word_by_word() {
    let folder = Folder::new("stores");
    let mut random = Random::new(7);
    for _ in 0..20 {
        let timetable = timetable(&mut random, &MIDDLING);
        let path = folder.write("timetable.txt", &timetable.to_text());
        assert_eq!(planner(&["stores", &path, folder.0.to_str().expect("a path of letters")]).code, 0);
        let network = Network::new(&timetable);
        for source in stations(&timetable) {
            let bytes = fs::read(folder.0.join(Path::new(&format!("{source}.store")))).expect("a store");
            let words: Vec<u16> = bytes.chunks(2).map(|pair| u16::from_le_bytes([pair[0], pair[1]])).collect();
            assert_eq!(words, patterns(&network, source).expect("few patterns").to_words());
        }
    }
}

#[test]
fn texts_that_came_to_harm_are_refused_in_words() {
    let folder = Folder::new("check");
    let mut random = Random::new(8);
    let mut tally = [0; 8];
    for _ in 0..1_500 {
        let whole = timetable(&mut random, &SMALL).to_text();
        let text = damaged(&mut random, &whole);
        let path = folder.write("t", &text);
        let printed = planner(&["check", &path]);
        let mut lines = printed.output.lines();
        match reference::read(&text) {
            Ok(timetable) => {
                assert_eq!((printed.code, lines.next()), (0, Some(&format!("{path}: accepted")[..])));
                let stations = format!("  {:<14} {:>5}", "stations", timetable.stations.len());
                assert_eq!(lines.next(), Some(&stations[..]));
                tally[0] += 1;
            }
            Err(refusal) => {
                assert_eq!(printed.code, 1);
                assert!(lines.next().expect("a first line").ends_with(&format!("line {}", refusal.line)));
                assert!(lines.next().expect("a second line").starts_with(&format!("number {}: ", refusal.number)));
                assert!(printed.output.contains("\nwrong: ") && printed.output.contains("\nright: "));
                tally[refusal.number as usize] += 1;
            }
        }
        assert!(printed.output.lines().all(|line| line.len() <= 80), "{}", printed.output);
    }
    assert!([0, 2, 3, 4, 6, 7].iter().all(|&number| tally[number] > 10), "by number: {tally:?}");
}
