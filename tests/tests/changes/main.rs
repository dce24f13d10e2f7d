//! Cancelled and extra trips: after each change both tables are those of the trips that now run, word by word.

mod days;
mod extra_lines;
mod limits;
mod refusals;
mod sequences;
mod tables;

use dairyepoch_tests::direct::Query;
use dairyepoch_tests::ffi::{self, Reply};
use dairyepoch_tests::host::{Host, QUERY_WORDS};
use dairyepoch_tests::lent::Lent;
use dairyepoch_tests::lines::{self, WORK_WORDS};
use dairyepoch_tests::random::Random;
use dairyepoch_tests::reference::accepted;
use dairyepoch_tests::timetable::Timetable;
use dairyepoch_tests::words::to_words;

/// A control room: a timetable and its line tables, which every change is made in.
struct Room {
    host: Host,
    tables: Lent,
}

impl Room {
    fn new(timetable: &Timetable) -> Room {
        Room { host: Host::new(1), tables: Lent::new(timetable, &mut Random::new(2)) }
    }

    fn text(text: &str) -> Room {
        Room::new(&accepted(text))
    }

    fn cancel(&mut self, trip: u32) -> Reply {
        self.tables.cancel(&mut self.host, trip)
    }

    fn add(&mut self, trip: u32, text: impl AsRef<[u8]>) -> Reply {
        self.tables.add(&mut self.host, trip, text)
    }

    /// A change that is made, after which there are so many lines.
    fn cancels(&mut self, trip: u32, lines: usize) {
        assert_eq!(self.cancel(trip), Reply::done(lines), "cancelling {trip}");
    }

    fn adds(&mut self, trip: u32, text: impl AsRef<[u8]>, lines: usize) {
        assert_eq!(self.add(trip, text), Reply::done(lines), "adding {trip}");
    }

    /// An extra trip that is refused with this number and line.
    fn refuses(&mut self, trip: u32, text: impl AsRef<[u8]>, number: u32, line: u32) {
        let text = text.as_ref();
        assert_eq!(self.add(trip, text), Reply { number, beside: line }, "adding {trip} by\n{}", text.escape_ascii());
    }

    /// Fails unless both tables are those of the timetable.
    fn holds(&self, timetable: &Timetable) {
        let Lent { timetable: words, lines: tables } = &self.tables;
        let (table, line_table) = (to_words(timetable), lines::to_words(timetable));
        assert_eq!(words[..table.len()], table, "the words of\n{timetable}");
        assert_eq!(tables[..line_table.len()], line_table, "the line tables of\n{timetable}");
    }

    /// The numbers of each line's trips, as the line tables have them.
    fn lines(&mut self) -> Vec<Vec<u16>> {
        let tables = &self.tables.lines;
        let trips = |line| tables[self.host.line_trips(tables, line).piece()].to_vec();
        (1..=tables[1].into()).map(trips).collect()
    }

    /// The words of a query's rows from the store that is made now, or the number of the refusal.
    fn rows(&mut self, from: u32, to: u32, minute: u32) -> Result<Vec<u32>, u32> {
        let Lent { timetable, lines } = &self.tables;
        let (mut work, mut store, mut answer) = (vec![0; WORK_WORDS], vec![0; 1_000], vec![u32::MAX; QUERY_WORDS]);
        assert_eq!(ffi::make_store(timetable, lines, &mut work, from, &mut store).number, 0);
        let query = Query { from, to, minute };
        let reply = self.host.query(self.tables.with(&store), query);
        assert_eq!(ffi::query(self.tables.with(&store), &mut work, query, &mut answer), reply);
        answer.truncate(answer.iter().position(|&word| word == u32::MAX).unwrap_or(answer.len()));
        if reply.number == 0 {
            Ok(answer)
        } else {
            Err(reply.number)
        }
    }
}

/// Trip 2 of M under any number.
fn second(trip: u32) -> String {
    format!("T,{trip},1,2,,08:23,0,0\nT,{trip},2,3,08:40,,,0\n")
}
