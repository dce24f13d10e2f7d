/*
 * Dairyepoch: connections for stop displays.
 *
 * Order of calls: read and build once, make a store once for each source, query often.
 *
 *   dairyepoch_read          a timetable text into words              once for each timetable
 *   dairyepoch_build_lines   the line tables of these words           once for each timetable
 *   dairyepoch_make_store    the store of a source                    once for each source
 *   dairyepoch_query         the rows for a rider, from that store    whenever one asks
 *   dairyepoch_cancel_trip   a trip taken out of words and tables     whenever one does not run
 *   dairyepoch_add_trip      an extra trip put into them              whenever one runs besides
 *
 * After a change queries are answered from the stores that there are, for the running trips: make the stores again when
 * there is time, and every connection is found again. examples/changes.c shows a day with changes.
 *
 * The other calls can be left out: dairyepoch_direct answers with single rides and needs no store; the calls that check
 * judge words that a host was handed, as every later call does by itself; dairyepoch_times_by_trip and
 * dairyepoch_times_by_stop translate line tables to another layout and back. examples/host.c is a whole host.
 *
 * No call keeps anything between calls, allocates memory, or reads or writes anything but what is lent to it. Every
 * call ends, whatever the lent bytes and words are: the reply tells what is wrong with them. The caller sees to one
 * thing only: a pointer and the length after it describe memory that is there, aligned for its type, and the slices
 * lent to one call do not overlap. Lengths count bytes for a text and words for a table.
 * A pointer may be null where its length is 0.
 *
 * A reply is 64 bits. The upper 32 are its number: 0 for success, or else the number of the first question that the
 * call had to answer with no. The lower 32 are a count on success; on a refusal they are the line for the numbers 1
 * to 7, and 0 for all others. A call that refuses has written no word of any result.
 */
#ifndef DAIRYEPOCH_H
#define DAIRYEPOCH_H

#include <stddef.h>
#include <stdint.h>

#ifdef __cplusplus
extern "C" {
#endif

/*
 * What a timetable has at most: bytes of text, stations, walks, trips that run, and stops on all of them; the rides of
 * a pattern that a store may hold; and the minutes of two days. In a text trips are numbered 1, 2, 3..; an extra trip
 * may have any free number up to the highest.
 */
#define DAIRYEPOCH_TEXT_BYTES_MOST 65536
#define DAIRYEPOCH_STATIONS_MOST 64
#define DAIRYEPOCH_WALKS_MOST 256
#define DAIRYEPOCH_TRIPS_MOST 256
#define DAIRYEPOCH_STOPS_MOST 2048
#define DAIRYEPOCH_TRIP_NUMBER_MOST 9999
#define DAIRYEPOCH_RIDES_MOST 64
#define DAIRYEPOCH_MINUTES 2880

/* The least length of a timetable slice, in 16-bit words. */
#define DAIRYEPOCH_TIMETABLE_WORDS 16384

/* The least length of a slice of line tables, in 16-bit words, and of working space, in 32-bit words. */
#define DAIRYEPOCH_LINES_WORDS 16384
#define DAIRYEPOCH_WORK_WORDS 16384

/* The words of the largest store: 16,383 prefix nodes and as many arcs. A slice that long is long enough for any. */
#define DAIRYEPOCH_STORE_WORDS_MOST 81917

/* The words of an answer's row that has one ride, as all rows of a direct query have. */
#define DAIRYEPOCH_DIRECT_ROW_WORDS 6

/*
 * More words than any answer has: durations rise from 1 to at most 2,879, and a row has 3 words and 3 for each of at
 * most 64 rides. Hardly any answer comes near; the program listing lends 16,384 words.
 */
#define DAIRYEPOCH_ANSWER_WORDS_MOST (2879 * (3 + 3 * DAIRYEPOCH_RIDES_MOST))

/*
 * The bytes of stack that each call needs at most, those of its own frame among them. A test runs the calls on a stack
 * of its own, over the timetables that take most, and holds these numbers to what was touched.
 */
#define DAIRYEPOCH_READ_STACK 25600
#define DAIRYEPOCH_CHECK_TIMETABLE_STACK 1024
#define DAIRYEPOCH_BUILD_LINES_STACK 8192
#define DAIRYEPOCH_CHECK_LINES_STACK 8192
#define DAIRYEPOCH_CHECK_LINES_ALONE_STACK 63488
#define DAIRYEPOCH_LINE_TRIPS_STACK 63488
#define DAIRYEPOCH_TIMES_BY_TRIP_STACK 8192
#define DAIRYEPOCH_TIMES_BY_STOP_STACK 8192
#define DAIRYEPOCH_DIRECT_STACK 20480
#define DAIRYEPOCH_MAKE_STORE_STACK 148480
#define DAIRYEPOCH_QUERY_STACK 81920
#define DAIRYEPOCH_CANCEL_TRIP_STACK 32768
#define DAIRYEPOCH_ADD_TRIP_STACK 65536

/*
 * The time of a call, in milliseconds, as `cargo run --release --bin bench` in tests/ measured it on one core of a
 * server for timetables at the limits, with the library as an older kit built it. A display takes longer by a factor
 * of its own.
 *
 *   dairyepoch_read                0.1
 *   dairyepoch_check_timetable     0.004
 *   dairyepoch_build_lines         0.01 for one line, 0.02 for 256; dairyepoch_check_lines likewise
 *   dairyepoch_check_lines_alone   0.02 for one line, 0.03 for 256; dairyepoch_line_trips likewise
 *   dairyepoch_times_by_trip       up to 1.3 times dairyepoch_check_lines; dairyepoch_times_by_stop up to 1.6 times
 *   dairyepoch_direct              0.02 for one line, 0.03 for 256 and for an answer of 507 rows, 0.04 at worst
 *   dairyepoch_make_store          2 to 3 on a rural timetable and on random trips, 7 at worst; 14 for one trip of
 *                                  2,048 stops; on a rural timetable with 64 walks 4 and 13 at worst, with 256 walks 8
 *                                  and 30 at worst; more in cases that docs/SPEED.md names
 *   dairyepoch_query               0.04 on a rural timetable; up to 12 for hundreds of rows, 30 for a store of
 *                                  thousands of sequences of equal cost, and more in cases that docs/SPEED.md names
 *   dairyepoch_cancel_trip         0.02 for one line, 0.03 on a rural timetable and for 256 lines
 *   dairyepoch_add_trip            likewise, and 0.05 for each thousand lines of its text
 */

/* The numbers of a reply. dairyepoch_words has words for each. */
enum dairyepoch_number {
    DAIRYEPOCH_DONE = 0,
    DAIRYEPOCH_TEXT_TOO_LONG = 1,      /* line 0 */
    DAIRYEPOCH_NO_SHAPE = 2,           /* from here to 6: the line, counted from 1 */
    DAIRYEPOCH_OUT_OF_RANGE = 3,
    DAIRYEPOCH_OUT_OF_PLACE = 4,
    DAIRYEPOCH_TOO_MANY = 5,
    DAIRYEPOCH_STOP_UNFIT = 6,         /* or a station of a walk */
    DAIRYEPOCH_ENDS_EARLY = 7,         /* the text's lines, plus one */
    DAIRYEPOCH_SLICE_TOO_SHORT = 8,    /* from here on no line: 0 */
    DAIRYEPOCH_NO_TIMETABLE = 9,
    DAIRYEPOCH_OTHER_LINES = 10,
    DAIRYEPOCH_NOT_LISTED = 11,
    DAIRYEPOCH_NO_MINUTE = 12,
    DAIRYEPOCH_STORE_ILL_MADE = 13,
    DAIRYEPOCH_NO_CONNECTION = 14,
    DAIRYEPOCH_RESULT_TOO_LONG = 15,
    DAIRYEPOCH_TRIP_NOT_RUNNING = 18,
    DAIRYEPOCH_TRIP_RUNNING = 19
};

/* What a reply of this number says, in words. docs/FORMAT.md tells what to do about each. */
static inline const char *dairyepoch_words(uint32_t number)
{
    switch (number) {
    case DAIRYEPOCH_DONE:
        return "done";
    case DAIRYEPOCH_TEXT_TOO_LONG:
        return "the text has more than 65,536 bytes";
    case DAIRYEPOCH_NO_SHAPE:
        return "the line has no known shape";
    case DAIRYEPOCH_OUT_OF_RANGE:
        return "a value is out of its range";
    case DAIRYEPOCH_OUT_OF_PLACE:
        return "the line is out of place";
    case DAIRYEPOCH_TOO_MANY:
        return "a station, walk, trip or stop too many";
    case DAIRYEPOCH_STOP_UNFIT:
        return "a station is not listed or is that of the stop before, or times do not follow each other";
    case DAIRYEPOCH_ENDS_EARLY:
        return "the text ends without a station or extra trip, or amid a trip";
    case DAIRYEPOCH_SLICE_TOO_SHORT:
        return "a lent slice is too short";
    case DAIRYEPOCH_NO_TIMETABLE:
        return "the timetable words come from no accepted text, changed or not";
    case DAIRYEPOCH_OTHER_LINES:
        return "the line tables are not those of the timetable words, or of no timetable";
    case DAIRYEPOCH_NOT_LISTED:
        return "a station or the line is not there, or from and to are one";
    case DAIRYEPOCH_NO_MINUTE:
        return "the minute is above 2,879";
    case DAIRYEPOCH_STORE_ILL_MADE:
        return "the store is not well made";
    case DAIRYEPOCH_NO_CONNECTION:
        return "there is no feasible connection, or none whose pattern the store holds";
    case DAIRYEPOCH_RESULT_TOO_LONG:
        return "the result slice is too short, or a store would have more than 16,383 nodes or arcs";
    case DAIRYEPOCH_TRIP_NOT_RUNNING:
        return "the trip to cancel is not running";
    case DAIRYEPOCH_TRIP_RUNNING:
        return "the trip to add is running already";
    default:
        return "no number of a reply";
    }
}

/* The number of a reply, and the count or line beside it. */
#define DAIRYEPOCH_NUMBER(reply) ((uint32_t)((uint64_t)(reply) >> 32))
#define DAIRYEPOCH_COUNT(reply) ((uint32_t)(reply))
#define DAIRYEPOCH_LINE(reply) ((uint32_t)(reply))

/* In the place of a count, dairyepoch_line_trips has the index of the first trip's number, and how many there are. */
#define DAIRYEPOCH_TRIPS_START(reply) ((uint32_t)(reply) >> 16)
#define DAIRYEPOCH_TRIPS_COUNT(reply) ((uint32_t)(reply) & 0xffffu)

/*
 * Reads a timetable text (docs/FORMAT.md) and writes its words (docs/LAYOUT.md) to the start of the timetable slice.
 * The text writes arrive and depart as hh:mm; the words hold minutes, as a query's minute does. Each stop has a mark: 0
 * for both, 1 for boarding only, 2 for setting down only; any other number is refused with 3. Walks from one station to
 * another, or along one, stand between the stations and the trips; a walk along a station takes the place of the
 * station's own change. Words past the table keep their values. The text needs no byte 0 at its end.
 *
 * Reply: 0 and the number of the text's lines; or a refusal: 8, then 1, then 2 to 6 for the first line that has one,
 * then 7.
 */
uint64_t dairyepoch_read(const uint8_t *text, size_t text_len, uint16_t *timetable, size_t timetable_len);

/*
 * Could these timetable words come from an accepted text, by cancelled and extra trips too? So trips may have any
 * numbers that rise, from 1 to 9,999, and no bytes are counted. The words past the table are not judged. Whatever
 * dairyepoch_read, dairyepoch_cancel_trip or dairyepoch_add_trip left, with number 0, has its yes.
 *
 * Reply: 0 for yes, with count 0; or a refusal: 8, then 9.
 */
uint64_t dairyepoch_check_timetable(const uint16_t *timetable, size_t timetable_len);

/*
 * Builds the line tables of timetable words (docs/LAYOUT.md) and writes them to the start of the lines slice. Words
 * past the tables keep their values. Each of the three slices has at least 16,384 words: the timetable and the lines
 * of 16 bits, the working space of 32; after the call the working space may hold anything. The count is the number of
 * lines: trips of one line agree in stations, ride penalties and marks. Refusals: 8, 9.
 */
uint64_t dairyepoch_build_lines(const uint16_t *timetable, size_t timetable_len, uint16_t *lines, size_t lines_len,
                                uint32_t *work, size_t work_len);

/*
 * Are the line tables those of the timetable words? The words past either table are not judged. What
 * dairyepoch_build_lines wrote for these timetable words, or a change left beside them, with number 0, has its yes.
 * Slices as for building; nothing is written but working space.
 *
 * Reply: 0 for yes, with count 0; or a refusal: 8, then 9, then 10.
 */
uint64_t dairyepoch_check_lines(const uint16_t *timetable, size_t timetable_len, const uint16_t *lines,
                                size_t lines_len, uint32_t *work, size_t work_len);

/*
 * Could these line tables come from an accepted timetable, by cancelled and extra trips too? Yes exactly if some such
 * timetable has them, whatever its change minutes, change penalties and walks, of which line tables tell nothing. The
 * words past the tables are not judged. Nothing is written but working space.
 *
 * Reply: 0 for yes, with count 0; or a refusal: 8, then 10.
 */
uint64_t dairyepoch_check_lines_alone(const uint16_t *lines, size_t lines_len, uint32_t *work, size_t work_len);

/*
 * Where in the caller's own lines slice the numbers of one line's trips stand, in the order in which the trips joined
 * the line. Lines count from 1. The line tables are asked about as by dairyepoch_check_lines_alone. Nothing is written
 * but working space.
 *
 * Reply: 0, with DAIRYEPOCH_TRIPS_START and DAIRYEPOCH_TRIPS_COUNT in the place of a count: the trips' numbers are
 * lines[start] to lines[start + count - 1]; or a refusal: 8, then 10, then 11.
 */
uint64_t dairyepoch_line_trips(const uint16_t *lines, size_t lines_len, uint32_t *work, size_t work_len,
                               uint32_t line);

/*
 * Translates line tables to times by trip, then by stop (docs/LAYOUT.md), and writes them to the start of the other
 * slice. Every other call takes times by stop, then by trip, and so does this one: the line tables are asked about as
 * by dairyepoch_check_lines. There are as many words in both layouts, and only the order of each line's times differs.
 * Each of the four slices has at least 16,384 words. Words past the tables keep their values.
 *
 * Reply: 0 and the number of lines; or a refusal: 8, then 9, then 10.
 */
uint64_t dairyepoch_times_by_trip(const uint16_t *timetable, size_t timetable_len, const uint16_t *lines,
                                  size_t lines_len, uint32_t *work, size_t work_len, uint16_t *other,
                                  size_t other_len);

/*
 * Translates line tables with times by trip back to the layout that every other call takes, and writes them to the
 * start of the lines slice. Number 10 judges the layout lent: yes exactly if these are the words that
 * dairyepoch_times_by_trip writes for this timetable. There and back gives the same words, both ways round. Slices and
 * replies as there.
 */
uint64_t dairyepoch_times_by_stop(const uint16_t *timetable, size_t timetable_len, const uint16_t *other,
                                  size_t other_len, uint32_t *work, size_t work_len, uint16_t *lines,
                                  size_t lines_len);

/*
 * The direct rides from one station to another at a minute, or later: a ride boards where the mark of the stop is 0 or
 * 1, and alights where it is 0 or 2, here and in every connection of the calls below. Writes a row of 6 words for each
 * cost that no direct ride's cost dominates, in rising duration, to the start of the answer slice:
 *
 *   duration in minutes, penalty in points, 1, trip, boarding stop, alighting stop
 *
 * The duration counts from the minute. Of the rides of one cost the one shown departs latest; of those its trip, then
 * its boarding stop, then its alighting stop has the lowest number. Words past the rows keep their values, and after a
 * refusal all words of the answer do. The answer slice may have any length; the others as for building.
 *
 * Reply: 0 and the number of rows; or a refusal: 8, then 9, then 10, then 11, then 12, then 14, then 15.
 */
uint64_t dairyepoch_direct(const uint16_t *timetable, size_t timetable_len, const uint16_t *lines, size_t lines_len,
                           uint32_t *work, size_t work_len, uint32_t from, uint32_t to, uint32_t minute,
                           uint32_t *answer, size_t answer_len);

/*
 * Makes the store of a source: the patterns of all optimal connections from there, at any minute from 0 to 2,879 and
 * to any other station. Writes it to the start of the store slice:
 *
 *   n, the number of prefix nodes; m, the number of arcs;
 *   for each prefix node: station alighted at, station boarded at, parent; for each arc: target station, predecessor
 *
 * Both stations of a node are one where the change is made there, at the station itself or by a walk along it; else the
 * change is a walk from the one to the other. Parent and predecessor are 0 for the root, which is the source, or a
 * prefix node's number, counted from 1. A pattern is read from an arc back through the parents to the root. Shorter
 * nodes come first, then those of the smaller sequence of stations; arcs rise by target, then by predecessor. Words
 * past the store keep their values, and after a refusal all words of the slice do. The store slice may have any length;
 * the others as for building. The count is the number of words, 2 + 3n + 2m.
 *
 * Reply: 0 and the number of words; or a refusal: 8, then 9, then 10, then 11, then 15, which is given exactly if n or
 * m is above 16,383 or the slice has fewer words than the store.
 */
uint64_t dairyepoch_make_store(const uint16_t *timetable, size_t timetable_len, const uint16_t *lines,
                               size_t lines_len, uint32_t *work, size_t work_len, uint32_t source, uint16_t *store,
                               size_t store_len);

/*
 * The connections from one station to another at a minute, or later, whose pattern can be read from the store, with
 * from as its root. Between two rides one changes at the station, or on foot where there is a walk; no walk stands
 * before the first ride or after the last. Writes a row for each cost that no cost of these dominates, in rising
 * duration, to the start of the answer slice:
 *
 *   duration in minutes, penalty in points, number of rides; then for each ride trip, boarding stop, alighting stop
 *
 * The duration counts from the minute. Of the connections of one cost the one shown departs latest; of those it has
 * the fewest rides; of those its rides come first, compared number by number. From a store that dairyepoch_make_store
 * wrote, with number 0, for source from and this timetable, these are the rows among all connections.
 *
 * A store is well made if all its words are present, n and m are at most 16,383, its stations are listed, each parent
 * is below its node's own number, each predecessor is at most n, the arcs strictly rise, and no pattern has more than
 * 64 rides. The words past the store are not judged. Words past the rows keep their values, and after a refusal all
 * words of the answer do. The store and answer slices may have any length; the others as for building.
 *
 * Reply: 0 and the number of rows; or a refusal: 8, then 9, then 10, then 11, then 12, then 13, then 14, then 15.
 */
uint64_t dairyepoch_query(const uint16_t *timetable, size_t timetable_len, const uint16_t *lines, size_t lines_len,
                          const uint16_t *store, size_t store_len, uint32_t *work, size_t work_len, uint32_t from,
                          uint32_t to, uint32_t minute, uint32_t *answer, size_t answer_len);

/*
 * Cancels a trip: afterwards both tables are those built afresh from the trips that still run. All others keep their
 * numbers. Words past the new tables keep their values, so that some of the old ones may stand there; after a refusal
 * all words of both slices do. A timetable of no trips is one. Slices as for building; after the call the working space
 * may hold anything.
 *
 * Reply: 0 and the number of lines that the tables have now; or a refusal: 8, then 9, then 10, then 18.
 */
uint64_t dairyepoch_cancel_trip(uint16_t *timetable, size_t timetable_len, uint16_t *lines, size_t lines_len,
                                uint32_t *work, size_t work_len, uint32_t trip);

/*
 * Adds an extra trip, by its T lines with their marks (docs/FORMAT.md): afterwards both tables are those built afresh
 * from the trips that run now, this one among them, in rising number. The number is free: any from 1 to 9,999 that no
 * running trip has, also that of a cancelled one. The text has the lines of this trip and no others; it may have any
 * number of bytes and needs no byte 0 at its end. The limits count what runs: 256 trips, 2,048 stops. Words past the
 * new tables keep their values, and after a refusal all words of both slices do. Slices as for building.
 *
 * Reply: 0 and the number of lines that the tables have now; or a refusal: 8, then 9, then 10, then 19, then 2 to 6 for
 * the first line of the extra trip's text that has one, with that line, then 7.
 */
uint64_t dairyepoch_add_trip(uint16_t *timetable, size_t timetable_len, uint16_t *lines, size_t lines_len,
                             uint32_t *work, size_t work_len, uint32_t trip, const uint8_t *text, size_t text_len);

#ifdef __cplusplus
}
#endif

#endif
