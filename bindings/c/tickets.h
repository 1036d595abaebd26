/* The ticket table and the schedule program for C programs: the functions of the proved library libexports.a (`bindings/build` at the root makes it in
   target/staticlib). A board holds a table of 2 to 32 stations as plain numbers; its owner lends it to each call.

   What is proved holds for every content of the board, every report buffer, every panel, every list and all numbers; there is nothing to check before a
   call. A caller owes:
   - the board, the buffers, the panels and the lists are memory of the caller's that has been written, with whatever bytes (`= {0}` will do for a new
     board);
   - a pointer to each that is not null, also to a buffer, a panel or a list of length 0, and a report buffer, a panel or a list to be written that overlaps
     neither the board nor the schedule;
   - until a call returns, no other thread touches them.
   That this header declares what the library exports is not proved; the assertions below hold its layout. */
#ifndef TICKETS_H
#define TICKETS_H

#include <assert.h>
#include <stddef.h>
#include <stdint.h>

enum { TICKETS_MAX_STATIONS = 32, TICKETS_MAX_DIGITS = 31, TICKETS_LINE = 18, TICKETS_REPORT_LINE = 29 };
/* The most step lines of a schedule whose snaps are numbered, or of a log; a list of so many entries is long enough for any. */
enum { TICKETS_MAX_STEPS = 4096 };

/* The steps of a call. A label operation is begin, snap, update, end. A scan is two: TICKETS_SCAN begins it and snaps, TICKETS_END ends it.
   By TICKETS_LEAVE_SERVICE an idle station leaves service, by TICKETS_RETURN_TO_SERVICE it returns. */
enum {
    TICKETS_BEGIN_LABEL = 1,
    TICKETS_SCAN = 2,
    TICKETS_SNAP = 3,
    TICKETS_UPDATE = 4,
    TICKETS_END = 5,
    TICKETS_LEAVE_SERVICE = 6,
    TICKETS_RETURN_TO_SERVICE = 7
};

/* What is refused; 0 is a call that was served. */
enum {
    TICKETS_BAD_COUNT = 1,       /* not 2 to 32 stations */
    TICKETS_BAD_STATION = 2,     /* not 1 to count */
    TICKETS_BUSY = 3,            /* a begin or a leave, and the station is not idle */
    TICKETS_NO_SNAP_DUE = 4,
    TICKETS_NO_UPDATE_DUE = 5,
    TICKETS_NO_END_DUE = 6,
    TICKETS_SHORT_REPORT = 7,    /* the buffer is shorter than the report: 29 bytes for each station that an ended scan shows, or that of a whole file; or
                                    the end of a scan has fewer records than it shows stations */
    TICKETS_INCOMPLETE_LINE = 8, /* not 18 bytes, or the last one not a line's end; it ends a file */
    TICKETS_BAD_COLUMN = 9,      /* a column that holds no number as it must; it ends a file */
    TICKETS_BAD_CODE = 10,
    TICKETS_BAD_JOB = 11,        /* not 1 to 4294967295 to begin a label, not 0 for every other step */
    TICKETS_TOO_MANY_LINES = 12, /* a line after the 1000000th step line; it ends a file */
    TICKETS_BAD_BOARD = 13,      /* a board that is no well-formed table */
    TICKETS_OUT_OF_SERVICE = 14, /* a begin or a leave, and the station is out of service */
    TICKETS_IN_SERVICE = 15,     /* a return, and the station is in service */
    TICKETS_TOO_MANY_STEPS = 16, /* more than TICKETS_MAX_STEPS step lines to number, or in a log */
    TICKETS_SHORT_LIST = 17      /* fewer entries than step lines with the code of a snap */
};

/* The planes of labels and jobs: what a station has, and what its next update will make of it. */
enum { TICKETS_CURRENT = 0, TICKETS_PENDING = 1 };
/* The planes of control. Phases: 0 idle, 1 due to snap (for a label), 2 due to update, 3 and 4 due to end a label and a scan. Service: 0 in service, 1 out
   of service, which only an idle station is. */
enum { TICKETS_PHASES = 0, TICKETS_SERVICE = 1 };
/* The rows of a scan result: the stations that it shows, from 1, oldest first, and their jobs, which are not 0; past these, zeros. */
enum { TICKETS_STATIONS = 0, TICKETS_JOBS = 1 };

/* A table: place i of a plane and of the results belongs to station i + 1. There is no padding, so every byte counts; nothing of it needs to be read or
   written by hand. */
struct tickets_board {
    uint64_t count;
    uint32_t jobs[2][TICKETS_MAX_STATIONS];
    uint32_t results[TICKETS_MAX_STATIONS][2][TICKETS_MAX_STATIONS];
    uint8_t labels[2][TICKETS_MAX_STATIONS][TICKETS_MAX_DIGITS];
    uint8_t control[2][TICKETS_MAX_STATIONS];
};

static_assert(offsetof(struct tickets_board, jobs) == 8, "jobs");
static_assert(offsetof(struct tickets_board, results) == 264, "results");
static_assert(offsetof(struct tickets_board, labels) == 8456, "labels");
static_assert(offsetof(struct tickets_board, control) == 10440, "control");
static_assert(sizeof(struct tickets_board) == 10504, "no padding");

/* A place of a scan, for callers who lend a panel of records in place of a report buffer. Places and stations count from 1. */
struct tickets_record {
    uint32_t place;
    uint32_t station;
    uint32_t job;
};

static_assert(sizeof(struct tickets_record) == 12, "no padding");

/* 0, or the refusal; and how many bytes of report, records or numbers were written. */
struct tickets_answer {
    uint64_t refusal;
    uint64_t written;
};

static_assert(sizeof(struct tickets_answer) == 16, "two words");

/* 0, or the refusal; and how many stations have the newest's label. */
struct tickets_holders {
    uint64_t refusal;
    uint64_t stations;
};

static_assert(sizeof(struct tickets_holders) == 16, "two words");

/* 0, or the refusal; and 1 if the log is right, else 0. */
struct tickets_verdict {
    uint64_t refusal;
    uint64_t right;
};

static_assert(sizeof(struct tickets_verdict) == 16, "two words");

/* Of the report of a file: TICKETS_SHORT_REPORT if it is longer than the buffer, else 0; the refusal that ended the file, 0 if it was read to its end; how
   many bytes were written, none if refused; and how long the report is. */
struct tickets_reported {
    uint64_t refusal;
    uint64_t ended;
    uint64_t written;
    uint64_t length;
};

static_assert(sizeof(struct tickets_reported) == 32, "four words");

/* The exported functions, on the arrays. */
uint64_t tickets_fresh(uint64_t count, uint8_t (*labels)[TICKETS_MAX_STATIONS][TICKETS_MAX_DIGITS], uint32_t (*jobs)[TICKETS_MAX_STATIONS],
    uint8_t (*control)[TICKETS_MAX_STATIONS], uint32_t (*results)[2][TICKETS_MAX_STATIONS]);
struct tickets_answer tickets_step(uint64_t count, uint8_t (*labels)[TICKETS_MAX_STATIONS][TICKETS_MAX_DIGITS], uint32_t (*jobs)[TICKETS_MAX_STATIONS],
    uint8_t (*control)[TICKETS_MAX_STATIONS], uint32_t (*results)[2][TICKETS_MAX_STATIONS], uint64_t code, uint64_t station, uint64_t job,
    uint8_t *report, size_t report_len);
struct tickets_answer tickets_step_panel(uint64_t count, uint8_t (*labels)[TICKETS_MAX_STATIONS][TICKETS_MAX_DIGITS], uint32_t (*jobs)[TICKETS_MAX_STATIONS],
    uint8_t (*control)[TICKETS_MAX_STATIONS], uint32_t (*results)[2][TICKETS_MAX_STATIONS], uint64_t code, uint64_t station, uint64_t job,
    struct tickets_record *panel, size_t panel_len);
struct tickets_holders tickets_top_holders(uint64_t count, const uint8_t (*labels)[TICKETS_MAX_STATIONS][TICKETS_MAX_DIGITS],
    const uint32_t (*jobs)[TICKETS_MAX_STATIONS], const uint8_t (*control)[TICKETS_MAX_STATIONS], const uint32_t (*results)[2][TICKETS_MAX_STATIONS]);

/* Writes the report of a whole schedule file to the front of the buffer; what stands past it stays. TICKETS_SHORT_REPORT is answered just if the report of
   this file is longer than the buffer, and then nothing is written. Whether it fits or not, `ended` is the refusal that ended the file: 8, 9, 10, 1 or 11 of
   its header, 8, 9 or 12 of a step line, which the report's last line shows, or 0 if it was read to its end; and `length` is what the report needs.
   TICKETS_REPORT_ROOM bytes are enough for the report of any file of that length. */
#define TICKETS_REPORT_ROOM(schedule_len) (((schedule_len) / TICKETS_LINE + 1) * TICKETS_MAX_STATIONS * TICKETS_REPORT_LINE)
struct tickets_reported tickets_report(const uint8_t *schedule, size_t schedule_len, uint8_t *report, size_t report_len);

/* Numbers the snaps of a whole schedule file: for each accepted snap for a label, in their order, writes a number to the front of the list, and answers
   their count; what stands past them stays. The number is 0 where the station was the newest already, else the pending number that this snap sets in the
   unbounded table. That table, taken through the file with these numbers, gives all its scans; and the numbers other than 0 are 1, 2 and so on,
   equal ones allowed. Refused, before any step is run, is a file that a refusal ends, by the first that does: 8, 9, 10, 1 or 11 of its header, 8, 9 or 12
   of a step line; then by TICKETS_TOO_MANY_STEPS; then by TICKETS_SHORT_LIST, for which refused lines count too. A refusal writes nothing. */
struct tickets_answer tickets_numbers(const uint8_t *schedule, size_t schedule_len, uint32_t *numbers, size_t numbers_len);

/* Checks a log: a schedule file, the numbers of its snaps and the report of its scans. It is right just if the unbounded table, taken through the file with
   these numbers, finds one for each snap for a label that it accepts and none left over, 0 where it has the station as the newest already, else above its
   top number and at most 4294967295; and if the report is its scans, byte for byte, with the file's line numbers. Refused steps have neither a number nor
   a line. Any numbers that will do are right, those of tickets_numbers among them. A refusal says nothing of the log: the first that ends the file, as
   above, then TICKETS_TOO_MANY_STEPS. Nothing is written, so the three may overlap. */
struct tickets_verdict tickets_check_log(const uint8_t *schedule, size_t schedule_len, const uint64_t *numbers, size_t numbers_len, const uint8_t *report,
    size_t report_len);

/* Makes the board a fresh table of `count` stations, which are in service and have no job and whose scan results are empty; TICKETS_BAD_COUNT leaves it
   as it is. */
static inline uint64_t tickets_board_fresh(struct tickets_board *board, uint64_t count) {
    uint64_t refusal = tickets_fresh(count, board->labels, board->jobs, board->control, board->results);
    if (refusal == 0)
        board->count = count;
    return refusal;
}

/* A step of a station. A refused call changes neither the board nor the report buffer. A scan shows the stations that are in service at its begin and have
   a job then. Its end writes a report line of 29 bytes for each of them to the front of the buffer, oldest first; where there are none, it writes nothing
   and needs no room. What stands past the lines stays, and no other step writes any. */
static inline struct tickets_answer tickets_board_step(struct tickets_board *board, uint64_t code, uint64_t station, uint64_t job, uint8_t *report,
    size_t report_len) {
    return tickets_step(board->count, board->labels, board->jobs, board->control, board->results, code, station, job, report, report_len);
}

/* The same step with a panel of so many records. A refused call changes neither the board nor the panel. The end of a scan fills a record for each station
   that it shows, oldest first, from the first record on, and answers their count; the others stay, and no other step fills any. */
static inline struct tickets_answer tickets_board_step_panel(struct tickets_board *board, uint64_t code, uint64_t station, uint64_t job,
    struct tickets_record *panel, size_t panel_len) {
    return tickets_step_panel(board->count, board->labels, board->jobs, board->control, board->results, code, station, job, panel, panel_len);
}

/* An idle station leaves service; answers 0, or the refusal. Until it returns no scan that begins shows it, but others take their labels with regard to
   its own. */
static inline uint64_t tickets_board_leave_service(struct tickets_board *board, uint64_t station) {
    uint8_t none = 0;
    return tickets_board_step(board, TICKETS_LEAVE_SERVICE, station, 0, &none, 0).refusal;
}

/* A station that is out of service returns; answers 0, or the refusal. */
static inline uint64_t tickets_board_return_to_service(struct tickets_board *board, uint64_t station) {
    uint8_t none = 0;
    return tickets_board_step(board, TICKETS_RETURN_TO_SERVICE, station, 0, &none, 0).refusal;
}

/* How many stations have the newest's label, itself among them and those out of service too: 1 to count. It is no step, and changes nothing. Stations
   that snap before any of them updates can come to share it; those of a fresh table all do. TICKETS_BAD_BOARD is the one refusal, and counts none. */
static inline struct tickets_holders tickets_board_top_holders(const struct tickets_board *board) {
    return tickets_top_holders(board->count, board->labels, board->jobs, board->control, board->results);
}

#endif
