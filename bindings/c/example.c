/* Document 01's listing as direct calls with a report buffer, as direct calls with a panel, and as a schedule file. Of a refused call with a report
   buffer this prints the line that the schedule program would print; a direct call's lines bear the number 0. The second call of station 2 is refused by
   4 in all three: a scan has no snap of its own. Its scan shows station 1 alone, which has a job. Before the calls with a panel both stations have the
   newest's label, and after them station 1 alone. Then that one is out of service for a while: a scan does not show it. Next come the numbers of another
   file: station 2 snaps after station 1, for a label below that one's, and gets the lower number. Last are logs of that file: with these numbers and its
   report, with others that are in another order, with these and the scan in that order, and one that is cut short. From the root:
   bindings/build && cc -Wall -Wextra -O2 bindings/c/example.c target/staticlib/libexports.a -o /tmp/example && /tmp/example */
#include <inttypes.h>
#include <stdio.h>
#include "tickets.h"

static const struct { uint64_t station, code, job; } calls[] = {
    {1, TICKETS_BEGIN_LABEL, 70},
    {1, TICKETS_SNAP, 0},
    {1, TICKETS_UPDATE, 0},
    {1, TICKETS_END, 0},
    {2, TICKETS_SCAN, 0},
    {2, TICKETS_SNAP, 0},
    {2, TICKETS_END, 0},
    {3, TICKETS_SNAP, 0},
};

static const char file[] =
    "  2  0          0\n"
    "  1  1         70\n"
    "  1  3          0\n"
    "  1  4          0\n"
    "  1  5          0\n"
    "  2  2          0\n"
    "  2  3          0\n"
    "  2  5          0\n"
    "  3  3          0\n";

/* Stations 2 and 3 take labels. Then 1 and 2 snap before either updates, and 3 scans. */
static const char crossing[] =
    "  3  0          0\n"
    "  2  1         70\n"
    "  2  3          0\n"
    "  2  4          0\n"
    "  2  5          0\n"
    "  3  1         71\n"
    "  3  3          0\n"
    "  3  4          0\n"
    "  3  5          0\n"
    "  1  1         72\n"
    "  1  3          0\n"
    "  2  1         73\n"
    "  2  3          0\n"
    "  1  4          0\n"
    "  2  4          0\n"
    "  3  2          0\n"
    "  3  5          0\n";

/* Its scan if 1 and 2 had one number: the lower station first. */
static const char shared_number[] =
    "      17  0  1  3         71\n"
    "      17  0  2  1         72\n"
    "      17  0  3  2         73\n";

/* Prints how many stations a scan of station 2 shows, or what one of its steps is refused by. */
static void print_shown(struct tickets_board *board) {
    struct tickets_record panel[TICKETS_MAX_STATIONS] = {{0, 0, 0}};
    struct tickets_answer answer = tickets_board_step_panel(board, TICKETS_SCAN, 2, 0, panel, TICKETS_MAX_STATIONS);
    if (answer.refusal == 0)
        answer = tickets_board_step_panel(board, TICKETS_END, 2, 0, panel, TICKETS_MAX_STATIONS);
    if (answer.refusal == 0)
        printf("stations shown: %" PRIu64 "\n", answer.written);
    else
        printf("scan refused by %" PRIu64 "\n", answer.refusal);
}

/* Prints how many stations have the newest's label. */
static void print_holders(const struct tickets_board *board) {
    struct tickets_holders told = tickets_board_top_holders(board);
    printf("stations with the newest's label: %" PRIu64 "\n", told.stations);
}

/* Prints whether a log of the file with the crossing, or of its first bytes, is right, or what refuses it. */
static void print_verdict(const char *what, size_t len, const uint64_t *numbers, size_t numbers_len, const uint8_t *report, size_t report_len) {
    struct tickets_verdict verdict = tickets_check_log((const uint8_t *)crossing, len, numbers, numbers_len, report, report_len);
    if (verdict.refusal == 0)
        printf("log, %s: %s\n", what, verdict.right ? "right" : "wrong");
    else
        printf("log, %s: refused by %" PRIu64 "\n", what, verdict.refusal);
}

int main(void) {
    static struct tickets_board board;
    uint8_t report[TICKETS_MAX_STATIONS * TICKETS_REPORT_LINE] = {0};
    if (tickets_board_fresh(&board, 2) != 0)
        return 1;
    for (size_t i = 0; i < sizeof calls / sizeof calls[0]; i++) {
        struct tickets_answer answer = tickets_board_step(&board, calls[i].code, calls[i].station, calls[i].job, report, sizeof report);
        if (answer.refusal == 0)
            fwrite(report, 1, answer.written, stdout);
        else
            printf("%8d%3" PRIu64 "%3d%3d%11d\n", 0, answer.refusal, 0, 0, 0);
    }
    static struct tickets_record panel[TICKETS_MAX_STATIONS];
    if (tickets_board_fresh(&board, 2) != 0)
        return 1;
    print_holders(&board);
    for (size_t i = 0; i < sizeof calls / sizeof calls[0]; i++) {
        struct tickets_answer answer = tickets_board_step_panel(&board, calls[i].code, calls[i].station, calls[i].job, panel, TICKETS_MAX_STATIONS);
        if (answer.refusal != 0)
            printf("panel: refused by %" PRIu64 "\n", answer.refusal);
        for (uint64_t at = 0; at < answer.written; at++)
            printf("panel: place %" PRIu32 ", station %" PRIu32 ", job %" PRIu32 "\n", panel[at].place, panel[at].station, panel[at].job);
    }
    print_holders(&board);
    for (int times = 0; times < 2; times++)
        printf("station 1 leaves service: %" PRIu64 "\n", tickets_board_leave_service(&board, 1));
    print_shown(&board);
    for (int times = 0; times < 2; times++)
        printf("station 1 returns to service: %" PRIu64 "\n", tickets_board_return_to_service(&board, 1));
    print_shown(&board);
    static uint8_t whole[TICKETS_REPORT_ROOM(sizeof file - 1)];
    struct tickets_reported told = tickets_report((const uint8_t *)file, sizeof file - 1, whole, 28);
    printf("report in 28 bytes: refused by %" PRIu64 ", needs %" PRIu64 "\n", told.refusal, told.length);
    told = tickets_report((const uint8_t *)file, sizeof file - 1, whole, sizeof whole);
    if (told.refusal != 0 || told.ended != 0)
        return 1;
    fwrite(whole, 1, told.written, stdout);
    uint32_t numbers[TICKETS_MAX_STEPS] = {0};
    struct tickets_answer answer = tickets_numbers((const uint8_t *)crossing, sizeof crossing - 1, numbers, TICKETS_MAX_STEPS);
    if (answer.refusal != 0)
        return 1;
    for (uint64_t at = 0; at < answer.written; at++)
        printf("number: %" PRIu32 "\n", numbers[at]);
    printf("numbers in a list of 3: refused by %" PRIu64 "\n", tickets_numbers((const uint8_t *)crossing, sizeof crossing - 1, numbers, 3).refusal);
    const size_t len = sizeof crossing - 1, count = answer.written;
    uint64_t logged[TICKETS_MAX_STEPS] = {0};
    for (size_t at = 0; at < count; at++)
        logged[at] = numbers[at];
    static uint8_t scans[TICKETS_REPORT_ROOM(sizeof crossing - 1)];
    told = tickets_report((const uint8_t *)crossing, len, scans, sizeof scans);
    if (told.refusal != 0 || told.ended != 0)
        return 1;
    print_verdict("its numbers, its scan", len, logged, count, scans, told.written);
    const uint64_t others[] = {1, 2, 3, 3};
    print_verdict("other numbers, its scan", len, others, 4, scans, told.written);
    print_verdict("other numbers, the scan by these", len, others, 4, (const uint8_t *)shared_number, sizeof shared_number - 1);
    print_verdict("cut short", len - 1, logged, count, scans, told.written);
    return 0;
}
