/*
 * Log (a) of document 01's two-lot plant, case (b): its commit one move too early, which leaves the tally of
 * (a), and at the start the enabled moves and the previews of two moves, of which the second would be refused.
 * Last the plant is left alone with the largest budget, and with one of four moves, whose log is then run.
 */
#include "coordinator.h"

#include <inttypes.h>
#include <stdio.h>

#define LENGTH(list) (sizeof(list) / sizeof((list)[0]))

static const uint32_t table[] = {
    2, 1, 1, 4, 12,
    0, 0, 0, 0, 1, 1, 2, 2, 2, 2, 3, 3,
    0x00000000, 0x20000000, 0x31020000, 0x41000000,
    0x00020000, 0x11030000,
    0x00030000, 0x00030000, 0x11010000, 0x11010001,
    0x00020000, 0x50000000,
};
static const uint32_t start[] = {2, 1, 0, 0, 7, 9};
static const uint32_t log_a[] = {
    6,
    0, 0, 1, 1, 2, 0x01000001,
    0, 0, 0, 0, 0, 0, 0, 0, 1, 0, 0, 0, 3, 0, 0, 0, 4, 5, 0, 0, 0, 0, 0, 0,
};
static const uint32_t log_b[] = {
    5,
    0, 0, 1, 1, 0x01000001,
    0, 0, 0, 0, 0, 0, 0, 0, 1, 0, 0, 0, 3, 0, 0, 0, 0, 0, 0, 0,
};

static const uint32_t begin[] = {0, 0, 0, 0, 0};
static const uint32_t commit[] = {0x01000001, 0, 0, 0, 0};

static void run(const char *name, const uint32_t *log, size_t log_len, coordinator_tally *tally)
{
    uint32_t target[COORDINATOR_STATE_TARGET_WORDS], at;
    coordinator_answer answer =
        coordinator_run(table, LENGTH(table), start, LENGTH(start), log, log_len, tally, target, LENGTH(target));
    if (answer.number == COORDINATOR_MOVE_REFUSED) {
        printf("%s: move %" PRIu32 " is refused with %" PRIu32 "\n", name, answer.place, answer.own);
    } else if (answer.number != COORDINATOR_ACCEPTED) {
        printf("%s: refused with %" PRIu32 "\n", name, answer.number);
    } else {
        printf("%s:", name);
        for (at = 0; at < answer.words; at++) {
            printf(" 0x%08" PRIx32, target[at]);
        }
        printf(", %" PRIu32 " members ended\n", answer.members);
    }
    printf("tally: %" PRIu32 " moves, %" PRIu32 " begun, %" PRIu32 " committed, %" PRIu32 " aborted\n", tally->moves,
           tally->begun, tally->committed, tally->aborted);
}

static void list(void)
{
    uint32_t target[COORDINATOR_PAGE_TARGET_WORDS(COORDINATOR_MAX_PAGE_MOVES)];
    const uint32_t *mv;
    uint64_t first = 0;
    coordinator_page page;
    do {
        page = coordinator_list_moves(table, LENGTH(table), start, LENGTH(start), first, COORDINATOR_MAX_PAGE_MOVES,
                                      target, LENGTH(target));
        for (mv = target; mv < target + page.words; mv += COORDINATOR_MOVE_WORDS, first++) {
            printf("move %" PRIu64 " of %" PRIu64 ": 0x%08" PRIx32 " %" PRIu32 " %" PRIu32 " %" PRIu32 " %" PRIu32 "\n",
                   first, page.length, mv[0], mv[1], mv[2], mv[3], mv[4]);
        }
    } while (first < page.length);
}

static void preview(const char *name, const uint32_t *mv)
{
    coordinator_preview_answer answer =
        coordinator_preview(table, LENGTH(table), start, LENGTH(start), mv, COORDINATOR_MOVE_WORDS);
    if (answer.number != COORDINATOR_ACCEPTED) {
        printf("%s: would be refused with %" PRIu32 "\n", name, answer.number);
    } else {
        printf("%s: would leave %" PRIu32 " entries, next id %" PRIu32 "; transaction %" PRIu32 ", would end %" PRIu32
               " members\n",
               name, answer.entries, answer.next, answer.id, answer.members);
    }
}

static void leave_alone(uint32_t budget, coordinator_tally *tally)
{
    static uint32_t target[COORDINATOR_LOG_WORDS(COORDINATOR_MAX_MOVES)];
    const uint32_t *head = target + 1, *picks;
    uint32_t at;
    coordinator_unattended answer = coordinator_run_unattended(table, LENGTH(table), start, LENGTH(start), budget,
                                                               target, LENGTH(target));
    printf("budget %" PRIu32 ": %" PRIu32 " moves, %s\n", budget, answer.moves, answer.still ? "still" : "spent");
    for (at = 0; at < answer.moves; at++) {
        picks = head + answer.moves + 4 * at;
        printf("move %" PRIu32 ": 0x%08" PRIx32 " %" PRIu32 " %" PRIu32 " %" PRIu32 " %" PRIu32 "\n", at, head[at],
               picks[0], picks[1], picks[2], picks[3]);
    }
    run("its log", target, answer.words, tally);
}

int main(void)
{
    coordinator_tally tally = {0, 0, 0, 0};
    run("(a)", log_a, LENGTH(log_a), &tally);
    run("(b)", log_b, LENGTH(log_b), &tally);
    list();
    preview("rule 0", begin);
    preview("commit 1", commit);
    leave_alone(COORDINATOR_MAX_MOVES, &tally);
    leave_alone(4, &tally);
    return 0;
}
