/*
 * 01's cases (a) to (h) on the two-lot plant, the tallies of its runs, the previews and lists of its moves, a
 * transaction with an abort mark, and the plant left alone, through the header. Prints what fails, and how many.
 */
#include "coordinator.h"

#include <stdio.h>
#include <string.h>

#define LENGTH(list) (sizeof(list) / sizeof((list)[0]))

static const uint32_t table[COORDINATOR_TABLE_WORDS(12)] = {
    2, 1, 1, 4, 12,
    0, 0, 0, 0, 1, 1, 2, 2, 2, 2, 3, 3,
    0x00000000, 0x20000000, 0x31020000, 0x41000000,
    0x00020000, 0x11030000,
    0x00030000, 0x00030000, 0x11010000, 0x11010001,
    0x00020000, 0x50000000,
};
static const uint32_t start[COORDINATOR_STATE_WORDS(2)] = {2, 1, 0, 0, 7, 9};

static unsigned failures;

/* Five words in this order, and nothing between or behind them. */
_Static_assert(offsetof(coordinator_answer, number) == 0, "number");
_Static_assert(offsetof(coordinator_answer, words) == 4, "words");
_Static_assert(offsetof(coordinator_answer, place) == 8, "place");
_Static_assert(offsetof(coordinator_answer, own) == 12, "own");
_Static_assert(offsetof(coordinator_answer, members) == 16, "members");
_Static_assert(sizeof(coordinator_answer) == 20, "an answer");

static void expect_members(const char *what, coordinator_answer got, uint32_t number, uint32_t words, uint32_t place,
                           uint32_t own, uint32_t members)
{
    if (got.number != number || got.words != words || got.place != place || got.own != own ||
        got.members != members) {
        printf("%s: %u %u %u %u %u, not %u %u %u %u %u\n", what, (unsigned)got.number, (unsigned)got.words,
               (unsigned)got.place, (unsigned)got.own, (unsigned)got.members, (unsigned)number, (unsigned)words,
               (unsigned)place, (unsigned)own, (unsigned)members);
        failures++;
    }
}

/* A call that removes no member marks. */
static void expect(const char *what, coordinator_answer got, uint32_t number, uint32_t words, uint32_t place,
                   uint32_t own)
{
    expect_members(what, got, number, words, place, own, 0);
}

static void checks(void)
{
    expect("check_table", coordinator_check_table(table, LENGTH(table)), COORDINATOR_ACCEPTED, 0, 0, 0);
    expect("check_state", coordinator_check_state(table, LENGTH(table), start, LENGTH(start)), COORDINATOR_ACCEPTED, 0,
           0, 0);
    expect("no table", coordinator_check_table(NULL, 0), COORDINATOR_TABLE_SIZES, 0, 0, 0);
    expect("a short table", coordinator_check_table(table, LENGTH(table) - 1), COORDINATOR_TABLE_SIZES, 0, 0, 0);
    expect("no state", coordinator_check_state(table, LENGTH(table), NULL, 0), COORDINATOR_STATE_SIZES, 0, 0, 0);
    {
        uint32_t wrong[LENGTH(table)];
        const uint32_t unmarked[COORDINATOR_STATE_WORDS(1)] = {1, 2, 1, 7};
        memcpy(wrong, table, sizeof table);
        wrong[LENGTH(wrong) - 1] = 0x60000000;
        expect("a wrong table", coordinator_check_table(wrong, LENGTH(wrong)), COORDINATOR_TABLE_CONTENTS, 0, 0, 0);
        expect("a wrong state", coordinator_check_state(table, LENGTH(table), unmarked, LENGTH(unmarked)),
               COORDINATOR_STATE_CONTENTS, 0, 0, 0);
    }
}

/* A word that no call writes here. */
#define UNTOUCHED 0xA5A5A5A5u

static uint32_t target[COORDINATOR_STATE_TARGET_WORDS + COORDINATOR_LOG_WORDS(COORDINATOR_MAX_MOVES)];

static void clear(void)
{
    size_t at;
    for (at = 0; at < LENGTH(target); at++) {
        target[at] = UNTOUCHED;
    }
}

/* The target has these words in front and is untouched behind. */
static void expect_target(const char *what, const uint32_t *words, size_t count)
{
    size_t at;
    for (at = 0; at < LENGTH(target); at++) {
        if (target[at] != (at < count ? words[at] : UNTOUCHED)) {
            printf("%s: word %u of the target is %#x\n", what, (unsigned)at, (unsigned)target[at]);
            failures++;
            return;
        }
    }
}

#define COMMIT(id) (0x01000000u + (id))
#define ABORT(id) (0x02000000u + (id))

/* Moves as 01 writes them: a head and its picks. */
typedef uint32_t mv[COORDINATOR_MOVE_WORDS];

static const mv case_a[] = {{0, 0}, {0, 0}, {1, 1}, {1, 3}, {2, 4, 5}, {COMMIT(1)}};
static const mv case_c[] = {{0, 0}, {0, 0}, {1, 1}, {3, 3}, {ABORT(2)}};
static const mv case_d[] = {{0, 0}, {0, 0}, {3, 1}, {3, 3}, {ABORT(2)}, {ABORT(1)}};
static const uint32_t end_a[] = {2, 3, 0, 0, 0x00010007, 0x00010009};
static const uint32_t end_c[] = {4, 3, 1, 1, 0, 1, 0x03000001, 0x01000007, 0x00000009, 0x00030007};
static const uint32_t end_d[] = {2, 3, 0, 0, 0x00000007, 0x00000009};

/* (b), (e), (f), (g): moves of (a), then one that is refused. */
static const struct {
    const char *name;
    size_t moves;
    mv last;
    uint32_t number;
} refused[] = {
    {"(b)", 4, {COMMIT(1)}, COORDINATOR_END_NOT_ALLOWED},
    {"(e)", 4, {2, 4, 4}, COORDINATOR_WRONG_PICK},
    {"(f)", 1, {ABORT(1)}, COORDINATOR_END_NOT_ALLOWED},
    {"(g)", 2, {COMMIT(3)}, COORDINATOR_NO_TRANSACTION},
};

/* What a move of the plant's logs ends: the commit of (a) both lots, an abort one. */
static uint32_t ended(uint32_t head)
{
    return head == COMMIT(1) ? 2 : head >= ABORT(0) ? 1 : 0;
}

/* Makes moves one by one; the state's length. */
static size_t moves(const char *what, const mv *list, size_t count, uint32_t *state)
{
    size_t at, len = LENGTH(start);
    memcpy(state, start, sizeof start);
    for (at = 0; at < count; at++) {
        coordinator_answer got = coordinator_move(table, LENGTH(table), state, len, list[at], COORDINATOR_MOVE_WORDS,
                                                  target, COORDINATOR_STATE_TARGET_WORDS);
        expect_members(what, got, COORDINATOR_ACCEPTED, COORDINATOR_STATE_WORDS(target[0]), 0, 0, ended(list[at][0]));
        if (got.number != COORDINATOR_ACCEPTED) {
            break;
        }
        len = got.words;
        memcpy(state, target, len * sizeof *state);
    }
    return len;
}

static void by_moves(void)
{
    uint32_t state[COORDINATOR_STATE_TARGET_WORDS];
    size_t at, len;
    len = moves("(a) by moves", case_a, LENGTH(case_a), state);
    if (len != LENGTH(end_a) || memcmp(state, end_a, sizeof end_a) != 0) {
        printf("(a) by moves: another end\n");
        failures++;
    }
    len = moves("(c) by moves", case_c, LENGTH(case_c), state);
    if (len != LENGTH(end_c) || memcmp(state, end_c, sizeof end_c) != 0) {
        printf("(c) by moves: another end\n");
        failures++;
    }
    len = moves("(d) by moves", case_d, LENGTH(case_d), state);
    if (len != LENGTH(end_d) || memcmp(state, end_d, sizeof end_d) != 0) {
        printf("(d) by moves: another end\n");
        failures++;
    }
    for (at = 0; at < LENGTH(refused); at++) {
        len = moves(refused[at].name, case_a, refused[at].moves, state);
        clear();
        expect(refused[at].name,
               coordinator_move(table, LENGTH(table), state, len, refused[at].last, COORDINATOR_MOVE_WORDS, target,
                                COORDINATOR_STATE_TARGET_WORDS),
               refused[at].number, 0, 0, 0);
        expect_target(refused[at].name, NULL, 0);
    }
    expect("a short target",
           coordinator_move(table, LENGTH(table), start, LENGTH(start), case_a[0], COORDINATOR_MOVE_WORDS, target,
                            COORDINATOR_STATE_TARGET_WORDS - 1),
           COORDINATOR_TARGET_TOO_SHORT, 0, 0, 0);
    expect("a move of four words",
           coordinator_move(table, LENGTH(table), start, LENGTH(start), case_a[0], COORDINATOR_MOVE_WORDS - 1, target,
                            COORDINATOR_STATE_TARGET_WORDS),
           COORDINATOR_MOVE_FORM, 0, 0, 0);
}

/* Five words in this order, and nothing between or behind them. */
_Static_assert(offsetof(coordinator_preview_answer, number) == 0, "number");
_Static_assert(offsetof(coordinator_preview_answer, entries) == 4, "entries");
_Static_assert(offsetof(coordinator_preview_answer, next) == 8, "next");
_Static_assert(offsetof(coordinator_preview_answer, id) == 12, "id");
_Static_assert(offsetof(coordinator_preview_answer, members) == 16, "members");
_Static_assert(sizeof(coordinator_preview_answer) == 20, "a preview's answer");

static void expect_preview_members(const char *what, coordinator_preview_answer got, uint32_t number, uint32_t entries,
                                   uint32_t next, uint32_t id, uint32_t members)
{
    if (got.number != number || got.entries != entries || got.next != next || got.id != id ||
        got.members != members) {
        printf("%s: %u %u %u %u %u, not %u %u %u %u %u\n", what, (unsigned)got.number, (unsigned)got.entries,
               (unsigned)got.next, (unsigned)got.id, (unsigned)got.members, (unsigned)number, (unsigned)entries,
               (unsigned)next, (unsigned)id, (unsigned)members);
        failures++;
    }
}

/* A move that would remove no member marks. */
static void expect_preview(const char *what, coordinator_preview_answer got, uint32_t number, uint32_t entries,
                           uint32_t next, uint32_t id)
{
    expect_preview_members(what, got, number, entries, next, id, 0);
}

/* The preview of a move after some moves of a log. */
static coordinator_preview_answer preview(const char *what, const mv *list, size_t after, const uint32_t *move)
{
    uint32_t state[COORDINATOR_STATE_TARGET_WORDS];
    size_t len = moves(what, list, after, state);
    return coordinator_preview(table, LENGTH(table), state, len, move, COORDINATOR_MOVE_WORDS);
}

static void by_previews(void)
{
    static const uint32_t figures[LENGTH(case_a)][3] = {
        {4, 2, 1}, {6, 3, 2}, {6, 3, 1}, {6, 3, 2}, {6, 3, 1}, {2, 3, 1},
    };
    static const mv turned = {2, 5, 4};
    size_t at;
    for (at = 0; at < LENGTH(case_a); at++) {
        expect_preview_members("a preview of (a)", preview("before a preview", case_a, at, case_a[at]),
                               COORDINATOR_ACCEPTED, figures[at][0], figures[at][1], figures[at][2],
                               ended(case_a[at][0]));
    }
    expect_preview("the merge from the other side", preview("before a preview", case_a, 4, turned),
                   COORDINATOR_ACCEPTED, 6, 3, 1);
    expect_preview("(c): the mark", preview("before a preview", case_c, 3, case_c[3]), COORDINATOR_ACCEPTED, 6, 3, 2);
    expect_preview_members("(c): the abort", preview("before a preview", case_c, 4, case_c[4]), COORDINATOR_ACCEPTED, 4,
                           3, 2, 1);
    for (at = 0; at < LENGTH(refused); at++) {
        expect_preview(refused[at].name, preview(refused[at].name, case_a, refused[at].moves, refused[at].last),
                       refused[at].number, 0, 0, 0);
    }
}

/* Previews that the plant's logs do not have: missing lists, the last ids, a rule without begin. */
static void by_odd_previews(void)
{
    expect_preview("no table", coordinator_preview(NULL, 0, NULL, 0, NULL, 0), COORDINATOR_TABLE_SIZES, 0, 0, 0);
    expect_preview("no state", coordinator_preview(table, LENGTH(table), NULL, 0, NULL, 0), COORDINATOR_STATE_SIZES, 0,
                   0, 0);
    expect_preview("no move", coordinator_preview(table, LENGTH(table), start, LENGTH(start), NULL, 0),
                   COORDINATOR_MOVE_FORM, 0, 0, 0);
    expect_preview("a move of four words",
                   coordinator_preview(table, LENGTH(table), start, LENGTH(start), case_a[0],
                                       COORDINATOR_MOVE_WORDS - 1),
                   COORDINATOR_MOVE_FORM, 0, 0, 0);
    {
        /* The largest next id, and the largest id of a transaction. */
        const uint32_t last[COORDINATOR_STATE_WORDS(1)] = {1, COORDINATOR_MAX_NEXT - 1, 0, 7};
        const uint32_t used_up[COORDINATOR_STATE_WORDS(1)] = {1, COORDINATOR_MAX_NEXT, 0, 7};
        expect_preview("the last id",
                       coordinator_preview(table, LENGTH(table), last, LENGTH(last), case_a[0], COORDINATOR_MOVE_WORDS),
                       COORDINATOR_ACCEPTED, 3, COORDINATOR_MAX_NEXT, COORDINATOR_MAX_NEXT - 1);
        expect_preview("no id left",
                       coordinator_preview(table, LENGTH(table), used_up, LENGTH(used_up), case_a[0],
                                           COORDINATOR_MOVE_WORDS),
                       COORDINATOR_NO_MORE_IDS, 0, 0, 0);
    }
    {
        /* A global rule that emits what it consumes: no transaction is concerned. */
        const uint32_t global[COORDINATOR_TABLE_WORDS(2)] = {2, 0, 0, 1, 2, 0, 0, 0x00000000, 0x11010000};
        expect_preview("a global rule without begin",
                       coordinator_preview(global, LENGTH(global), start, LENGTH(start), case_a[0],
                                           COORDINATOR_MOVE_WORDS),
                       COORDINATOR_ACCEPTED, 2, 1, 0);
    }
}

static uint32_t log_words[COORDINATOR_LOG_WORDS(16)];

/* The words of a log; their number. */
static size_t log_of(const mv *list, size_t count)
{
    size_t at;
    log_words[0] = (uint32_t)count;
    for (at = 0; at < count; at++) {
        log_words[1 + at] = list[at][0];
        memcpy(log_words + 1 + count + 4 * at, list[at] + 1, 4 * sizeof *log_words);
    }
    return COORDINATOR_LOG_WORDS(count);
}

/* Four words in this order, and nothing between or behind them. */
_Static_assert(offsetof(coordinator_tally, moves) == 0, "moves");
_Static_assert(offsetof(coordinator_tally, begun) == 4, "begun");
_Static_assert(offsetof(coordinator_tally, committed) == 8, "committed");
_Static_assert(offsetof(coordinator_tally, aborted) == 12, "aborted");
_Static_assert(sizeof(coordinator_tally) == 16, "a tally");

/* Tallies in a row: runs get the middle one, and touch neither the words before nor those behind. */
static coordinator_tally tallies[3];
static coordinator_tally *const tally = &tallies[1];

static const coordinator_tally untouched = {UNTOUCHED, UNTOUCHED, UNTOUCHED, UNTOUCHED};
static const coordinator_tally none = {0, 0, 0, 0};

static void hand_in(coordinator_tally before)
{
    tallies[0] = tallies[2] = untouched;
    *tally = before;
}

static void expect_tally(const char *what, coordinator_tally expected)
{
    if (memcmp(tally, &expected, sizeof expected) != 0) {
        printf("%s: tally %u %u %u %u, not %u %u %u %u\n", what, (unsigned)tally->moves, (unsigned)tally->begun,
               (unsigned)tally->committed, (unsigned)tally->aborted, (unsigned)expected.moves, (unsigned)expected.begun,
               (unsigned)expected.committed, (unsigned)expected.aborted);
        failures++;
    }
    if (memcmp(&tallies[0], &untouched, sizeof untouched) != 0 ||
        memcmp(&tallies[2], &untouched, sizeof untouched) != 0) {
        printf("%s: a word beside the tally is touched\n", what);
        failures++;
    }
}

/* A run with the tally as the last one left it. */
static coordinator_answer run_on(size_t log_len, size_t room)
{
    clear();
    return coordinator_run(table, LENGTH(table), start, LENGTH(start), log_words, log_len, tally, target, room);
}

static coordinator_answer run(size_t log_len, size_t room)
{
    hand_in(untouched);
    return run_on(log_len, room);
}

static const coordinator_tally tally_a = {6, 2, 2, 0};
static const coordinator_tally tally_c = {5, 2, 0, 1};
static const coordinator_tally tally_d = {6, 2, 0, 2};

static void by_runs(void)
{
    size_t at;
    expect_members("(a)", run(log_of(case_a, LENGTH(case_a)), COORDINATOR_STATE_TARGET_WORDS), COORDINATOR_ACCEPTED,
                   LENGTH(end_a), 0, 0, 2);
    expect_target("(a)", end_a, LENGTH(end_a));
    expect_tally("(a)", tally_a);
    expect_members("(c)", run(log_of(case_c, LENGTH(case_c)), COORDINATOR_STATE_TARGET_WORDS), COORDINATOR_ACCEPTED,
                   LENGTH(end_c), 0, 0, 1);
    expect_target("(c)", end_c, LENGTH(end_c));
    expect_tally("(c)", tally_c);
    expect_members("(d)", run(log_of(case_d, LENGTH(case_d)), COORDINATOR_STATE_TARGET_WORDS), COORDINATOR_ACCEPTED,
                   LENGTH(end_d), 0, 0, 2);
    expect_target("(d)", end_d, LENGTH(end_d));
    expect_tally("(d)", tally_d);
    for (at = 0; at < LENGTH(refused); at++) {
        mv list[LENGTH(case_a)];
        memcpy(list, case_a, sizeof case_a);
        memcpy(list[refused[at].moves], refused[at].last, sizeof(mv));
        expect(refused[at].name, run(log_of((const mv *)list, refused[at].moves + 1), COORDINATOR_STATE_TARGET_WORDS),
               COORDINATOR_MOVE_REFUSED, 0, (uint32_t)refused[at].moves, refused[at].number);
        expect_target(refused[at].name, NULL, 0);
        expect_tally(refused[at].name, untouched);
    }
    {
        /* All of (a), its end included, and then a move that is refused. */
        mv list[LENGTH(case_a) + 1] = {{0}};
        memcpy(list, case_a, sizeof case_a);
        list[LENGTH(case_a)][0] = COMMIT(2);
        expect("a refused move behind an end",
               run(log_of((const mv *)list, LENGTH(list)), COORDINATOR_STATE_TARGET_WORDS), COORDINATOR_MOVE_REFUSED, 0,
               LENGTH(case_a), COORDINATOR_NO_TRANSACTION);
        expect_target("a refused move behind an end", NULL, 0);
        expect_tally("a refused move behind an end", untouched);
    }
    expect("a short log", run(log_of(case_a, LENGTH(case_a)) - 1, COORDINATOR_STATE_TARGET_WORDS),
           COORDINATOR_LOG_SIZES, 0, 0, 0);
    expect_tally("a short log", untouched);
    expect("a short target", run(log_of(case_a, LENGTH(case_a)), COORDINATOR_STATE_TARGET_WORDS - 1),
           COORDINATOR_TARGET_TOO_SHORT, 0, 0, 0);
    expect_tally("a short target", untouched);
}

/* One caller's tally through several runs: replaced by the accepted ones, left by the others. */
static void by_tallies(void)
{
    hand_in(untouched);
    run_on(log_of(case_d, LENGTH(case_d)), COORDINATOR_STATE_TARGET_WORDS);
    expect_tally("(d) first", tally_d);
    run_on(log_of(case_a, LENGTH(case_a)), COORDINATOR_STATE_TARGET_WORDS);
    expect_tally("(a) after (d)", tally_a);
    run_on(log_of(case_a, LENGTH(case_a)), COORDINATOR_STATE_TARGET_WORDS);
    expect_tally("(a) after (a)", tally_a);
    run_on(log_of(case_c, LENGTH(case_c)) - 1, COORDINATOR_STATE_TARGET_WORDS);
    expect_tally("a short log after (a)", tally_a);
    run_on(log_of(case_c, LENGTH(case_c)), COORDINATOR_STATE_TARGET_WORDS);
    expect_tally("(c) after (a)", tally_c);
    expect("(h)", run_on(log_of(NULL, 0), COORDINATOR_STATE_TARGET_WORDS), COORDINATOR_ACCEPTED, LENGTH(start), 0, 0);
    expect_target("(h)", start, LENGTH(start));
    expect_tally("(h) after (c)", none);
    hand_in(untouched);
    expect("no table", coordinator_run(NULL, 0, NULL, 0, NULL, 0, tally, NULL, 0), COORDINATOR_TABLE_SIZES, 0, 0, 0);
    expect_tally("no table", untouched);
    expect("no state", coordinator_run(table, LENGTH(table), NULL, 0, NULL, 0, tally, NULL, 0),
           COORDINATOR_STATE_SIZES, 0, 0, 0);
    expect_tally("no state", untouched);
    {
        /* Open at the start: two members in one transaction. They end, and none begins. */
        static const uint32_t merged[COORDINATOR_STATE_WORDS(2)] = {2, 9, 4, 4, 0x03000008, 0x03000004};
        static const uint32_t end[] = {0, 9};
        static const coordinator_tally expected = {1, 0, 2, 0};
        static const mv commit[] = {{COMMIT(4)}};
        clear();
        expect_members("two open at the start",
                       coordinator_run(table, LENGTH(table), merged, LENGTH(merged), log_words, log_of(commit, 1),
                                       tally, target, COORDINATOR_STATE_TARGET_WORDS),
                       COORDINATOR_ACCEPTED, LENGTH(end), 0, 0, 2);
        expect_target("two open at the start", end, LENGTH(end));
        expect_tally("two open at the start", expected);
    }
}

static coordinator_answer serialize(size_t log_len, size_t room)
{
    clear();
    return coordinator_serialize(table, LENGTH(table), start, LENGTH(start), log_words, log_len, target, room);
}

static void by_serial_logs(void)
{
    static const uint32_t serial[] = {
        6,
        0, 3, ABORT(1), 0, 3, ABORT(2),
        1, 0, 0, 0, 2, 0, 0, 0, 0, 0, 0, 0,
        0, 0, 0, 0, 2, 0, 0, 0, 0, 0, 0, 0,
    };
    static const uint32_t empty[] = {0};
    size_t len = log_of(case_d, LENGTH(case_d));
    expect("(d)", serialize(len, len), COORDINATOR_ACCEPTED, LENGTH(serial), 0, 0);
    expect_target("(d)", serial, LENGTH(serial));
    {
        /* The serial log ends as many, with the same tally. */
        static const uint32_t end[] = {2, 3, 0, 0, 0x00000009, 0x00000007};
        memcpy(log_words, serial, sizeof serial);
        expect_members("the serial log of (d)", run(LENGTH(serial), COORDINATOR_STATE_TARGET_WORDS),
                       COORDINATOR_ACCEPTED, LENGTH(end), 0, 0, 2);
        expect_target("the serial log of (d)", end, LENGTH(end));
        expect_tally("the serial log of (d)", tally_d);
        log_of(case_d, LENGTH(case_d));
    }
    expect("a short target", serialize(len, len - 1), COORDINATOR_TARGET_TOO_SHORT, 0, 0, 0);
    expect_target("a short target", NULL, 0);
    expect("(h)", serialize(log_of(NULL, 0), 1), COORDINATOR_ACCEPTED, LENGTH(empty), 0, 0);
    expect_target("(h)", empty, LENGTH(empty));
    expect("(c) ends with a transaction open", serialize(log_of(case_c, LENGTH(case_c)), LENGTH(target)),
           COORDINATOR_TRANSACTION_OPEN, 0, 0, 0);
}

static void expect_page(const char *what, coordinator_page got, uint32_t number, uint32_t words, uint64_t length)
{
    if (got.number != number || got.words != words || got.length != length) {
        printf("%s: %u %u %llu, not %u %u %llu\n", what, (unsigned)got.number, (unsigned)got.words,
               (unsigned long long)got.length, (unsigned)number, (unsigned)words, (unsigned long long)length);
        failures++;
    }
}

/* The list after some moves of (a), or a page of it. */
static coordinator_page list(size_t after, uint64_t first, uint32_t count, size_t room)
{
    uint32_t state[COORDINATOR_STATE_TARGET_WORDS];
    size_t len = moves("before a list", case_a, after, state);
    clear();
    return coordinator_list_moves(table, LENGTH(table), state, len, first, count, target, room);
}

static void by_lists(void)
{
    static const mv after_0[] = {{0, 0}, {0, 1}};
    static const mv after_1[] = {{0, 0}, {1, 2}, {3, 2}};
    static const mv after_2[] = {{1, 1}, {1, 4}, {3, 1}, {3, 4}};
    static const mv after_3[] = {{1, 3}, {3, 3}};
    static const mv after_4[] = {{2, 4, 5}, {2, 5, 4}};
    static const mv after_5[] = {{COMMIT(1)}};
    static const struct {
        const mv *moves;
        uint32_t count;
    } lists[] = {
        {after_0, 2}, {after_1, 3}, {after_2, 4}, {after_3, 2}, {after_4, 2}, {after_5, 1}, {NULL, 0},
    };
    const uint32_t page_words = COORDINATOR_PAGE_TARGET_WORDS(8u);
    size_t after;
    for (after = 0; after < LENGTH(lists); after++) {
        const uint32_t words = COORDINATOR_MOVE_WORDS * lists[after].count;
        expect_page("a list", list(after, 0, 8, page_words), COORDINATOR_ACCEPTED, words, lists[after].count);
        expect_target("a list", (const uint32_t *)lists[after].moves, words);
    }
    expect_page("two from the middle", list(2, 1, 2, 10), COORDINATOR_ACCEPTED, 10, 4);
    expect_target("two from the middle", after_2[1], 10);
    expect_page("the last", list(2, 3, 8, page_words), COORDINATOR_ACCEPTED, 5, 4);
    expect_target("the last", after_2[3], 5);
    expect_page("behind the end", list(2, 4, 8, page_words), COORDINATOR_ACCEPTED, 0, 4);
    expect_page("the largest first place", list(2, UINT64_MAX, 8, page_words), COORDINATOR_ACCEPTED, 0, 4);
    expect_page("a first place over 32 bits", list(2, (uint64_t)1 << 32, 8, page_words), COORDINATOR_ACCEPTED, 0, 4);
    expect_target("an empty page", NULL, 0);
    expect_page("the length alone", list(2, 0, 0, 0), COORDINATOR_ACCEPTED, 0, 4);
    expect_page("the largest count", list(2, 0, UINT32_MAX, COORDINATOR_PAGE_TARGET_WORDS(UINT32_MAX)),
                COORDINATOR_ACCEPTED, 20, 4);
    expect_page("a short target", list(2, 0, UINT32_MAX, 5 * COORDINATOR_MAX_PAGE_MOVES - 1),
                COORDINATOR_TARGET_TOO_SHORT, 0, 0);
    expect_target("a short target", NULL, 0);
    expect_page("no state", coordinator_list_moves(table, LENGTH(table), NULL, 0, 0, 1, target, LENGTH(target)),
                COORDINATOR_STATE_SIZES, 0, 0);
    {
        /* Longer than 32 bits can count: 64 rules that each take any four of 1,024 messages. */
        static uint32_t fours[COORDINATOR_TABLE_WORDS(4 * 64)], full[COORDINATOR_STATE_TARGET_WORDS];
        const uint64_t length = (uint64_t)64 * 1024 * 1023 * 1022 * 1021;
        const mv last[] = {{63, 1023, 1022, 1021, 1020}};
        size_t at;
        fours[0] = 1;
        fours[3] = 64;
        fours[4] = 4 * 64;
        for (at = 0; at < 4 * 64; at++) {
            fours[5 + at] = (uint32_t)at / 4;
        }
        full[0] = 1024;
        full[1] = 1;
        clear();
        expect_page("the longest list",
                    coordinator_list_moves(fours, LENGTH(fours), full, LENGTH(full), length - 1, 1, target, 5),
                    COORDINATOR_ACCEPTED, 5, length);
        expect_target("the longest list", last[0], 5);
    }
}

/* Transaction 2 has an abort mark and a message that rule 2 would merge with transaction 1's. */
static void by_abort_mark(void)
{
    static const uint32_t stopped[COORDINATOR_STATE_WORDS(7)] = {
        7, 3,
        1, 1, 2, 2, 1, 2, 2,
        0x03000001, 0x01000007, 0x03000002, 0x01000009, 0x00030007, 0x02000000, 0x00030009,
    };
    static const uint32_t end[] = {4, 3, 1, 1, 0, 1, 0x03000001, 0x01000007, 0x00000009, 0x00030007};
    static const mv list[] = {{2, 4, 6}, {ABORT(2)}};
    clear();
    hand_in(untouched);
    expect("a merge with an abort mark",
           coordinator_move(table, LENGTH(table), stopped, LENGTH(stopped), list[0], COORDINATOR_MOVE_WORDS, target,
                            COORDINATOR_STATE_TARGET_WORDS),
           COORDINATOR_TRANSACTION_ABORTING, 0, 0, 0);
    expect("the same in a run",
           coordinator_run(table, LENGTH(table), stopped, LENGTH(stopped), log_words, log_of(list, LENGTH(list)),
                           tally, target, COORDINATOR_STATE_TARGET_WORDS),
           COORDINATOR_MOVE_REFUSED, 0, 0, COORDINATOR_TRANSACTION_ABORTING);
    expect_tally("the same in a run", untouched);
    expect_target("a merge with an abort mark", NULL, 0);
    expect_preview("a preview of that merge",
                   coordinator_preview(table, LENGTH(table), stopped, LENGTH(stopped), list[0], COORDINATOR_MOVE_WORDS),
                   COORDINATOR_TRANSACTION_ABORTING, 0, 0, 0);
    expect_preview_members("a preview of the abort",
                           coordinator_preview(table, LENGTH(table), stopped, LENGTH(stopped), list[1],
                                               COORDINATOR_MOVE_WORDS),
                           COORDINATOR_ACCEPTED, 4, 3, 2, 1);
    expect_page("a list with an abort mark",
                coordinator_list_moves(table, LENGTH(table), stopped, LENGTH(stopped), 0, 8, target,
                                       COORDINATOR_PAGE_TARGET_WORDS(8u)),
                COORDINATOR_ACCEPTED, COORDINATOR_MOVE_WORDS, 1);
    expect_target("a list with an abort mark", list[1], COORDINATOR_MOVE_WORDS);
    clear();
    expect_members("the abort",
                   coordinator_move(table, LENGTH(table), stopped, LENGTH(stopped), list[1], COORDINATOR_MOVE_WORDS,
                                    target, COORDINATOR_STATE_TARGET_WORDS),
                   COORDINATOR_ACCEPTED, LENGTH(end), 0, 0, 1);
    expect_target("the abort", end, LENGTH(end));
}

/* Four words in this order, and nothing between or behind them. */
_Static_assert(offsetof(coordinator_unattended, number) == 0, "number");
_Static_assert(offsetof(coordinator_unattended, words) == 4, "words");
_Static_assert(offsetof(coordinator_unattended, moves) == 8, "moves");
_Static_assert(offsetof(coordinator_unattended, still) == 12, "still");
_Static_assert(sizeof(coordinator_unattended) == 16, "an unattended run's answer");

static void expect_alone(const char *what, coordinator_unattended got, uint32_t number, uint32_t words, uint32_t made,
                         uint32_t still)
{
    if (got.number != number || got.words != words || got.moves != made || got.still != still) {
        printf("%s: %u %u %u %u, not %u %u %u %u\n", what, (unsigned)got.number, (unsigned)got.words,
               (unsigned)got.moves, (unsigned)got.still, (unsigned)number, (unsigned)words, (unsigned)made,
               (unsigned)still);
        failures++;
    }
}

/* The plant left alone after some moves of (a). */
static coordinator_unattended alone(size_t after, uint32_t budget, size_t room)
{
    uint32_t state[COORDINATOR_STATE_TARGET_WORDS];
    size_t len = moves("before the plant is left alone", case_a, after, state);
    clear();
    return coordinator_run_unattended(table, LENGTH(table), state, len, budget, target, room);
}

/* It makes log (a), as far as the budget goes. */
static void by_budgets(void)
{
    const size_t room = COORDINATOR_LOG_WORDS(COORDINATOR_MAX_MOVES);
    uint32_t budget, made, words;
    size_t after;
    for (after = 0; after <= LENGTH(case_a); after++) {
        const uint32_t left = (uint32_t)(LENGTH(case_a) - after);
        for (budget = 0; budget <= LENGTH(case_a) + 1; budget++) {
            made = budget < left ? budget : left;
            words = (uint32_t)log_of(case_a + after, made);
            expect_alone("alone", alone(after, budget, COORDINATOR_LOG_WORDS(budget)), COORDINATOR_ACCEPTED, words,
                         made, budget >= left);
            expect_target("alone", log_words, words);
            expect_alone("alone, a longer target", alone(after, budget, room), COORDINATOR_ACCEPTED, words, made,
                         budget >= left);
            expect_target("alone, a longer target", log_words, words);
            expect_alone("alone, a short target", alone(after, budget, COORDINATOR_LOG_WORDS(budget) - 1),
                         COORDINATOR_TARGET_TOO_SHORT, 0, 0, 0);
            expect_target("alone, a short target", NULL, 0);
        }
    }
    words = (uint32_t)log_of(case_a, LENGTH(case_a));
    expect_alone("the largest budget", alone(0, COORDINATOR_MAX_MOVES, room), COORDINATOR_ACCEPTED, words, 6, 1);
    expect_target("the largest budget", log_words, words);
    /* What was written is a log as it stands. */
    memcpy(log_words, target, words * sizeof *target);
    expect_members("its log", run(words, COORDINATOR_STATE_TARGET_WORDS), COORDINATOR_ACCEPTED, LENGTH(end_a), 0, 0, 2);
    expect_target("its log", end_a, LENGTH(end_a));
    expect_tally("its log", tally_a);
    expect_alone("the largest budget, a short target", alone(0, COORDINATOR_MAX_MOVES, room - 1),
                 COORDINATOR_TARGET_TOO_SHORT, 0, 0, 0);
    expect_alone("one move too many", alone(0, COORDINATOR_MAX_MOVES + 1, LENGTH(target)), COORDINATOR_BUDGET_TOO_LARGE,
                 0, 0, 0);
    expect_alone("one move too many, no target", alone(0, COORDINATOR_MAX_MOVES + 1, 0), COORDINATOR_BUDGET_TOO_LARGE,
                 0, 0, 0);
    expect_alone("no budget is larger", alone(0, UINT32_MAX, LENGTH(target)), COORDINATOR_BUDGET_TOO_LARGE, 0, 0, 0);
    expect_target("a budget too large", NULL, 0);
}

/* Budgets where other lists are at fault, and a plant that never rests. */
static void by_odd_budgets(void)
{
    static const uint32_t wrong[COORDINATOR_STATE_WORDS(1)] = {1, 2, 1, 7};
    /* Two rules that pass one message to and fro. */
    static const uint32_t turning[COORDINATOR_TABLE_WORDS(4)] = {
        2, 0, 0, 2, 4, 0, 0, 1, 1, 0x00000000, 0x11010000, 0x00010000, 0x11000000,
    };
    static const uint32_t one[COORDINATOR_STATE_WORDS(1)] = {1, COORDINATOR_MAX_NEXT, 0, 7};
    static uint32_t turns[COORDINATOR_LOG_WORDS(COORDINATOR_MAX_MOVES)];
    uint32_t at;
    expect_alone("no table", coordinator_run_unattended(NULL, 0, NULL, 0, UINT32_MAX, NULL, 0), COORDINATOR_TABLE_SIZES,
                 0, 0, 0);
    expect_alone("no state", coordinator_run_unattended(table, LENGTH(table), NULL, 0, UINT32_MAX, NULL, 0),
                 COORDINATOR_STATE_SIZES, 0, 0, 0);
    expect_alone("a wrong state",
                 coordinator_run_unattended(table, LENGTH(table), wrong, LENGTH(wrong), UINT32_MAX, NULL, 0),
                 COORDINATOR_STATE_CONTENTS, 0, 0, 0);
    expect_alone("no target", coordinator_run_unattended(table, LENGTH(table), start, LENGTH(start), 0, NULL, 0),
                 COORDINATOR_TARGET_TOO_SHORT, 0, 0, 0);
    turns[0] = COORDINATOR_MAX_MOVES;
    for (at = 0; at < COORDINATOR_MAX_MOVES; at++) {
        turns[1 + at] = at % 2;
    }
    clear();
    expect_alone("for ever",
                 coordinator_run_unattended(turning, LENGTH(turning), one, LENGTH(one), COORDINATOR_MAX_MOVES, target,
                                            LENGTH(turns)),
                 COORDINATOR_ACCEPTED, LENGTH(turns), COORDINATOR_MAX_MOVES, 0);
    expect_target("for ever", turns, LENGTH(turns));
}

int main(void)
{
    checks();
    by_moves();
    by_previews();
    by_odd_previews();
    by_runs();
    by_tallies();
    by_serial_logs();
    by_lists();
    by_abort_mark();
    by_budgets();
    by_odd_budgets();
    printf("%u failed\n", failures);
    return failures != 0;
}
