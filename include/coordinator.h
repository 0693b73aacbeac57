/*
 * The batch coordinator: link libcoordinator.a. docs/GUIDE.md works an example through word by word.
 *
 * Tables, states, moves and logs are lists of 32-bit words; document 01 gives their layout. Each
 * call takes a list as a pointer and its length in words. It checks everything that it is handed,
 * of any length and content, and answers in numbers: COORDINATOR_ACCEPTED, or why it is refused,
 * the first fault in the order given with the call.
 *
 * What the caller owes: each pointer is valid for its length (any pointer will do for length 0),
 * and the target overlaps none of the other lists. A run's tally is not null, and overlaps neither
 * the target nor a list. Nothing is kept between calls, nothing is allocated, and calls may be made
 * from several threads at once.
 *
 * A refused call leaves the whole target as it was, and a tally too. An accepted one writes as many
 * words to the target's front as the answer says and leaves the rest as it was.
 *
 * Stack: every call runs in a thread of COORDINATOR_STACK_BYTES. The figure with each call is the
 * most that was measured at full size, rounded up.
 *
 * Names are the usual ones of transactions. Document 01's words for them, here and in brackets below:
 *   global, local, merge port   plant, batch, joining port
 *   transaction, id, member     batch, ticket, lot
 *   message, compensation       note, call-off note
 *   consume, emit, begin        take, give, open
 *   abort mark, member mark     stop mark, lot mark
 *   commit, abort               release, call off
 *   enabled move                open move (document 02)
 */
#ifndef COORDINATOR_H
#define COORDINATOR_H

#include <stddef.h>
#include <stdint.h>

#ifdef __cplusplus
extern "C" {
#endif

/* Raised when a struct or a signature below changes; a call that is added changes neither. The linker does
 * not notice: a program that was built with a header of another number must be built again. */
#define COORDINATOR_ABI 3u

/* Limits and sizes. */
#define COORDINATOR_MAX_PORTS 256u       /* of a table, all three classes together */
#define COORDINATOR_MAX_RULES 64u        /* of a table */
#define COORDINATOR_MAX_ATOMS 512u       /* of a table */
#define COORDINATOR_MAX_RULE_ATOMS 16u   /* of a rule, its consumes (takes) included */
#define COORDINATOR_MAX_CONSUMES 4u      /* consumes (takes) of a rule, picks of a move */
#define COORDINATOR_MAX_ENTRIES 1024u    /* of a state */
#define COORDINATOR_MAX_NEXT 65536u      /* next id (ticket) of a state */
#define COORDINATOR_MAX_MOVES 1024u      /* of a log, and so of the budget of an unattended run */
#define COORDINATOR_MAX_PAGE_MOVES 256u  /* of a page of the list of enabled moves, whatever is asked for */
#define COORDINATOR_MOVE_WORDS 5u
#define COORDINATOR_STATE_TARGET_WORDS 2050u /* of a target for a state, however small the state */
#define COORDINATOR_STACK_BYTES 262144u

/* Words of a list with these counts. A target for a serial log has those of its log, one for an unattended run
 * those of a log with as many moves as its budget. */
#define COORDINATOR_TABLE_WORDS(atoms) (5u + 2u * (atoms))
#define COORDINATOR_STATE_WORDS(entries) (2u + 2u * (entries))
#define COORDINATOR_LOG_WORDS(moves) (1u + 5u * (moves))

/* Words of a target for a page of this count. */
#define COORDINATOR_PAGE_TARGET_WORDS(count) \
    (5u * ((count) < COORDINATOR_MAX_PAGE_MOVES ? (count) : COORDINATOR_MAX_PAGE_MOVES))

/* Numbers. */
#define COORDINATOR_ACCEPTED 0u          /* a check passed, words were written, or a preview has figures */

/* Numbers: a list is not well formed, or not fit for the call. */
#define COORDINATOR_TABLE_SIZES 1u       /* table: a size is over its limit or does not fit the length */
#define COORDINATOR_TABLE_CONTENTS 2u    /* table: a rule number or an atom is wrong */
#define COORDINATOR_STATE_SIZES 3u       /* state: count or next id (ticket) not valid, or length does not fit */
#define COORDINATOR_STATE_CONTENTS 4u    /* state: an entry is wrong, or a transaction lacks its own member mark */
#define COORDINATOR_MOVE_FORM 5u         /* move: length not 5, kind, rule or id (ticket) not valid, or spare pick not 0 */
#define COORDINATOR_TARGET_TOO_SHORT 6u  /* target: below STATE_TARGET_WORDS, LOG_WORDS(k) or PAGE_TARGET_WORDS(count) */
#define COORDINATOR_LOG_SIZES 13u        /* log: count over 1,024, or does not fit the length */
#define COORDINATOR_BEGIN_EMITS 14u      /* a rule of the table begins a transaction and emits (serialize only) */
#define COORDINATOR_BUDGET_TOO_LARGE 19u /* budget: over 1,024 (run_unattended only) */

/* Numbers: the state does not allow the move or the log. */
#define COORDINATOR_WRONG_PICK 7u        /* a picked entry is missing, picked twice, no message, or on the wrong port */
#define COORDINATOR_WRONG_OWNER 8u       /* the rule may not consume from the owners of the picked messages */
#define COORDINATOR_NO_TRANSACTION 9u    /* no transaction (batch) is open under this id (ticket) */
#define COORDINATOR_END_NOT_ALLOWED 10u  /* commit with abort mark or message off the global ports, abort without mark */
#define COORDINATOR_NO_MORE_IDS 11u      /* a transaction cannot begin, all ids are used up: the next is 65,536 */
#define COORDINATOR_TOO_MANY_ENTRIES 12u /* the state would have more than 1,024 entries */
#define COORDINATOR_TRANSACTION_OPEN 15u /* a transaction is open before or after the log (serialize only) */
#define COORDINATOR_MOVE_REFUSED 16u     /* one of the log's moves is refused: place and own tell which and why */
#define COORDINATOR_SERIAL_TOO_MANY_ENTRIES 17u /* a state along the serial log would have more than 1,024 entries */
#define COORDINATOR_TRANSACTION_ABORTING 18u /* the transaction of a picked message has an abort mark: abort it */

typedef struct coordinator_answer {
    uint32_t number;  /* one of the numbers above */
    uint32_t words;   /* accepted: the words written, 0 by a check; else 0 */
    uint32_t place;   /* COORDINATOR_MOVE_REFUSED: the move's place in the log, from 0; else 0 */
    uint32_t own;     /* COORDINATOR_MOVE_REFUSED: the move's own number, 5, 7 to 12, or 18; else 0 */
    uint32_t members; /* accepted move or run: the member marks (lot marks) that it removed; else 0 */
} coordinator_answer;

typedef struct coordinator_preview_answer {
    uint32_t number;  /* one of the numbers above */
    uint32_t entries; /* accepted: the entries of the state after the move; else 0 */
    uint32_t next;    /* accepted: the next id (ticket) of that state; else 0 */
    uint32_t id;      /* accepted: the transaction (batch) that the move begins, reacts in, commits or aborts,
                         the smallest of those that it merges, 0 for a global rule without begin; else 0 */
    uint32_t members; /* accepted: the member marks (lot marks) that the move would remove; else 0 */
} coordinator_preview_answer;

/* What a run counts, in the caller's memory. Each run counts from zero: an accepted one replaces all four
 * figures, a refused one leaves them as they were. After an accepted run the member marks open at the start
 * and those begun are together as many as those committed, those aborted and those still open. */
typedef struct coordinator_tally {
    uint32_t moves;     /* the moves made: all of the log's */
    uint32_t begun;     /* the members begun (lots opened): reactions by a rule with a begin */
    uint32_t committed; /* the member marks (lot marks) that commits removed: lots released */
    uint32_t aborted;   /* the member marks that aborts removed: lots called off */
} coordinator_tally;

typedef struct coordinator_page {
    uint32_t number; /* one of the numbers above */
    uint32_t words;  /* accepted: the words written, 5 for each move of the page; else 0 */
    uint64_t length; /* accepted: the moves of the whole list; else 0 */
} coordinator_page;

typedef struct coordinator_unattended {
    uint32_t number; /* one of the numbers above */
    uint32_t words;  /* accepted: the words written, COORDINATOR_LOG_WORDS(moves); else 0 */
    uint32_t moves;  /* accepted: the moves made; else 0 */
    uint32_t still;  /* accepted: 1 (still) if no move is enabled in the state reached, 0 (spent) if one is; else 0 */
} coordinator_unattended;

/* Whether a table is well formed.
 * Refusals: 1, 2. Stack: 1.0 KB. */
coordinator_answer coordinator_check_table(const uint32_t *table, size_t table_len);

/* Whether a state is well formed under its table.
 * Refusals: 1, 2, 3, 4. Stack: 17.1 KB. */
coordinator_answer coordinator_check_state(const uint32_t *table, size_t table_len,
                                           const uint32_t *state, size_t state_len);

/* The state after one move, and the member marks that it removed: all of the transaction that it commits or
 * aborts, 0 for a reaction.
 * Refusals: 1, 2, 3, 4, 5, 6, 7, 8, 18, 9, 10, 11, 12. Stack: 25.4 KB. */
coordinator_answer coordinator_move(const uint32_t *table, size_t table_len,
                                    const uint32_t *state, size_t state_len,
                                    const uint32_t *move, size_t move_len,
                                    uint32_t *target, size_t target_len);

/* What one move would do: the number of coordinator_move with a long enough target, its members, and the
 * entries and next id of the state after it. No move is made and there is no target, so there is no 6. The
 * answer is for the state handed in: after another move, ask again.
 * Refusals: 1, 2, 3, 4, 5, 7, 8, 18, 9, 10, 11, 12. Stack: 23.5 KB. */
coordinator_preview_answer coordinator_preview(const uint32_t *table, size_t table_len,
                                               const uint32_t *state, size_t state_len,
                                               const uint32_t *move, size_t move_len);

/* The state after a log's moves, one after another, their members added up, and the tally of them. No other
 * call takes a tally.
 * Refusals: 1, 2, 3, 4, 13, 6, 16. Stack: 25.5 KB. */
coordinator_answer coordinator_run(const uint32_t *table, size_t table_len,
                                   const uint32_t *state, size_t state_len,
                                   const uint32_t *log, size_t log_len,
                                   coordinator_tally *tally,
                                   uint32_t *target, size_t target_len);

/* The serial log of a log: the same moves, those of each transaction directly before its end. Its run
 * removes as many member marks as the log's.
 * Refusals: 1, 2, 3, 4, 13, 6, 14, 15 (start), 16, 15 (end), 17. Stack: 54.4 KB. */
coordinator_answer coordinator_serialize(const uint32_t *table, size_t table_len,
                                         const uint32_t *state, size_t state_len,
                                         const uint32_t *log, size_t log_len,
                                         uint32_t *target, size_t target_len);

/* A page of the list of all enabled moves: those that coordinator_move, given a long enough
 * target, would accept, each once, by head and then by picks. Its first move has the place first in
 * the list, from 0; it has count moves, at most COORDINATOR_MAX_PAGE_MOVES, or what the list has from
 * there on. The target wants
 * COORDINATOR_PAGE_TARGET_WORDS(count) words in any case; with count 0 that is none, and the length
 * is the answer.
 * Refusals: 1, 2, 3, 4, 6. Stack: 67.5 KB. */
coordinator_page coordinator_list_moves(const uint32_t *table, size_t table_len,
                                        const uint32_t *state, size_t state_len,
                                        uint64_t first, uint32_t count,
                                        uint32_t *target, size_t target_len);

/* The log of a run that nobody attends: the first move of the list of enabled moves is made, then the first of the
 * list that this leaves, and so on, until no move is enabled (still) or as many are made as the budget has (spent, if
 * one is enabled even then). The log alone is written. coordinator_run accepts it from the same state and gives the
 * state reached and a tally; this call takes none. A larger budget gives the same moves, and perhaps more behind them.
 * The target wants COORDINATOR_LOG_WORDS(budget) words, however few moves are made; the words behind the log stay as
 * they were.
 * Refusals: 1, 2, 3, 4, 19, 6. Stack: 56.0 KB. */
coordinator_unattended coordinator_run_unattended(const uint32_t *table, size_t table_len,
                                                  const uint32_t *state, size_t state_len,
                                                  uint32_t budget,
                                                  uint32_t *target, size_t target_len);

#ifdef __cplusplus
}
#endif

#endif
