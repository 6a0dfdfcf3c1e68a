/* The proved seat roster, for C. Link libroster.a, which tools/native-lib makes.
 *
 * A board is roster_words() words, lent as a pointer and a number; any other number of words is answered 1. A step answers
 * document 01's number and writes two words to `results` at every call: the count handled and the draws used. After a
 * refusal every word of the board is as before; of a step over several shards (schedule, cut) the work on the shards before
 * the refused one stands and is counted. Nothing is allocated, nothing is kept, and every call returns.
 * What is lent to one call must not overlap. A pointer may be NULL only where the number beside it is 0.
 */
#ifndef ROSTER_H
#define ROSTER_H

#include <stddef.h>
#include <stdint.h>

#ifdef __cplusplus
extern "C" {
#endif

#define ROSTER_WORDS 5861
#define ROSTER_SNAPSHOT_MOST 46816

/* Document 01's answers. */
enum roster_answer {
    ROSTER_DONE = 0,
    ROSTER_NOT_WELL_FORMED = 1, /* board not well-formed */
    ROSTER_LAST_EPOCH = 2,      /* tick at the last epoch */
    ROSTER_OUT_OF_RANGE = 3,    /* shard 0 or over 65535, target over 32767, side over 1 */
    ROSTER_NO_RECORD = 4,       /* leave, or a cut's half or seat: the machine has no record */
    ROSTER_NO_BOUNDARY = 5,     /* admission, cut, or a terminal due: a boundary is missing */
    ROSTER_NOT_THERE = 6,       /* mark: no such reshape, seat or side; cohort: need unmet; lapse: no split */
    ROSTER_FAMILY_TAKEN = 7,    /* admission: family named already, a committee missing, or one to be made exists */
    ROSTER_VICTIM_UNFIT = 8,    /* rotate: the victim is not seated there, or is a party already */
    ROSTER_DRAW_MISSING = 9,    /* next needed draw is missing */
    ROSTER_DRAW_TOO_LARGE = 10, /* next needed draw is larger than allowed */
    ROSTER_NO_ROOM = 11,        /* a limit would be passed, room lent too short, or an id twice in a committee */
    ROSTER_POOL_TOO_SMALL = 12, /* cohort draw with fewer than S pooled */
    ROSTER_NOT_A_SNAPSHOT = 13  /* a snapshot isn't a well-formed board's */
};

/* The steps' numbers, for roster_apply, with their arguments, first and second, and whether they take draws. */
enum roster_step {
    ROSTER_TICK = 1,
    ROSTER_ADMIT_SPLIT = 2,     /* target */
    ROSTER_ADMIT_MERGE = 3,     /* target; draws */
    ROSTER_MARK_SEAT_READY = 4, /* target, machine */
    ROSTER_MARK_QUIET = 5,      /* target, side */
    ROSTER_DRAW_COHORT = 6,     /* target; draws */
    ROSTER_LAPSE = 7,           /* target */
    ROSTER_SCHEDULE_SPLITS = 8, /* draws */
    ROSTER_SCHEDULE_MERGES = 9,
    ROSTER_CUT_SPLITS = 10,
    ROSTER_CUT_MERGES = 11,
    ROSTER_LEAVE = 12,  /* machine; draws */
    ROSTER_ROTATE = 13, /* shard, victim; draws */
    ROSTER_RESOLVE = 14,
    ROSTER_TIME_OUT = 15
};

/* What roster_apply answers where no step has the number. */
#define ROSTER_NO_SUCH_STEP 15

/* How many words a board is, and the most bytes that a snapshot has. */
uint64_t roster_words(void);
uint64_t roster_snapshot_most(void);

/* 1 if the words hold a well-formed board, else 0. */
uint64_t roster_well_formed(const uint64_t *board, size_t words);

/* 1 if the words hold a board that passes the seat check, else 0. */
uint64_t roster_seat_check(const uint64_t *board, size_t words);

/* The board whose snapshot the bytes are, into lent words; words past the board stay. Answers 0, 11, 13. */
uint64_t roster_read(const uint8_t *snapshot, size_t bytes, uint64_t *board, size_t words);

/* The board's snapshot into lent bytes, and how many it has; bytes past it stay. Answers 0, 1, 11. */
uint64_t roster_write(const uint64_t *board, size_t words, uint8_t *snapshot, size_t bytes, uint64_t *length);

/* The steps. */
uint64_t roster_tick(uint64_t *board, size_t words, uint64_t results[2]);
uint64_t roster_time_out(uint64_t *board, size_t words, uint64_t results[2]);
uint64_t roster_mark_seat_ready(uint64_t *board, size_t words, uint64_t target, uint64_t machine, uint64_t results[2]);
/* side 0 is left, and a split's only one; 1 is right */
uint64_t roster_mark_quiet(uint64_t *board, size_t words, uint64_t target, uint64_t side, uint64_t results[2]);
uint64_t roster_leave(uint64_t *board, size_t words, uint64_t machine, const uint64_t *draws, size_t number, uint64_t results[2]);
/* `machine` is the victim */
uint64_t roster_rotate(uint64_t *board, size_t words, uint64_t shard, uint64_t machine, const uint64_t *draws, size_t number,
                       uint64_t results[2]);
uint64_t roster_resolve(uint64_t *board, size_t words, uint64_t results[2]);
uint64_t roster_admit_split(uint64_t *board, size_t words, uint64_t target, uint64_t results[2]);
uint64_t roster_admit_merge(uint64_t *board, size_t words, uint64_t target, const uint64_t *draws, size_t number,
                            uint64_t results[2]);
uint64_t roster_draw_cohort(uint64_t *board, size_t words, uint64_t target, const uint64_t *draws, size_t number,
                            uint64_t results[2]);
uint64_t roster_lapse(uint64_t *board, size_t words, uint64_t target, uint64_t results[2]);
uint64_t roster_schedule_splits(uint64_t *board, size_t words, const uint64_t *draws, size_t number, uint64_t results[2]);
uint64_t roster_schedule_merges(uint64_t *board, size_t words, uint64_t results[2]);
uint64_t roster_cut_splits(uint64_t *board, size_t words, uint64_t results[2]);
uint64_t roster_cut_merges(uint64_t *board, size_t words, uint64_t results[2]);

/* roster_read, a step by its number and roster_write in one call, with a board's rules asked once. Answers the step's number,
 * and writes to `results` the count handled, the draws used and the length of the snapshot in `after`; after a step's refusal
 * that is the snapshot read. Words past the board and bytes past the snapshot stay. With nothing written at all it answers
 * ROSTER_NO_SUCH_STEP; 11 where `room` is below ROSTER_SNAPSHOT_MOST or `words` below ROSTER_WORDS; 13 where the bytes are no
 * snapshot. Arguments and draws that a step doesn't take are not looked at. */
uint64_t roster_apply(const uint8_t *snapshot, size_t bytes, uint64_t step, uint64_t first, uint64_t second, const uint64_t *draws,
                      size_t number, uint64_t *board, size_t words, uint8_t *after, size_t room, uint64_t results[3]);

#ifdef __cplusplus
}
#endif

#endif
