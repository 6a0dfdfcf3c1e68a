/* A board of settings alone, ticked once, written and read back:
 *
 *     tools/native-lib && cc -Iinclude include/example.c target/native/libroster.a -o /tmp/example && /tmp/example
 */
#include <stdio.h>
#include <string.h>

#include "roster.h"

static uint64_t board[ROSTER_WORDS];
static uint64_t again[ROSTER_WORDS];
static uint8_t snapshot[ROSTER_SNAPSHOT_MOST];
static uint8_t next[ROSTER_SNAPSHOT_MOST];

static int check(int holds, const char *what)
{
    printf("%s: %s\n", holds ? "ok" : "FAILED", what);
    return holds ? 0 : 1;
}

int main(void)
{
    /* six settings: epoch 5, S 4, D 2, W 3, interval 10, in flight 2 */
    static const uint64_t settings[7] = {6, 5, 4, 2, 3, 10, 2};
    uint64_t results[2], told[3], length = 0;
    int failed = 0;

    failed += check(roster_words() == ROSTER_WORDS && roster_snapshot_most() == ROSTER_SNAPSHOT_MOST, "the sizes");
    failed += check(roster_tick(board, ROSTER_WORDS, results) == ROSTER_NOT_WELL_FORMED, "zeros hold no board");
    memcpy(board, settings, sizeof settings);
    failed += check(roster_well_formed(board, ROSTER_WORDS) == 1, "the settings do");
    failed += check(roster_seat_check(board, ROSTER_WORDS) == 1, "and pass the seat check");
    failed += check(roster_tick(board, ROSTER_WORDS, results) == ROSTER_DONE && results[0] == 1 && results[1] == 0 && board[1] == 6,
                    "a tick");
    failed += check(roster_leave(board, ROSTER_WORDS, 7, NULL, 0, results) == ROSTER_NO_RECORD, "nobody can leave");
    failed += check(roster_write(board, ROSTER_WORDS, snapshot, sizeof snapshot, &length) == ROSTER_DONE && length == 96,
                    "a snapshot written");
    failed += check(roster_read(snapshot, length, again, ROSTER_WORDS) == ROSTER_DONE && memcmp(board, again, sizeof board) == 0,
                    "and read back");
    failed += check(roster_apply(snapshot, length, ROSTER_TICK, 0, 0, NULL, 0, again, ROSTER_WORDS, next, sizeof next, told) == ROSTER_DONE
                        && told[0] == 1 && told[1] == 0 && told[2] == length && again[1] == 7 && next[8] == 7,
                    "read, ticked and written in one call");
    return failed == 0 ? 0 : 1;
}
