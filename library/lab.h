/* For x86-64 Linux alone. The proved judge, tape, book and answer to reset as a library, written by tools/lab-headers from
   crates/lab/src: what each function promises stands there as an equation. There is no state, and no call that has to come first.
   A pointer is never null, also where its length is 0; what is lent to be written may not overlap anything else that is lent. */
#ifndef LAB_H
#define LAB_H

#include <stdbool.h>
#include <stddef.h>
#include <stdint.h>

#ifdef __cplusplus
extern "C" {
#endif

/* Any bytes reopened. 0: the blocks used and the four counts, PASS, FAIL, INCONCLUSIVE, UNREADABLE. Else the fault, and the
   block first. */
uint8_t lab_book_open(const uint8_t *bytes, size_t bytes_length, uint64_t end[5]);

/* An entry handed in to a book that has so many blocks used: 0 entered, 1 no verdict, 2 already entered, 3 full. */
uint8_t lab_book_enter(uint32_t used, uint32_t tape, uint8_t verdict, uint32_t place, uint32_t code, uint8_t *bytes, size_t bytes_length);

/* The verdict of a tape (1 PASS, 2 FAIL, 3 INCONCLUSIVE, 4 UNREADABLE), its place, its code, and the number of zeros. */
void lab_judge(const uint8_t *tape, size_t tape_length, uint64_t finding[4]);

/* The same numbers by the quick judge. */
void lab_judge_quick(const uint8_t *tape, size_t tape_length, uint64_t finding[4]);

/* What is due after the entries of a tape: its kind, and the number of its bytes, which stand at the start of `out`, or of
   what is wanted. Kind 0: nothing is due; 255: its bytes do not fit; 254: the tape is unreadable, beside the code. */
void lab_due(const uint8_t *tape, size_t tape_length, uint64_t next[2], uint8_t *out, size_t out_length);

/* An answer to reset, after a cold or a warm one. True: inverse, F, D, N, interval, specific, the protocol, its parameters
   (WI; or IFSC, BWI and CWI) with zeros behind them, and where the historical bytes start and end. False: inverse, the rules
   broken, the first, its place. */
bool lab_atr(const uint8_t *capture, size_t capture_length, bool warm, uint64_t told[12]);

/* One entry more on a tape that has so many blocks used, under a session number: 0, or the number under which it is turned
   away. */
uint8_t lab_append(
    size_t used,
    uint32_t session,
    uint8_t kind,
    const uint8_t *payload, size_t payload_length,
    uint8_t *tape, size_t tape_length
);

/* The next good block of any bytes at or after a step: the step it stands at, its number, session number and kind, and where
   its payload starts and how long it is. False, and nothing changes, where there is none. */
bool lab_recover(const uint8_t *bytes, size_t bytes_length, size_t step, uint64_t block[6]);

#ifdef __cplusplus
}
#endif

#endif
