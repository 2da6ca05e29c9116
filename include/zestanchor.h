/* Zestanchor settles formulas of intuitionistic propositional logic. This is its one function on bytes, for C and C++. Link
   target/staticlib/libzestanchor.a, which `./build libzestanchor.a` writes; it needs memcpy and memset and nothing else. */
#ifndef ZESTANCHOR_H
#define ZESTANCHOR_H

#include <stddef.h>
#include <stdint.h>

/* The tasks. */
#define ZESTANCHOR_SETTLE 0  /* settles a text and writes its report, which is what the program `settle` prints */
#define ZESTANCHOR_CERTIFY 1 /* settles a text and writes the sheet of its verdict or, if it is refused, the line of its refusal */
#define ZESTANCHOR_CHECK 2   /* judges a sheet and writes the line that the program `check_sheet` prints */
#define ZESTANCHOR_LENGTH 3  /* tells how long what task 1 gives for a text is, and writes nothing */
#define ZESTANCHOR_SCREEN 4  /* screens a text of at most three letters and writes the line that `screen` prints in a script */

/* What any other task returns. */
#define ZESTANCHOR_NO_TASK SIZE_MAX

/* A sheet has at least so many bytes and the line of a refusal fewer, so the length tells them apart; so does the first byte, which is
   4 or 'r'. */
#define ZESTANCHOR_SHORTEST_SHEET 39

/* So many bytes are room for every answer. */
#define ZESTANCHOR_ROOM 16384

#ifdef __cplusplus
extern "C" {
#endif

/* Tasks 0 to 2 and 4 write their answer at the start of the output and return its length; where the output has no room for it they return
   0 and write nothing. No answer is empty. Task 3 returns a length, and any other task ZESTANCHOR_NO_TASK; both write nothing. Bytes past
   what is written keep their contents. The answers end without a zero byte.

   The line of task 4 tells how a formula does on a root with four tips above it: `passes`, if it holds everywhere whatever sets its letters
   have; else `falls` with the sets of the first assignment under which it does not, one for each letter in the order in which they first
   stand in the text; or the line of a refusal, which is 22 for more than three letters. Sets 0 to 15 are those of tips, where tip i counts
   2^i; 16 is the whole. A formula that falls is not valid; one that passes may be valid or not.

   The input is any bytes. A pointer may be null only with length 0; the input and the output must not overlap. Nothing is kept between
   calls, and several threads may call at once.
   The deepest text needs 216 kB of stack, one whose questions learn 312 kB: give a thread that calls 512 kB. */
size_t zestanchor(uint8_t task, const uint8_t *input, size_t input_length, uint8_t *output, size_t output_length);

#ifdef __cplusplus
}
#endif

#endif
