/* Odolzagi: a machine for Basic Refal-5. Link libembed.a, lend buffers, read numbers.
 *
 * The caller's duties. Each length is the length of what its pointer points to, and a pointer may be NULL only with length
 * 0. What a call writes (field, scratch, answer, record, part; program and names when a text is read) overlaps nothing else
 * that it is lent. Arrays of uint64_t are aligned. The stack has 128 KB left, and 256 KB for odolzagi_read. Nothing else is
 * asked: bytes, sizes, numbers and budget may be anything.
 *
 * A call keeps nothing and has no state of its own, so threads may call at once, each with its own buffers.
 */
#ifndef ODOLZAGI_H
#define ODOLZAGI_H

#include <stddef.h>
#include <stdint.h>

#ifdef __cplusplus
extern "C" {
#endif

/* Why a run came to its end; with the meaning of the place.
 *
 * After DONE to NO_ROOM the field buffer holds the field after the last whole step, every byte from the used length on is
 * zero, and so is the scratch. After BAD_PROGRAM and BAD_FIELD the field buffer is as it was and the scratch is zero. After
 * BAD_SIZES both are as they were. With the last three the steps are 0 and the used length is the one given.
 *
 * What odolzagi_read gives, the first that holds:
 *   BAD_SIZES: text, program or names is longer than 65,536; place 0
 *   BAD_TEXT: place of the first token that is malformed or would make a bad element; the text's length if it ends early
 *   NO_ROOM: the program exceeds program_len, or the list names_len; place 0
 *   DONE: the text is read; place 0 */
enum odolzagi_code {
    ODOLZAGI_DONE = 0,        /* no call is left; place 0 */
    ODOLZAGI_PAUSED = 1,      /* the budget is spent; place 0 */
    ODOLZAGI_NO_MATCH = 2,    /* no sentence of the function fits; place of its < in the field */
    ODOLZAGI_NO_FUNCTION = 3, /* the program has no such function; place of the < in the field */
    ODOLZAGI_NO_ROOM = 4,     /* the new field would exceed the buffer; place of the < in the field */
    ODOLZAGI_BAD_SIZES = 5,   /* something is longer than 65,536, used exceeds field_len, or scratch_len is below field_len */
    ODOLZAGI_BAD_PROGRAM = 6, /* place of the first bad element in the program */
    ODOLZAGI_BAD_FIELD = 7,   /* place of the first bad element in the field */
    ODOLZAGI_BAD_TEXT = 8     /* only from odolzagi_read */
};

/* The length of a name's record: a byte 14 (hexadecimal), then the name in 15 bytes, zeros behind it. */
enum { ODOLZAGI_NAME_RECORD = 16 };

/* Expands the first `used` bytes of the field in at most `budget` steps. Writes code, steps, used length and place into
 * answer[0..4] and leaves further numbers alone. With answer_len below 4 it touches nothing at all. */
void odolzagi_run(const uint8_t *program, size_t program_len, uint8_t *field, size_t field_len, size_t used,
                  uint8_t *scratch, size_t scratch_len, uint32_t budget, uint64_t *answer, size_t answer_len);

/* One step for the support desk. The record is record[0..3]: used length, code, place; it starts with the used length,
 * ODOLZAGI_PAUSED and 0. Where the code is ODOLZAGI_PAUSED the call runs with budget 1 and updates the record; with any
 * other number there it touches nothing, and so it does with record_len below 3. Further numbers are left alone. k calls
 * leave what one run with budget k leaves, for k from 1. */
void odolzagi_desk(uint64_t *record, size_t record_len, const uint8_t *program, size_t program_len, uint8_t *field,
                   size_t field_len, uint8_t *scratch, size_t scratch_len);

/* The part of the program or of the field that an answer speaks of. Writes into part[0..3] which slice it is (1 the
 * program, 2 the field), its offset there and its length, or three zeros where the part is empty; leaves further numbers
 * alone. With part_len below 3 it touches nothing. It reads neither slice, only their lengths. */
void odolzagi_pointer(uint64_t code, size_t used, size_t place, const uint8_t *program, size_t program_len,
                      const uint8_t *field, size_t field_len, uint64_t *part, size_t part_len);

/* Reads rules as Refal-5 text into program bytes, a good program, and the list of their names. Writes code, bytes of the
 * program, bytes of the list and place into answer[0..4] and leaves further numbers alone. With answer_len below 4 it
 * touches nothing at all. After ODOLZAGI_DONE both buffers are zero past what is written; after a refusal they are as they
 * were, and both lengths are 0. Record k of the list has the name whose number is k, in one spelling: a capital, then small
 * letters, digits and dashes. Program, names and answer overlap neither each other nor the text. The call needs up to 256 KB
 * of stack. */
void odolzagi_read(const uint8_t *text, size_t text_len, uint8_t *program, size_t program_len, uint8_t *names,
                   size_t names_len, uint64_t *answer, size_t answer_len);

#ifdef __cplusplus
}
#endif

#endif
