/* What the functions for C refuse, what they leave alone, and how much stack a call takes. */
#define _POSIX_C_SOURCE 200809L
#include "odolzagi.h"

#include <pthread.h>
#include <stdio.h>
#include <stdlib.h>
#include <string.h>

enum { LONGEST = 65536, STACK = 1 << 20, PROMISED = 131072, PROMISED_TO_READ = 262144, PAINT = 0xA5 };

static uint8_t program[LONGEST], field[LONGEST], scratch[LONGEST], text[LONGEST], names[LONGEST];
static size_t program_len, used;

static void put(uint8_t *bytes, size_t *length, int byte) {
    bytes[(*length)++] = (uint8_t)byte;
}

/* Sixteen e-variables, each before an 'x': the deepest left side there is. */
static void deepest(void) {
    int i;
    program_len = used = 0;
    for (i = 0; i < 3; i++) put(program, &program_len, "\x0D\0\0"[i]);
    for (i = 0; i < 16; i++) {
        put(program, &program_len, 10);
        put(program, &program_len, i);
        put(program, &program_len, 1);
        put(program, &program_len, 'x');
    }
    for (i = 0; i < 4; i++) put(program, &program_len, "\x0B\x0C\x0E\x0F"[i]);
    for (i = 0; i < 3; i++) put(field, &used, "\x06\0\0"[i]);
    for (i = 0; i < 64; i++) put(field, &used, i % 2 ? 'x' : 1);
    put(field, &used, 7);
}

/* As many names as a list has room for, in long letters; before them sixteen variables, and brackets two hundred deep. */
static void fullest(void) {
    char *at = (char *)text;
    int i;
    at += sprintf(at, "F{");
    for (i = 0; i < 16; i++) at += sprintf(at, "%c.Abcdefghijklm%02d ", "ste"[i % 3], i);
    at += sprintf(at, "=");
    for (i = 0; i < 400; i++) *at++ = i < 200 ? '(' : ')';
    for (i = 0; i < 4095; i++) at += sprintf(at, "%sName%04d_ABCDE", i % 400 ? " " : ";=", i);
    at += sprintf(at, ";}");
    memset(at, ' ', (size_t)((char *)text + LONGEST - at));
}

static void *run_deepest(void *answer) {
    odolzagi_run(program, program_len, field, LONGEST, used, scratch, LONGEST, 1, (uint64_t *)answer, 4);
    return NULL;
}

static void print(const char *what, const uint64_t *numbers, int count) {
    int i;
    printf("%s:", what);
    for (i = 0; i < count; i++) printf(" %u", (unsigned)numbers[i]);
    printf("\n");
}

static void *read_fullest(void *answer) {
    odolzagi_read(text, LONGEST, program, LONGEST, names, LONGEST, (uint64_t *)answer, 4);
    return NULL;
}

/* A thread's stack is painted; what the call has written over is what it took. */
static void stack(const char *what, void *(*call)(void *), size_t promised) {
    static uint64_t answer[4];
    uint8_t *bytes = (uint8_t *)aligned_alloc(4096, STACK);
    pthread_attr_t attributes;
    pthread_t thread;
    size_t i = 0;
    memset(bytes, PAINT, STACK);
    pthread_attr_init(&attributes);
    pthread_attr_setstack(&attributes, bytes, STACK);
    if (pthread_create(&thread, &attributes, call, answer) != 0) abort();
    pthread_join(thread, NULL);
    print(what, answer, 4);
    while (i < STACK && bytes[i] == PAINT) i++;
    fprintf(stderr, "face: %s: a thread with one call took %u bytes of stack\n", what, (unsigned)(STACK - i));
    printf("stack within %u bytes: %s\n", (unsigned)promised, STACK - i <= promised ? "yes" : "no");
    free(bytes);
}

static void refusals(void) {
    uint64_t n[5] = {9, 9, 9, 9, 9};
    static const uint8_t empty_program[] = {15};
    field[0] = 77;
    odolzagi_run(empty_program, 1, field, LONGEST, 0, scratch, LONGEST, 1, n, 3);
    print("answer of three", n, 5);
    odolzagi_desk(n, 2, empty_program, 1, field, LONGEST, scratch, LONGEST);
    odolzagi_desk(n, 5, empty_program, 1, field, LONGEST, scratch, LONGEST);
    odolzagi_pointer(6, 0, 0, empty_program, 1, field, LONGEST, n, 2);
    print("record of two, code 9, part of two", n, 5);
    printf("field: %d\n", field[0]);
    odolzagi_run(empty_program, 1, field, LONGEST, 0, scratch, LONGEST, 1, n, 5);
    print("answer of five", n, 5);
    printf("field: %d\n", field[0]);
    odolzagi_pointer(6, 0, 0, empty_program, 1, field, LONGEST, n, 5);
    print("part of five", n, 5);
    odolzagi_run(NULL, 0, NULL, 0, 0, NULL, 0, 1, n, 5);
    print("nothing lent", n, 5);
    odolzagi_run(empty_program, 1, NULL, 0, 1, NULL, 0, 1, n, 5);
    print("used past the field", n, 5);
    n[0] = 0, n[1] = 1, n[2] = 3;
    odolzagi_desk(n, 5, empty_program, 1, NULL, 0, NULL, 0);
    print("record of five", n, 5);
}

/* A buffer between two guards. */
struct lent {
    uint8_t *all, *bytes;
    size_t length;
};

enum { GUARD = 64, FENCE = 0xC3, LENT = 0x5A };

static struct lent lend(size_t length) {
    struct lent lent;
    lent.all = (uint8_t *)malloc(length + 2 * GUARD);
    if (!lent.all) abort();
    lent.bytes = lent.all + GUARD;
    lent.length = length;
    memset(lent.all, FENCE, length + 2 * GUARD);
    memset(lent.bytes, LENT, length);
    return lent;
}

static int all_are(const uint8_t *bytes, size_t count, int byte) {
    while (count && *bytes == byte) bytes++, count--;
    return count == 0;
}

static int guarded(const struct lent *lent) {
    return all_are(lent->all, GUARD, FENCE) && all_are(lent->bytes + lent->length, GUARD, FENCE);
}

/* What became of an output: every byte of it, and of its guards, is looked at. */
static void show(const char *what, const struct lent *lent, size_t written) {
    size_t i;
    printf("%s", what);
    if (!guarded(lent)) printf(" overrun");
    if (all_are(lent->bytes, lent->length, LENT)) {
        printf(" untouched");
        return;
    }
    if (written > lent->length) written = lent->length;
    for (i = 0; i < written; i++) printf(" %02X", lent->bytes[i]);
    printf(all_are(lent->bytes + written, lent->length - written, 0) ? " and zeros" : " and other bytes");
}

/* Reads the rules with blanks behind them. Six numbers are printed: the answer's, one before them and one behind. */
static void read_text(const char *what, const char *rules, size_t text_len, size_t room, size_t list_room, size_t numbers) {
    struct lent lent_text = lend(text_len), made = lend(room), list = lend(list_room);
    uint64_t n[6] = {9, 9, 9, 9, 9, 9};
    size_t length = strlen(rules), i;
    memset(lent_text.bytes, ' ', text_len);
    for (i = 0; i < length && i < text_len; i++) lent_text.bytes[i] = (uint8_t)rules[i];
    odolzagi_read(lent_text.bytes, text_len, made.bytes, room, list.bytes, list_room, n + 1, numbers);
    print(what, n, 6);
    show("  program", &made, (size_t)n[2]);
    show(", names", &list, (size_t)n[3]);
    for (i = 0; i < text_len && lent_text.bytes[i] == (i < length ? (uint8_t)rules[i] : ' ');) i++;
    printf(guarded(&lent_text) && i == text_len ? "\n" : ", text altered\n");
    free(lent_text.all);
    free(made.all);
    free(list.all);
}

static void texts(void) {
    const char *good = "F{=Look_UP;}";
    read_text("read, answer of none", good, 12, 20, 40, 0);
    read_text("read, answer of three", good, 12, 20, 40, 3);
    read_text("read, answer of four", good, 12, 20, 40, 4);
    read_text("read, answer of five", good, 12, 20, 40, 5);
    read_text("read, just room", good, 12, 10, 32, 4);
    read_text("read, program one short", good, 12, 9, 32, 4);
    read_text("read, list one short", good, 12, 10, 31, 4);
    read_text("read, no room at all", good, 12, 0, 0, 4);
    read_text("read, a real number", "F{='a'1.5;}", 11, 20, 40, 4);
    read_text("read, ends early", "F{=(", 6, 20, 40, 4);
    read_text("read, bad before no room", "F{=)", 4, 0, 0, 4);
    read_text("read, longest of all", good, LONGEST, LONGEST, LONGEST, 4);
    read_text("read, text too long", "@", LONGEST + 1, 0, 0, 4);
    read_text("read, program too long", "@", 1, LONGEST + 1, 40, 4);
    read_text("read, list too long", "@", 1, 20, LONGEST + 1, 4);
}

/* The program of an empty text is one byte. */
static void nothing_to_read(void) {
    uint64_t n[5] = {9, 9, 9, 9, 9};
    uint8_t one[3] = {77, 77, 77};
    odolzagi_read(NULL, 0, NULL, 0, NULL, 0, NULL, 0);
    odolzagi_read(NULL, 0, NULL, 0, NULL, 0, n, 5);
    print("read, nothing lent", n, 5);
    odolzagi_read(NULL, 0, one + 1, 1, NULL, 0, n, 5);
    print("read, one byte lent", n, 5);
    printf("program: %d %d %d\n", one[0], one[1], one[2]);
}

int main(void) {
    deepest();
    stack("deepest left side", run_deepest, PROMISED);
    refusals();
    fullest();
    stack("fullest text", read_fullest, PROMISED_TO_READ);
    texts();
    nothing_to_read();
    return 0;
}
