/* Reads a folder's rules.ref, which gives the bytes of rules.bin, and expands start.bin by them through the library: first
 * step by step, as the support desk sees it, then in one run, as a planner does; at last a field that is refused.
 * Usage: planner FOLDER */
#include "odolzagi.h"

#include <stdio.h>
#include <string.h>

enum { LONGEST = 65536, BUDGET = 1000000 };

/* Four bytes more, since print_field may come upon a body that is cut short. */
static uint8_t program[LONGEST], start[LONGEST], field[LONGEST + 4], scratch[LONGEST];
static uint8_t text[LONGEST], rules[LONGEST], names[LONGEST];
static size_t program_len, used, text_len, rules_len;

static int load(const char *folder, const char *name, uint8_t *bytes, size_t *length) {
    char path[4096];
    FILE *file;
    snprintf(path, sizeof path, "%s/%s", folder, name);
    file = fopen(path, "rb");
    if (!file) {
        perror(path);
        return 0;
    }
    *length = fread(bytes, 1, LONGEST, file);
    if (fgetc(file) != EOF) {
        fprintf(stderr, "%s: longer than %d bytes\n", path, LONGEST);
        return 0;
    }
    fclose(file);
    return 1;
}

static void print_answer(const uint64_t *answer) {
    printf("%u %u %u %u\n", (unsigned)answer[0], (unsigned)answer[1], (unsigned)answer[2], (unsigned)answer[3]);
}

/* The text into the program that is run from here on, and the names that its numbers stand for. */
static void read_rules(void) {
    uint64_t answer[4];
    size_t i;
    int same;
    odolzagi_read(text, text_len, program, LONGEST, names, LONGEST, answer, 4);
    print_answer(answer);
    program_len = (size_t)answer[1];
    same = program_len == rules_len && memcmp(program, rules, rules_len) == 0;
    for (i = 0; i < answer[2] / ODOLZAGI_NAME_RECORD; i++) {
        printf(" #%u %.15s", (unsigned)i, (const char *)names + i * ODOLZAGI_NAME_RECORD + 1);
    }
    printf("\nthe bytes of rules.bin: %s\n", same ? "yes" : "no");
}

/* Names as #number, since the start has some that the rules have not. */
static void print_field(const uint8_t *f, size_t length) {
    size_t i = 0;
    while (i < length) {
        const uint8_t *body = f + i + 1;
        switch (f[i]) {
        case 1: printf(" '%c'", body[0]); i += 2; break;
        case 2: printf(" #%u", body[0] + 256u * body[1]); i += 3; break;
        case 3: printf(" %u", body[0] + 256u * body[1] + 65536u * body[2] + 16777216u * body[3]); i += 5; break;
        case 4: printf(" ("); i += 1; break;
        case 5: printf(" )"); i += 1; break;
        case 6: printf(" <#%u", body[0] + 256u * body[1]); i += 3; break;
        default: printf(" >"); i += 1; break;
        }
    }
    printf("\n");
}

static void begin(void) {
    memcpy(field, start, LONGEST);
}

static void step_by_step(void) {
    uint64_t record[3] = {used, ODOLZAGI_PAUSED, 0};
    begin();
    while (record[1] == ODOLZAGI_PAUSED) {
        print_field(field, (size_t)record[0]);
        odolzagi_desk(record, 3, program, program_len, field, LONGEST, scratch, LONGEST);
    }
    print_field(field, (size_t)record[0]);
    printf("code %u, place %u\n", (unsigned)record[1], (unsigned)record[2]);
}

static void one_run(void) {
    uint64_t answer[4];
    size_t i;
    begin();
    odolzagi_run(program, program_len, field, LONGEST, used, scratch, LONGEST, BUDGET, answer, 4);
    print_answer(answer);
    for (i = 0; i < answer[2]; i++) printf(i ? " %02X" : "%02X", field[i]);
    printf("\n");
}

/* A variable cannot stand in a field. */
static void refused(void) {
    uint64_t answer[4], part[3];
    begin();
    field[0] = 8;
    odolzagi_run(program, program_len, field, LONGEST, used, scratch, LONGEST, BUDGET, answer, 4);
    print_answer(answer);
    odolzagi_pointer(answer[0], (size_t)answer[2], (size_t)answer[3], program, program_len, field, LONGEST, part, 3);
    printf("%u bytes from place %u on\n", (unsigned)part[2], (unsigned)part[1]);
}

int main(int count, char **arguments) {
    if (count != 2) {
        fprintf(stderr, "usage: planner FOLDER\n");
        return 2;
    }
    if (!load(arguments[1], "rules.ref", text, &text_len)) return 1;
    if (!load(arguments[1], "rules.bin", rules, &rules_len)) return 1;
    if (!load(arguments[1], "start.bin", start, &used)) return 1;
    read_rules();
    step_by_step();
    one_run();
    refused();
    return 0;
}
