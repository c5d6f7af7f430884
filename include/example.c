/* 01's card K1 through the C header: each concept 1 is driven by something; who is driven? Built and run by tests/program/c_example. */
#include <stdio.h>
#include <string.h>
#include "takwishan.h"

static const uint8_t rules[] = {0x10, 0x00, 0x60, 0x00};
static const uint8_t question[] = {0x11, 0x00, 0x00, 0x00, 0x80, 0x00, 0x00, 0x02, 0x00, 0x00};
static const uint8_t union_sheet[] = {
    0x00, 0x02,
    /* member 0: no step, the question itself */
    0x00, 0x00, 0x00, 0x00, 0x11, 0x00, 0x00, 0x00, 0x80, 0x00, 0x00, 0x02, 0x00, 0x00,
    /* member 1: rule 0 on member 0's atom 0 gives "x is a concept 1" */
    0x40, 0x00, 0x00, 0x00, 0x11, 0x00, 0x00, 0x00, 0x00, 0x04, 0x00, 0x00, 0x00, 0x00};
static const uint8_t facts[] = {0x00, 0x01, 0x00, 0x07, 0x00, 0x00, 0x80, 0x01, 0x00, 0x09, 0x00, 0x03};
/* the question in other names: variable 5 of "5 is driven by 2" */
static const uint8_t asked_otherwise[] = {0x11, 0x00, 0x00, 0x05, 0x80, 0x04, 0x00, 0x0a, 0x00, 0x02};

/* Draws into a list of so many bytes and prints what came. */
static void draw(uint8_t *list, size_t length)
{
    struct takwishan_answers drawn = takwishan_answer(rules, sizeof rules, question, sizeof question, union_sheet, sizeof union_sheet,
                                                      facts, sizeof facts, list, length);
    if (drawn.number != TAKWISHAN_ACCEPTED) {
        printf("refused %u\n", (unsigned)drawn.number);
        return;
    }
    printf("accepted %llu\n", (unsigned long long)drawn.count);
    for (uint64_t i = 0; i < drawn.count; i++)
        printf("%u\n", list[2 * i] * 256u + list[2 * i + 1]);
}

/* Prints where variables go, those that go nowhere left out. */
static void print_targets(const uint8_t *targets)
{
    for (unsigned v = 0; v <= TAKWISHAN_MOST_VARIABLE; v++)
        if (targets[v] != TAKWISHAN_NO_TARGET)
            printf("variable %u is %u\n", v, (unsigned)targets[v]);
}

/* Prints why an object is on the list: the steps from the member that yields it back to the question, in so many lent bytes. */
static void explain(unsigned object, size_t length)
{
    static uint8_t steps[TAKWISHAN_MOST_EXPLANATION_BYTES];
    const uint8_t tuple[TAKWISHAN_OBJECT_BYTES] = {(uint8_t)(object >> 8), (uint8_t)object};
    struct takwishan_explained explained = takwishan_explain(rules, sizeof rules, question, sizeof question, union_sheet,
                                                             sizeof union_sheet, facts, sizeof facts, tuple, sizeof tuple, steps, length);
    if (explained.number != TAKWISHAN_ACCEPTED) {
        printf("refused %u\n", (unsigned)explained.number);
        return;
    }
    printf("%u has %llu steps behind it\n", object, (unsigned long long)explained.count);
    for (uint64_t i = 0; i < explained.count; i++) {
        const uint8_t *step = steps + i * TAKWISHAN_STEP_BYTES;
        printf("member %u: kind %u, parent %u, atom %u, other %u\n", step[0] * 256u + step[1], (unsigned)step[2],
               step[3] * 256u + step[4], (unsigned)step[5], step[6] * 256u + step[7]);
        print_targets(step + 8);
    }
}

/* Writes the union into a sheet of so many bytes and says what came: it is the one above. */
static void write_union(size_t length)
{
    static uint8_t sheet[TAKWISHAN_MOST_UNION_BYTES];
    struct takwishan_written written = takwishan_write(rules, sizeof rules, question, sizeof question, sheet, length);
    if (written.number != TAKWISHAN_ACCEPTED) {
        printf("refused %u\n", (unsigned)written.number);
        return;
    }
    int same = written.length == sizeof union_sheet && memcmp(sheet, union_sheet, sizeof union_sheet) == 0;
    printf("written %llu, %llu bytes, %s\n", (unsigned long long)written.count, (unsigned long long)written.length,
           same ? "the union above" : "another union");
}

/* Compares the question with another and prints the renaming, if there is one. */
static void compare(const uint8_t *other, size_t length)
{
    struct takwishan_renaming renaming = takwishan_rename(question, sizeof question, other, length);
    if (renaming.number != TAKWISHAN_ACCEPTED) {
        printf("refused %u\n", (unsigned)renaming.number);
        return;
    }
    puts(renaming.found ? "alike" : "not alike");
    print_targets(renaming.targets);
}

int main(void)
{
    uint8_t list[4];
    printf("check %u\n", (unsigned)takwishan_check(rules, sizeof rules, question, sizeof question, union_sheet, sizeof union_sheet));
    draw(list, 4);
    draw(list, 3);
    explain(7, TAKWISHAN_STEP_BYTES);
    explain(9, 0);
    explain(3, TAKWISHAN_STEP_BYTES);
    explain(7, TAKWISHAN_STEP_BYTES - 1);
    struct takwishan_part part = takwishan_member(union_sheet, sizeof union_sheet, 1);
    printf("member 1 is %zu bytes from byte %zu\n", part.length, part.start);
    part = takwishan_member(union_sheet, sizeof union_sheet, 2);
    printf("member 2 is %zu bytes from byte %zu\n", part.length, part.start);
    write_union(TAKWISHAN_MOST_UNION_BYTES);
    write_union(sizeof union_sheet - 1);
    compare(asked_otherwise, sizeof asked_otherwise);
    part = takwishan_member(union_sheet, sizeof union_sheet, 1);
    compare(union_sheet + part.start, part.length);
    compare(rules, sizeof rules);
    return 0;
}
