/* Document 01's `keep` through every call, compared with what the page says. It says what differs, and then ends
   with 1. From the repository's root, after `outside/library`:

       cc -std=c11 -Ioutside outside/c/calls.c target/staticlib/libbankplover.a -o calls && ./calls */
#include <stdio.h>
#include <string.h>

#include "bankplover.h"

static int differences = 0;

static void expect(bool holds, const char *what)
{
    if (holds)
        return;
    printf("calls.c: %s differs from document 01\n", what);
    differences++;
}

static const char keep[] =
    "primitive keep(q,d,en);\n"
    "output q; reg q; input en,d;\n"
    "table\n"
    "? 0:?:-;\n"
    "0 1:?:0;\n"
    "1 1:?:1;\n"
    "endtable\n"
    "endprimitive\n";

static const char line[] = "keep 2 3 D 01 10 0 12 1 21 0 @00000\n";

/* i, j, previous vector 01, their current values, old output, the two outputs */
static const size_t disagreement[BANKPLOVER_WITNESS] = {1, 2, 1, '1', '0', '0', '1', '0'};

static const uint8_t *bytes(const char *text)
{
    return (const uint8_t *)text;
}

static void matching(void)
{
    expect(bankplover_level_matches('b', '1'), "b matches 1");
    expect(!bankplover_level_matches('b', 'x'), "b does not match x");
    expect(bankplover_change_matches('?', '0', '1', '0'), "(?0) matches 10");
    expect(bankplover_change_matches('?', '0', 'x', '0'), "(?0) matches x0");
    expect(!bankplover_change_matches('?', '0', '0', '0'), "(?0) does not match 00");
    expect(!bankplover_change_matches('r', 0, '0', 'x'), "r does not match 0x");
}

static void reading(uint8_t area[BANKPLOVER_AREA])
{
    size_t answer = 0, length = strlen(keep);
    uint8_t number = bankplover_read(bytes(keep), length, 0, area, BANKPLOVER_AREA, &answer);
    expect(number == 0 && answer == length - 1, "reading keep");
    expect(memcmp(area, "\4keep", 5) == 0, "the name");
    expect(area[33] == 's' && area[34] == 2 && area[35] == 'x' && area[36] == 3, "kind, inputs, start and rows");
    expect(memcmp(area + 37 + 20, "0\0001", 4) == 0, "columns after the port list");
    expect(bankplover_well_formed(area, BANKPLOVER_AREA), "keep is well formed");
    expect(!bankplover_well_formed(area, BANKPLOVER_AREA - 1), "a short area is not well formed");
    number = bankplover_read(bytes(keep), length, answer, area, BANKPLOVER_AREA, &answer);
    expect(number == BANKPLOVER_END, "the end behind keep");
    number = bankplover_read(bytes(keep), length, length + 1, area, BANKPLOVER_AREA, &answer);
    expect(number == 3 && answer == length, "a start past the end");
}

static uint8_t output(const uint8_t *area, const char *prev, const char *cur, char old, const char *order)
{
    size_t answer = 0;
    uint8_t number = bankplover_evaluate(area, BANKPLOVER_AREA, bytes(prev), strlen(prev), bytes(cur), strlen(cur),
                                         (uint8_t)old, bytes(order), strlen(order), &answer);
    return number == 0 ? (uint8_t)answer : 0;
}

static void evaluation(const uint8_t *area)
{
    size_t answer = 0;
    expect(output(area, "01", "10", '0', "\1\2") == '1', "P1");
    expect(output(area, "01", "10", '0', "\2\1") == '0', "P2");
    expect(output(area, "01", "10", '0', "") == '0', "P3");
    expect(output(area, "00", "0x", '1', "\1\2") == 'x', "P4");
    expect(output(area, "01", "01", 'x', "\1\2") == 'x', "P5");
    uint8_t number = bankplover_evaluate(area, BANKPLOVER_AREA, bytes("00"), 2, bytes("01"), 2, '0', bytes("\1\3"), 2,
                                         &answer);
    expect(number == 12 && answer == 1, "an input that keep does not have");
}

static void judging(const uint8_t *area)
{
    size_t witness[BANKPLOVER_WITNESS] = {0}, answer = 0;
    uint8_t square[BANKPLOVER_SQUARE] = {0};
    uint8_t number = bankplover_judge(area, BANKPLOVER_AREA, witness, &answer);
    expect(number == 0 && answer == 'D', "the verdict of keep");
    expect(memcmp(witness, disagreement, sizeof witness) == 0, "the witness of keep");
    number = bankplover_square(area, BANKPLOVER_AREA, square, &answer);
    expect(number == 0, "the square of keep");
    for (size_t k = 0; k < BANKPLOVER_SQUARE; k++)
        expect(square[k] == (k == 1 || k == 9 ? 0 : 1), "a cell of the square");
    expect(bankplover_judge(area, 0, witness, &answer) == 10 && answer == 0, "an area that is none");
}

static void book(void)
{
    uint8_t held[60];
    size_t answer = 0, opened[BANKPLOVER_OPENED] = {0}, entry[BANKPLOVER_ENTRY] = {0};
    memset(held, '#', sizeof held);
    uint8_t number = bankplover_append(held, sizeof held, 0, bytes("keep"), 4, 2, 3, 'D', disagreement, &answer);
    expect(number == 0 && answer == 36, "the stated length after keep");
    expect(memcmp(held, line, 36) == 0 && held[36] == '#', "the entry of keep");
    number = bankplover_open(held, sizeof held, 46, opened, &answer);
    expect(number == 0 && opened[0] == 1 && opened[1] == 36 && opened[2] == 10, "P14");
    number = bankplover_fetch(held, sizeof held, 46, 1, entry, &answer);
    expect(number == 0 && entry[0] == 0 && entry[1] == 4 && entry[2] == 2 && entry[3] == 3 && entry[4] == 'D',
           "the fetched entry");
    expect(memcmp(entry + 5, disagreement, sizeof disagreement) == 0, "the fetched witness");
    number = bankplover_append(held, sizeof held, 36, bytes("par"), 3, 2, 4, 'I', disagreement, &answer);
    expect(number == 0 && answer == 53 && memcmp(held + 36, "par 2 4 I @00036\n", 17) == 0, "par after keep");
    number = bankplover_append(held, sizeof held, 53, bytes("keep"), 4, 2, 3, 'D', disagreement, &answer);
    expect(number == 15 && answer == 53, "no room");
    expect(bankplover_fetch(held, sizeof held, 53, 3, entry, &answer) == 16 && answer == 0, "no third entry");
    expect(bankplover_open(bytes("\n"), 1, 1, opened, &answer) == 13 && answer == 0, "LF alone");
}

int main(void)
{
    uint8_t area[BANKPLOVER_AREA];
    memset(area, '#', sizeof area);
    matching();
    reading(area);
    evaluation(area);
    judging(area);
    book();
    if (differences == 0)
        puts("calls: every call answers keep as document 01 says");
    return differences == 0 ? 0 : 1;
}
