/* Calls the two whole runs as a press driver does: a plan, a grouping, the longest of both, the longest table, each refusal, outputs about the
   length asked for, no input. Expected lines are document 01's, as 2026-01, 2026-02, 2026-04 and 2026-05 changed them, or worked out by hand. */
#include <stdio.h>
#include <stdlib.h>
#include <string.h>

#include "murdzeki.h"

_Static_assert(MURDZEKI_OUTPUT == 40960, "the output that 2026-02 asks for");

struct example {
    const char *name;
    const char *table;
    const char *plan;
};

static const struct example examples[] = {
    {"bakehouse",
     "01FFFF\n010000\n010000\n010001\n0200000003\n0200010003\n0200020002\n0200000002\n0200030003\n0300040005\n",
     "110004000000030003\n120001\n110002000300020002\n1F0002000100000019\n"},
    {"no jobs", "01FFFF\n0300010000\n", "1F0000000000000000\n"},
    {"solo", "01FFFF\n010000\n0200010001\n0400010001\n0200010001\n0300020003\n", "110000000200010001\n120001\n1F0001000100000005\n"},
    {"the bare sheet",
     "01FFFF\n010000\n010000\n0200000001\n0200000002\n0200010001\n0200000000\n0300030004\n",
     "110000000200010001\n120001\n120003\n1F000100020000000A\n"},
    {"two shared layouts",
     "01FFFF\n010000\n010001\n0200000002\n0200000002\n0300030002\n",
     "110000000100010002\n1F0001000000000001\n"},
    {"a later job that reaches higher",
     "01FFFF\n010000\n010001\n010002\n0200010003\n0200020003\n0300040002\n",
     "110001000000020003\n1F0001000000000001\n"},
    {"two jobs with layout 0 alone", "01FFFF\n0200000000\n0200000000\n0300010002\n", "120000\n120001\n1F0000000200000000\n"},
    {"no input", "", "1E070001\n"},
    {"a line cut off", "01FFFF\n03000100", "1E010002\n"},
    {"a lower-case digit", "01ffff\n", "1E010001\n"},
    {"a job before any layout", "0200010001\n01FFFF\n010000\n0300020001\n", "120000\n1F0000000100000001\n"},
    {"a layout added at the bottom",
     "01FFFF\n0200000001\n0400000000\n0200010001\n010000\n0300020003\n",
     "110000000200010001\n120001\n1F0001000100000005\n"},
    {"an end without a layout", "0200000000\n0300000001\n", "1E020002\n"},
    {"a line after the end", "01FFFF\n0300010000\n010000\n", "1E020003\n"},
    {"a wrong parent", "01FFFF\n010001\n", "1E040002\n"},
    {"an unknown bottom", "01FFFF\n0200000001\n0300010001\n", "1E050002\n"},
    {"a bottom above its top", "01FFFF\n010000\n0200010000\n0300020001\n", "1E060003\n"},
    {"a wrong job behind a layout between jobs",
     "01FFFF\n0200000000\n010000\n0200010000\n0300020002\n",
     "1E060004\n"},
    {"a wrong job in front of the last layout", "01FFFF\n0200010000\n010000\n0300020001\n", "1E060002\n"},
    {"a wrong parent after a wrong job", "01FFFF\n0200010000\n010005\n0300020001\n", "1E040003\n"},
    {"wrong counts", "01FFFF\n0300020000\n", "1E070002\n"},
    {"two windows", "01FFFF\n010000\n0200010001\n050001000101\n0300020002\n", "120000\n120001\n1F0000000200000002\n"},
    {"pairs in two windows",
     "01FFFF\n010000\n050001000102\n0200010001\n050001000102\n050000000100\n0300020004\n",
     "110000000200010001\n110001000300010001\n1F0002000000000002\n"},
    {"the last window", "01FFFF\n010000\n05000000010F\n05000100010F\n0300020002\n", "110000000100010001\n1F0001000000000001\n"},
    {"a window too many", "01FFFF\n050000000010\n0300010001\n", "1E090002\n"},
    {"the greatest window number", "01FFFF\n0500000000FF\n0300010001\n", "1E090002\n"},
    {"a window too many after the end", "01FFFF\n0300010000\n050000000010\n", "1E090003\n"},
    {"a line without its window", "01FFFF\n0500000000\n0300010001\n", "1E010002\n"},
};

/* A table, the lanes of a press, and the lines of its grouping. */
struct grouping {
    const char *name;
    const char *table;
    size_t lanes;
    const char *lines;
};

#define FOUR_ALIKE "01FFFF\n010000\n0200010001\n0200000001\n0200010001\n0200000001\n0300020004\n"
#define THREE_ACROSS                                                                                                                          \
    "01FFFF\n010000\n010000\n010001\n0200000003\n0200010003\n050002000201\n0200030003\n050000000201\n0200010001\n0200010003\n050002000201\n"         \
    "0200000001\n0300040009\n"
#define CHAIN                                                                                                                                 \
    "01FFFF\n010000\n010001\n010002\n010003\n0200040004\n0200030004\n0200020004\n0200030003\n0200030003\n0200020002\n0200020002\n0300050007\n"
#define NO_KNOWN_LANES "1E0D0000\n"
#define NONE_FULL "1E0E0000\n"

static const struct grouping groupings[] = {
    {"three across", THREE_ACROSS, 3, "130003000000010003\n130002000400070002\n130005000600080001\n1F0003\n"},
    {"three across for two lanes", THREE_ACROSS, 2, NONE_FULL},
    {"three across for nine lanes", THREE_ACROSS, 9, NO_KNOWN_LANES},
    {"document 02's chain", CHAIN, 3, NONE_FULL},
    {"two lanes", FOUR_ALIKE, 2, "13000000010001\n13000200030001\n1F0002\n"},
    {"three lanes for four jobs", FOUR_ALIKE, 3, NONE_FULL},
    {"four lanes", FOUR_ALIKE, 4, "1300000001000200030001\n1F0001\n"},
    {"eight lanes for four jobs", FOUR_ALIKE, 8, NONE_FULL},
    {"no lanes", FOUR_ALIKE, 0, NO_KNOWN_LANES},
    {"one lane", FOUR_ALIKE, 1, NO_KNOWN_LANES},
    {"nine lanes", FOUR_ALIKE, 9, NO_KNOWN_LANES},
    {"256 lanes more than two", FOUR_ALIKE, 258, NO_KNOWN_LANES},
    {"65,536 lanes more than two", FOUR_ALIKE, 65538, NO_KNOWN_LANES},
    {"the most lanes", FOUR_ALIKE, SIZE_MAX, NO_KNOWN_LANES},
    {"no jobs for two lanes", "01FFFF\n0300010000\n", 2, "1F0000\n"},
    {"no jobs for eight lanes", "01FFFF\n0300010000\n", 8, "1F0000\n"},
    {"layout 0 alone", "01FFFF\n0200000000\n0200000000\n0300010002\n", 2, NONE_FULL},
    {"a solo job", "01FFFF\n010000\n0200010001\n0400010001\n0300020002\n", 2, NONE_FULL},
    {"jobs of two windows", "01FFFF\n010000\n0200010001\n050001000101\n0300020002\n", 2, NONE_FULL},
    {"groups in two windows",
     "01FFFF\n010000\n050001000102\n0200010001\n050001000102\n050000000100\n0300020004\n",
     2,
     "13000000020001\n13000100030001\n1F0002\n"},
    {"the layout of all three", "01FFFF\n010000\n010001\n0200010002\n0200010002\n0200010001\n0300030003\n", 3, "130000000100020001\n1F0001\n"},
    {"no input for two lanes", "", 2, "1E070001\n"},
    {"no input for no lanes", "", 0, NO_KNOWN_LANES},
    {"a line cut off", "01FFFF\n03000100", 3, "1E010002\n"},
    {"a line cut off, for nine lanes", "01FFFF\n03000100", 9, NO_KNOWN_LANES},
    {"a line after the end", "01FFFF\n0300010000\n010000\n", 8, "1E020003\n"},
    {"a wrong parent", "01FFFF\n010001\n", 2, "1E040002\n"},
    {"an unknown bottom", "01FFFF\n0200000001\n0300010001\n", 2, "1E050002\n"},
    {"a bottom above its top", "01FFFF\n010000\n0200010000\n0300020001\n", 2, "1E060003\n"},
    {"wrong counts", "01FFFF\n0300020000\n", 2, "1E070002\n"},
    {"a window too many", "01FFFF\n050000000010\n0300010001\n", 2, "1E090002\n"},
};

static int failed = 0;

static void check(const char *name, int holds)
{
    if (!holds) {
        printf("driver: %s failed\n", name);
        failed++;
    }
}

/* A buffer of exactly so many bytes, none of them 0, so that valgrind sees each byte outside it. */
static uint8_t *lent(size_t length)
{
    uint8_t *bytes = malloc(length > 0 ? length : 1);
    if (bytes == NULL) {
        exit(2);
    }
    memset(bytes, 0xA5, length);
    return bytes;
}

static int all(const uint8_t *bytes, size_t from, size_t to, uint8_t value)
{
    for (size_t i = from; i < to; i++) {
        if (bytes[i] != value) {
            return 0;
        }
    }
    return 1;
}

/* That a call has left the lines and zeros in its output, or in too short a one nothing. */
static void written(const char *name, size_t length, const uint8_t *output, size_t output_length, const char *lines)
{
    size_t expected = strlen(lines);
    if (output_length < MURDZEKI_OUTPUT) {
        check(name, length == 0 && all(output, 0, output_length, 0xA5));
    } else {
        check(name, length == expected && memcmp(output, lines, expected) == 0 && all(output, expected, output_length, 0));
    }
}

static void plans(const struct example *example, size_t output_length)
{
    size_t input_length = strlen(example->table);
    uint8_t *input = lent(input_length);
    uint8_t *output = lent(output_length);
    memcpy(input, example->table, input_length);
    size_t length = murdzeki_plan(input, input_length, output, output_length);
    written(example->name, length, output, output_length, example->plan);
    check(example->name, memcmp(input, example->table, input_length) == 0);
    free(input);
    free(output);
}

static void groups(const struct grouping *grouping, size_t output_length)
{
    size_t input_length = strlen(grouping->table);
    uint8_t *input = lent(input_length);
    uint8_t *output = lent(output_length);
    memcpy(input, grouping->table, input_length);
    size_t length = murdzeki_group(input, input_length, output, output_length, grouping->lanes);
    written(grouping->name, length, output, output_length, grouping->lines);
    check(grouping->name, memcmp(input, grouping->table, input_length) == 0);
    free(input);
    free(output);
}

/* With each length of output about the one asked for. */
static const size_t lengths[] = {0, 1, 32768, 40959, 40960, 40961, 41037};

static size_t calls = 0;

static void plans_in_each(const struct example *example)
{
    for (size_t i = 0; i < sizeof lengths / sizeof lengths[0]; i++) {
        plans(example, lengths[i]);
        calls++;
    }
}

static void groups_in_each(const struct grouping *grouping)
{
    for (size_t i = 0; i < sizeof lengths / sizeof lengths[0]; i++) {
        groups(grouping, lengths[i]);
        calls++;
    }
}

static char *text(size_t length)
{
    char *bytes = malloc(length + 1);
    if (bytes == NULL) {
        exit(2);
    }
    return bytes;
}

/* Layouts, each below the one before it or all below the first, and jobs that are all the same. */
static char *table_of(size_t layouts, int chain, size_t jobs, const char *job, const char *end)
{
    char *table = text(7 * layouts + strlen(job) * jobs + strlen(end));
    char *at = table + sprintf(table, "01FFFF\n");
    for (size_t i = 1; i < layouts; i++) {
        at += sprintf(at, "01%04X\n", chain ? (unsigned)i - 1 : 0);
    }
    for (size_t i = 0; i < jobs; i++) {
        at += sprintf(at, "%s", job);
    }
    strcpy(at, end);
    return table;
}

/* The same with jobs 0-0. */
static void grown(const char *name, size_t layouts, int chain, size_t jobs, const char *end, const char *plan)
{
    char *table = table_of(layouts, chain, jobs, "0200000000\n", end);
    struct example example = {name, table, plan};
    plans_in_each(&example);
    free(table);
}

/* 4,096 jobs that all accept layouts 2, 1 and 0, in one window: each takes the next one, and its lookup visits one cell. */
static void paired(const char *name, char *table, size_t table_length)
{
    char *plan = text(38931);
    char *at = plan;
    for (unsigned i = 0; i < 4096; i += 2) {
        at += sprintf(at, "11%04X%04X00010002\n", i, i + 1);
    }
    strcpy(at, "1F0800000000000800\n");
    struct example example = {name, table, plan};
    check(name, strlen(plan) == 38931);
    check(name, strlen(table) == table_length);
    plans_in_each(&example);
    free(table);
    free(plan);
}

/* Jobs that all accept layouts 2, 1 and 0, in one window: groups of so many, one after the other. */
static void grouped(const char *name, char *table, size_t jobs, size_t lanes, size_t lines_length)
{
    char *lines = text(lines_length);
    char *at = lines;
    for (size_t i = 0; i < jobs; i += lanes) {
        at += sprintf(at, "13");
        for (size_t lane = 0; lane < lanes; lane++) {
            at += sprintf(at, "%04X", (unsigned)(i + lane));
        }
        at += sprintf(at, "0002\n");
    }
    sprintf(at, "1F%04X\n", (unsigned)(jobs / lanes));
    struct grouping grouping = {name, table, lanes, lines};
    check(name, strlen(lines) == lines_length);
    groups_in_each(&grouping);
    free(table);
    free(lines);
}

/* A full table of which nothing is grouped. */
static void ungrouped(const char *name, char *table, size_t lanes, const char *line)
{
    struct grouping grouping = {name, table, lanes, line};
    groups_in_each(&grouping);
    free(table);
}

static void largest_groupings(void)
{
    const char *job = "0200000002\n";
    const char *windowed = "050000000207\n";
    grouped("the longest grouping", table_of(3, 1, 4096, job, "0300031000\n"), 4096, 2, 30727);
    grouped("the longest grouping of three", table_of(3, 1, 4095, job, "0300030FFF\n"), 4095, 3, 25942);
    grouped("the longest grouping of eight", table_of(3, 1, 4096, job, "0300031000\n"), 4096, 8, 19975);
    grouped("the longest table for two lanes", table_of(1024, 1, 4096, windowed, "0304001000\n"), 4096, 2, 30727);
    grouped("the longest table for eight lanes", table_of(1024, 1, 4096, windowed, "0304001000\n"), 4096, 8, 19975);
    ungrouped("a job too many for three lanes", table_of(1024, 1, 4096, windowed, "0304001000\n"), 3, NONE_FULL);
    ungrouped("the longest table for nine lanes", table_of(1024, 1, 4096, windowed, "0304001000\n"), 9, NO_KNOWN_LANES);
    ungrouped("jobs 0-0 alone", table_of(1, 0, 4096, "0200000000\n", "0300011000\n"), 2, NONE_FULL);
    ungrouped("a layout too many", table_of(1025, 0, 0, "", ""), 2, "1E030401\n");
    ungrouped("a job too many", table_of(1, 0, 4097, "0200000000\n", ""), 2, "1E031002\n");
}

int main(void)
{
    for (size_t i = 0; i < sizeof examples / sizeof examples[0]; i++) {
        plans_in_each(&examples[i]);
    }
    grown("a layout too many", 1025, 0, 0, "", "1E030401\n");
    grown("a job too many", 1, 0, 4097, "", "1E031002\n");
    grown("the longest chain", 1024, 1, 1, "0304000001\n", "120000\n1F0000000100000000\n");
    paired("the longest plan", table_of(3, 1, 4096, "0200000002\n", "0300031000\n"), 45088);
    paired("the longest table", table_of(1024, 1, 4096, "050000000207\n", "0304001000\n"), 60427);
    for (size_t i = 0; i < sizeof groupings / sizeof groupings[0]; i++) {
        groups_in_each(&groupings[i]);
    }
    largest_groupings();
    printf("driver: %zu calls\n%zu passed, %d failed\n", calls, calls - (size_t)failed, failed);
    return failed != 0;
}
