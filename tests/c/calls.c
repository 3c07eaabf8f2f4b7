/* Calls the fitter from C, on the sample tables, on the largest and on damaged input. Every buffer, lent for reading or
 * for writing, has exactly the size that the call is told, and lies at each of the places of lent.h in turn. Fails on
 * any wrong number or byte. */
#include "fitter.h"
#include "lent.h"

#include <stdio.h>
#include <string.h>

static int checks, failures;

static void expect(const char *what, unsigned got, unsigned wanted)
{
    checks++;
    if (got != wanted) {
        failures++;
        printf("%s: got %u, wanted %u\n", what, got, wanted);
    }
}

/* The sample sheet's table: three states, four steps with the prices 1 to 4, the rule "always, no endless stretch of
 * p0". Its steps begin at STEPS and its nodes at NODES. */
enum { SAMPLE = 40, STEPS = 13, NODES = 25 };
static const uint8_t sample[SAMPLE] = {
    3, 4, 5, 1,
    1, 0, 0, 0, 1, 0, 0, 1, 0,
    0, 1, 1, 1, 0, 2, 1, 2, 3, 2, 2, 4,
    0, 0, 0, 2, 0, 0, 9, 0, 1, 3, 2, 0, 8, 0, 3,
};

/* The same table as a sheet. */
static const char sheet[] =
    "states edges nodes props\n3 4 5 1\n"
    "initial label\n1 0\n0 1\n0 1\n"
    "from to price\n0 1 1\n1 0 2\n1 2 3\n2 2 4\n"
    "kind a b\n0 0 0\n2 0 0\n9 0 1\n3 2 0\n8 0 3\n";

/* The same table without its prices. */
static const uint8_t without_prices[36] = {
    3, 4, 5, 1,
    1, 0, 0, 0, 1, 0, 0, 1, 0,
    0, 1, 1, 0, 1, 2, 2, 2,
    0, 0, 0, 2, 0, 0, 9, 0, 1, 3, 2, 0, 8, 0, 3,
};

/* What a word is before a call. */
#define LENT32 0xA5A5A5A5u
#define LENT64 0xA5A5A5A5A5A5A5A5u

/* The first entries are these, and the others as they were. */
static void expect_bytes(const char *what, const uint8_t *got, size_t room, const uint8_t *wanted, size_t count)
{
    for (size_t i = 0; i < room; i++)
        expect(what, got[i], i < count ? wanted[i] : LENT);
}

static void expect_words(const char *what, const uint32_t *got, size_t room, const uint32_t *wanted, size_t count)
{
    for (size_t i = 0; i < room; i++)
        expect(what, got[i], i < count ? wanted[i] : LENT32);
}

static unsigned judge(const uint8_t *table, size_t table_len, const uint8_t *list, size_t list_len)
{
    unsigned number = fitter_judge(lend_copy(table, table_len), table_len, lend_copy(list, list_len), list_len);
    take_back();
    return number;
}

/* Label with room for so many entries: the answer, and every entry of the buffer. */
static void label(const char *what, const uint8_t *table, size_t table_len, const uint8_t *list, size_t list_len,
                  size_t room, unsigned wanted, const uint32_t *words, size_t count)
{
    uint32_t *out = lend(room * sizeof *out);
    const uint8_t *t = lend_copy(table, table_len), *l = lend_copy(list, list_len);
    expect(what, fitter_label(t, table_len, l, list_len, out, room), wanted);
    expect_words(what, out, room, words, count);
    take_back();
}

static void holding(const char *what, const uint8_t *table, size_t table_len, const uint8_t *list, size_t list_len,
                    size_t room, unsigned wanted, const uint8_t *states, size_t count)
{
    uint8_t *out = lend(room);
    uint32_t *held = lend(sizeof *held);
    const uint8_t *t = lend_copy(table, table_len), *l = lend_copy(list, list_len);
    expect(what, fitter_holding(t, table_len, l, list_len, out, room, held), wanted);
    expect(what, *held, wanted == 0 ? (uint32_t)count : LENT32);
    expect_bytes(what, out, room, states, count);
    take_back();
}

/* Read: the answer, the length, and every byte of the buffer. */
static void read_text(const char *what, const char *text, size_t text_len, size_t room, unsigned wanted,
                      const uint8_t *table, size_t table_len)
{
    uint8_t *out = lend(room);
    uint64_t *length = lend(sizeof *length);
    expect(what, fitter_read(lend_copy(text, text_len), text_len, out, room, length), wanted);
    expect(what, *length == (wanted == 0 ? table_len : LENT64), 1);
    expect_bytes(what, out, room, table, wanted == 0 ? table_len : 0);
    take_back();
}

/* Read, where it can only give the sample table. */
static void read_sheet(const char *what, const char *text, size_t text_len, size_t room, unsigned wanted)
{
    read_text(what, text, text_len, room, wanted, sample, SAMPLE);
}

static void sheets(void)
{
    size_t whole = sizeof sheet - 1;
    char text[sizeof sheet + 1];
    read_sheet("read the sheet", sheet, whole, SAMPLE, 0);
    read_sheet("read with room to spare", sheet, whole, SAMPLE + 8, 0);
    read_sheet("read a byte short", sheet, whole, SAMPLE - 1, 10);
    read_sheet("read into nothing", sheet, whole, 0, 10);
    read_sheet("read nothing", NULL, 0, SAMPLE, 1);
    for (size_t cut = 1; cut < whole; cut++)
        read_sheet("read a part of the sheet", sheet, cut, SAMPLE, 1);
    memcpy(text, sheet, whole);
    text[whole] = '\n';
    read_sheet("read one line more", text, whole + 1, SAMPLE, 1);
    text[whole] = 0;
    read_sheet("read one byte more", text, whole + 1, SAMPLE, 1);
}

/* A step's line has three values, and the third one has a name. */
static void sheet_prices(void)
{
    static const char heads[] = "states edges nodes props\n1 1 1 0\ninitial label\n1 0\n";
    static const char nodes[] = "kind a b\n1 0 0\n";
    static const struct {
        const char *steps;
        unsigned number;
        uint8_t price;
    } cases[] = {
        {"from to price\n0 0 0\n", 0, 0},   {"from to price\n0 0 255\n", 0, 255}, {"from to price\n0 0 256\n", 1, 0},
        {"from to price\n0 0 00\n", 1, 0},  {"from to price\n0 0\n", 1, 0},       {"from to price\n0 0 0 0\n", 1, 0},
        {"from to\n0 0 0\n", 1, 0},         {"from to\n0 0\n", 1, 0},             {"from to prices\n0 0 0\n", 1, 0},
    };
    for (size_t k = 0; k < sizeof cases / sizeof *cases; k++) {
        const uint8_t table[13] = {1, 1, 1, 0, 1, 0, 0, 0, 0, cases[k].price, 1, 0, 0};
        char text[128];
        size_t text_len = (size_t)sprintf(text, "%s%s%s", heads, cases[k].steps, nodes);
        read_text("read a price", text, text_len, 13, cases[k].number, table, 13);
    }
}

/* 16 comes after 11 and 12, and before 13. */
static void unreached(void)
{
    static const uint8_t loop[4] = {1, 1, 0, 1}, cut[4] = {1, 1, 0, 0}, dead[4] = {1, 0, 0, 1}, far[4] = {0, 0, 0, 1};
    uint8_t table[SAMPLE];
    expect("judge a loop that is not reached", judge(sample, SAMPLE, loop, 4), 16);
    expect("judge that loop and a dead end", judge(sample, SAMPLE, dead, 4), 11);
    expect("judge that loop alone", judge(sample, SAMPLE, far, 4), 12);

    /* a kept initial state is reached, with no step made */
    memcpy(table, sample, SAMPLE);
    table[10] = 1;
    table[11] = 0;
    expect("judge that loop with its state initial", judge(table, SAMPLE, loop, 4), 0);

    /* the rule is false */
    memcpy(table, sample, SAMPLE);
    memset(table + NODES + 12, 0, 3);
    expect("judge that loop, nothing holding", judge(table, SAMPLE, loop, 4), 16);
    expect("judge without it, nothing holding", judge(table, SAMPLE, cut, 4), 13);
}

static void samples(void)
{
    static const uint8_t kept[4] = {1, 1, 0, 1}, cut[4] = {1, 1, 0, 0}, all[4] = {1, 1, 1, 1};
    static const uint8_t dead[4] = {1, 1, 1, 0}, far[4] = {0, 0, 0, 1}, none[4] = {0, 0, 0, 0};
    expect("judge 1 1 0 1", judge(sample, SAMPLE, kept, 4), 16);
    expect("judge 1 1 0 0", judge(sample, SAMPLE, cut, 4), 0);
    expect("judge 1 1 1 1", judge(sample, SAMPLE, all, 4), 13);
    expect("judge 1 1 1 0", judge(sample, SAMPLE, dead, 4), 11);
    expect("judge 0 0 0 1", judge(sample, SAMPLE, far, 4), 12);
    expect("judge 0 0 0 0", judge(sample, SAMPLE, none, 4), 12);

    /* p0 at states 1 and 2; an endless stretch of it only from the loop at 2; so the rule holds at 0 and 1. That 2 is
     * not reached matters to the judge alone. */
    static const uint32_t words[5] = {0, 6, 4, 3, 3};
    static const uint8_t states[2] = {0, 1};
    label("label 1 1 0 1", sample, SAMPLE, kept, 4, 5, 0, words, 5);
    label("label with room to spare", sample, SAMPLE, kept, 4, 9, 0, words, 5);
    label("label one entry short", sample, SAMPLE, kept, 4, 4, 10, words, 0);
    label("label not total", sample, SAMPLE, dead, 4, 5, 11, words, 0);
    label("label short and not total", sample, SAMPLE, dead, 4, 4, 10, words, 0);
    holding("holding 1 1 0 1", sample, SAMPLE, kept, 4, 3, 0, states, 2);
    holding("holding one byte short", sample, SAMPLE, kept, 4, 2, 10, states, 0);
    holding("holding nothing kept", sample, SAMPLE, none, 4, 3, 0, states, 0);

    /* The same with state 1 initial in place of state 0: it comes first. */
    static const uint8_t turned[2] = {1, 0};
    uint8_t later[SAMPLE];
    memcpy(later, sample, SAMPLE);
    later[4] = 0;
    later[7] = 1;
    holding("holding with state 1 initial", later, SAMPLE, kept, 4, 3, 0, turned, 2);
}

/* The same damage to each of the three calls. */
static void damaged(const char *what, const uint8_t *table, size_t table_len, const uint8_t *list, size_t list_len,
                    unsigned wanted)
{
    expect(what, judge(table, table_len, list, list_len), wanted);
    label(what, table, table_len, list, list_len, 32, wanted, NULL, 0);
    holding(what, table, table_len, list, list_len, 32, wanted, NULL, 0);
}

static void refusals(void)
{
    static const uint8_t list[5] = {1, 1, 0, 1, 0}, two[4] = {1, 1, 0, 2}, big[4] = {1, 1, 0, 255};
    uint8_t longer[SAMPLE + 1];
    memcpy(longer, sample, SAMPLE);
    longer[SAMPLE] = 0;
    damaged("empty table", NULL, 0, list, 4, 2);
    damaged("3 bytes", sample, 3, list, 4, 2);
    damaged("a byte short", sample, SAMPLE - 1, list, 4, 2);
    damaged("a byte long", longer, SAMPLE + 1, list, 4, 2);
    damaged("no prices", without_prices, sizeof without_prices, list, 4, 2);
    damaged("list a byte short", sample, SAMPLE, list, 3, 9);
    damaged("list a byte long", sample, SAMPLE, list, 5, 9);
    damaged("no list", sample, SAMPLE, NULL, 0, 9);
    damaged("list byte 2", sample, SAMPLE, two, 4, 9);
    damaged("list byte 255", sample, SAMPLE, big, 4, 9);
}

/* How many entries of each buffer Repair is lent, and what it is to do with them. */
struct room {
    size_t list, bytes, words;
};

struct repaired {
    unsigned number;
    uint64_t choices;
    uint32_t price, settled;
    const uint8_t *list;
    size_t list_len, variables;
};

/* A room with some to spare; the bytes and the variables of the largest table. */
enum { ROOM = 256, LARGEST = 580, VARIABLES = 223392 };

static struct repaired found(uint64_t choices, uint32_t price, uint32_t settled, const uint8_t *list, size_t list_len,
                             size_t variables)
{
    struct repaired wanted = {0, choices, price, settled, list, list_len, variables};
    return wanted;
}

/* None (14) or spent (15), also after a find: no list, and the price 0. */
static struct repaired stopped(unsigned number, uint64_t choices, uint32_t settled, size_t variables)
{
    struct repaired wanted = {number, choices, 0, settled, NULL, 0, variables};
    return wanted;
}

/* Nothing is stored. */
static struct repaired refused(unsigned number)
{
    struct repaired wanted = {number, LENT64, LENT32, LENT32, NULL, 0, 0};
    return wanted;
}

/* So many entries are 0, and the others as they were. */
static void expect_zeros(const char *what, const uint8_t *bytes, const uint32_t *words, struct room room, size_t zeros)
{
    for (size_t i = 0; i < room.bytes; i++)
        expect(what, bytes[i], i < zeros ? 0 : LENT);
    for (size_t i = 0; i < room.words; i++)
        expect(what, words[i], i < zeros ? 0 : LENT32);
}

/* Repair: the answer, the choices, the price, the settled steps, and every entry of the three buffers. */
static void repair(const char *what, const uint8_t *table, size_t table_len, uint64_t cap, struct room room,
                   struct repaired wanted)
{
    uint8_t *list = lend(room.list), *bytes = lend(room.bytes);
    uint32_t *words = lend(room.words * sizeof *words);
    uint64_t *choices = lend(sizeof *choices);
    uint32_t *price = lend(sizeof *price), *settled = lend(sizeof *settled);
    const uint8_t *copy = lend_copy(table, table_len);
    unsigned number = fitter_repair(copy, table_len, cap, list, room.list, bytes, room.bytes, words, room.words,
                                    choices, price, settled);
    expect(what, number, wanted.number);
    expect(what, *choices == wanted.choices, 1);
    expect(what, *price, wanted.price);
    expect(what, *settled, wanted.settled);
    expect_bytes(what, list, room.list, wanted.list, wanted.list_len);
    expect_zeros(what, bytes, words, room, wanted.variables);
    take_back();
}

/* With as much room as needed, with more, and with one entry too few of each buffer. */
static void repairs_at(const char *what, const uint8_t *table, size_t table_len, uint64_t cap, struct repaired wanted)
{
    size_t e = table[1], v = wanted.variables;
    struct room needed = {e, v, v}, more = {ROOM, ROOM, ROOM};
    struct room list = {e - 1, v, v}, bytes = {e, v - 1, v}, words = {e, v, v - 1};
    repair(what, table, table_len, cap, needed, wanted);
    repair(what, table, table_len, cap, more, wanted);
    if (e > 0)
        repair(what, table, table_len, cap, list, refused(10));
    repair(what, table, table_len, cap, bytes, refused(10));
    repair(what, table, table_len, cap, words, refused(10));
}

/* So many steps among 12 states, ten at least out of each, and the rule "true": every step is chosen, and kept, at the
 * price 0. Nothing undercuts that, so each step's struck try fails at once. No step leads to state 11, so those out of
 * it are struck in the end. */
static size_t many_steps(uint8_t *table, unsigned steps)
{
    const uint8_t counts[4] = {12, (uint8_t)steps, 1, 0}, node[3] = {1, 0, 0};
    size_t at = 4;
    memcpy(table, counts, 4);
    for (unsigned s = 0; s < 12; s++) {
        table[at++] = s == 0;
        table[at++] = 0;
        table[at++] = 0;
    }
    for (unsigned j = 0; j < steps; j++) {
        table[at++] = (uint8_t)(j % 12);
        table[at++] = (uint8_t)(j / 12);
        table[at++] = (uint8_t)(2 * j);
    }
    memcpy(table + at, node, 3);
    return at + 3;
}

/* No list at all is lent where there is no step. */
static void repair_no_list(const uint8_t *no_step)
{
    uint8_t *bytes = lend(2);
    uint32_t *words = lend(2 * sizeof *words);
    uint64_t *choices = lend(sizeof *choices);
    uint32_t *price = lend(sizeof *price), *settled = lend(sizeof *settled);
    struct room room = {0, 2, 2};
    const uint8_t *copy = lend_copy(no_step, 10);
    unsigned number = fitter_repair(copy, 10, 0, NULL, 0, bytes, 2, words, 2, choices, price, settled);
    expect("repair with no list", number, 14);
    expect("repair with no list: choices", *choices == 0, 1);
    expect("repair with no list: price", *price, 0);
    expect("repair with no list: settled steps", *settled, 0);
    expect_zeros("repair with no list: buffers", bytes, words, room, 2);
    take_back();
}

/* The sample makes 6 choices whatever its prices, and strikes the step 1 2 before what is not reached: that one's price
 * is reported, not that of the loop at 2. It is found with 4 of the choices; with these spent, or one more, it is lost.
 * Before the first choice one step is settled, that from 0 to 1, the only one out of the initial state; at any price
 * and with any cap. */
static void sample_prices(void)
{
    static const uint8_t kept[4] = {1, 1, 0, 0};
    repairs_at("repair the sheet", sample, SAMPLE, 1000000, found(6, 3, 1, kept, 4, 100));
    repairs_at("repair the sheet, greatest cap", sample, SAMPLE, UINT64_MAX, found(6, 3, 1, kept, 4, 100));
    repairs_at("repair the sheet, cap 6", sample, SAMPLE, 6, found(6, 3, 1, kept, 4, 100));
    for (uint64_t cap = 0; cap < 6; cap++)
        repairs_at("repair the sheet, cap below 6", sample, SAMPLE, cap, stopped(15, cap, 1, 100));
    for (unsigned step = 0; step < 4; step++)
        for (unsigned price = 0; price < 256; price++) {
            uint8_t table[SAMPLE];
            struct room needed = {4, 100, 100};
            memcpy(table, sample, SAMPLE);
            table[STEPS + 3 * step + 2] = (uint8_t)price;
            repair("repair the sheet with another price", table, SAMPLE, 6, needed,
                   found(6, table[STEPS + 8], 1, kept, 4, 100));
            repair("repair the sheet with another price, cap 5", table, SAMPLE, 5, needed, stopped(15, 5, 1, 100));
        }
}

/* From state 0 one of two steps may stay, that to state 1 or that to state 2; each of these has a loop. To keep the
 * first ranks first, and costs what the second does. Where the first costs less than the second, it is struck, after a
 * find at the second's price. */
static void either_step(uint8_t first, uint8_t second)
{
    static const uint8_t to_1[4] = {1, 0, 1, 0}, to_2[4] = {0, 1, 0, 1};
    const uint8_t table[40] = {
        3, 4, 5, 2,
        1, 0, 0, 0, 1, 0, 0, 2, 0,
        0, 1, first, 0, 2, second, 1, 1, 7, 2, 2, 7,
        2, 0, 0, 2, 1, 0, 6, 0, 0, 6, 1, 0, 5, 2, 3,
    };
    const uint64_t choices = first < second ? 6 : 4;
    const struct repaired wanted = first < second ? found(6, first, 0, to_2, 4, 30) : found(4, second, 0, to_1, 4, 30);
    repairs_at("repair one of two steps", table, 40, choices, wanted);
    repairs_at("repair one of two steps, greatest cap", table, 40, UINT64_MAX, wanted);
    for (uint64_t cap = 0; cap < choices; cap++)
        repairs_at("repair one of two steps, spent", table, 40, cap, stopped(15, cap, 0, 30));
}

/* State 0 may keep its loop or the way round by state 1, not both. To strike the loop settles every step with no choice
 * more; it is a find only where it costs less, not where it costs the same. */
static void loop_or_round(uint8_t first, uint8_t second)
{
    static const uint8_t by_loop[3] = {1, 0, 0}, round[3] = {0, 1, 1};
    const uint8_t table[34] = {
        2, 3, 5, 1,
        1, 1, 0, 0, 0, 0,
        0, 0, first, 0, 1, second, 1, 0, 7,
        2, 0, 0, 3, 0, 0, 6, 0, 0, 6, 1, 0, 5, 2, 3,
    };
    const struct repaired wanted =
        first < second ? found(4, first, 0, round, 3, 21) : found(4, second, 0, by_loop, 3, 21);
    repairs_at("repair a loop or a way round", table, 34, 4, wanted);
    for (uint64_t cap = 0; cap < 4; cap++)
        repairs_at("repair a loop or a way round, spent", table, 34, cap, stopped(15, cap, 0, 21));
}

/* A loop at state 0, and 127 steps at 255 each that only lead to dead ends: they are struck before any choice, and no
 * repair costs more. The loop is kept before any choice too, so all 128 are settled, and no table settles more. */
static void dearest(void)
{
    const uint8_t counts[4] = {32, 128, 1, 0}, node[3] = {1, 0, 0};
    uint8_t table[487] = {0}, list[128] = {1};
    size_t at = 100;
    memcpy(table, counts, 4);
    table[4] = 1;
    for (unsigned from = 0; at < 484; from++)
        for (unsigned to = from == 0 ? 0 : from + 1; to < 32 && at < 484; to++) {
            table[at++] = (uint8_t)from;
            table[at++] = (uint8_t)to;
            table[at++] = 255;
        }
    memcpy(table + at, node, 3);
    repairs_at("repair at the highest price", table, sizeof table, 0, found(0, 127 * 255, 128, list, 128, 192));
}

/* Two of five steps lead to a dead end, state 2. They are struck before any choice, and count as kept ones would.
 * Nothing is known of the other three by then, though the loop at 1 has to stay once the step to 1 does. */
static void dead_ends(void)
{
    static const uint8_t list[5] = {1, 0, 1, 1, 0};
    static const uint8_t table[31] = {
        3, 5, 1, 0,
        1, 0, 0, 0, 0, 0, 0, 0, 0,
        0, 0, 9, 0, 2, 3, 0, 1, 9, 1, 1, 9, 1, 2, 4,
        1, 0, 0,
    };
    repairs_at("repair with dead ends", table, 31, 4, found(4, 7, 2, list, 5, 11));
    for (uint64_t cap = 0; cap < 4; cap++)
        repairs_at("repair with dead ends, spent", table, 31, cap, stopped(15, cap, 2, 11));
}

/* From state 0 one step leads to state 1 and its loop. Both have to stay: with the rule "true" (kind 1) they are
 * settled, and that is all. With "false" (kind 0) the closure fails, and then they do not count. */
static void one_way(uint8_t kind)
{
    static const uint8_t list[2] = {1, 1};
    const uint8_t table[19] = {2, 2, 1, 0, 1, 0, 0, 0, 0, 0, 0, 1, 5, 1, 1, 5, kind, 0, 0};
    repairs_at("repair one way on", table, 19, 0, kind == 1 ? found(0, 0, 2, list, 2, 6) : stopped(14, 0, 0, 6));
}

/* Three steps in a row lead to a dead end and are struck one after the other. Without a loop at state 0 nothing is left
 * to keep, so the closure fails and none of them counts; with it they count, and so does the loop. */
static void way_to_dead_end(uint8_t loops)
{
    static const uint8_t list[4] = {0, 0, 0, 1};
    const uint8_t e = 3 + loops;
    const size_t len = 19u + 3u * e;
    uint8_t table[31] = {4, e, 1, 0, 1, 0, 0, 0, 0, 0, 0, 0, 0, 0, 0, 0, 0, 1, 1, 1, 2, 2, 2, 3, 4};
    table[len - 3] = 1;
    const struct repaired wanted = loops ? found(0, 7, 4, list, 4, 12) : stopped(14, 0, 0, 11);
    repairs_at("repair a way to a dead end", table, len, 0, wanted);
}

/* The rule says of the step from 0 to 1, in two ways, that it is kept and is struck. Each choice of it fails, so there
 * is none; but the closure of nothing does not fail, and has the step to the dead end settled as struck. */
static void none_with_settled(void)
{
    static const uint8_t table[43] = {
        3, 4, 6, 1,
        1, 0, 0, 0, 1, 0, 0, 0, 0,
        0, 1, 1, 0, 0, 1, 1, 1, 1, 0, 2, 1,
        2, 0, 0, 7, 0, 0, 3, 1, 0, 4, 1, 2, 4, 2, 1, 5, 3, 4,
    };
    repairs_at("repair none with a settled step", table, 43, 2, stopped(14, 2, 1, 29));
    for (uint64_t cap = 0; cap < 2; cap++)
        repairs_at("repair none with a settled step, spent", table, 43, cap, stopped(15, cap, 1, 29));
}

static void repairs(void)
{
    static const uint8_t first[2] = {1, 0}, loop[1] = {1};
    static const uint8_t starts[19] = {2, 2, 1, 1, 1, 1, 0, 1, 0, 0, 0, 0, 5, 1, 1, 6, 2, 0, 0};
    static const uint8_t dead_end[16] = {2, 1, 1, 0, 1, 0, 0, 0, 0, 0, 0, 1, 9, 1, 0, 0};
    static const uint8_t no_step[10] = {1, 0, 1, 0, 1, 0, 0, 1, 0, 0};
    sample_prices();
    either_step(5, 9);
    either_step(9, 5);
    either_step(5, 5);
    either_step(0, 1);
    either_step(0, 0);
    either_step(254, 255);
    loop_or_round(5, 9);
    loop_or_round(9, 5);
    loop_or_round(5, 5);
    loop_or_round(0, 0);
    dearest();
    dead_ends();
    one_way(0);
    one_way(1);
    way_to_dead_end(0);
    way_to_dead_end(1);
    none_with_settled();

    /* p0 releases p1, at one state with a loop */
    for (uint8_t label = 0; label < 4; label++) {
        const uint8_t release[19] = {1, 1, 3, 2, 1, label, 0, 0, 0, 8, 2, 0, 0, 2, 1, 0, 8, 0, 1};
        repairs_at("repair a release", release, 19, 0, label < 2 ? stopped(14, 0, 0, 9) : found(0, 0, 1, loop, 1, 9));
    }
    /* p0 until p1, and p1 eventually or always, there: all say p1. Kinds 12 to 15 have a variable less for each level
     * and state. */
    for (uint8_t label = 0; label < 4; label++) {
        for (uint8_t kind = 10; kind < 16; kind++) {
            const uint8_t a = kind < 12 ? 0 : 1, b = kind < 12 ? 1 : 0;
            const uint8_t rule[19] = {1, 1, 3, 2, 1, label, 0, 0, 0, 8, 2, 0, 0, 2, 1, 0, kind, a, b};
            const size_t v = kind < 12 ? 9 : 8;
            const struct repaired wanted = label < 2 ? stopped(14, 0, 0, v) : found(0, 0, 1, loop, 1, v);
            repairs_at("repair a fixed point", rule, 19, 0, wanted);
        }
    }
    repairs_at("repair with two initial states", starts, 19, 0, found(0, 6, 2, first, 2, 6));
    repairs_at("repair a dead end", dead_end, 16, 0, stopped(14, 0, 0, 5));
    repairs_at("repair with no step", no_step, 10, 0, stopped(14, 0, 0, 2));
    repair_no_list(no_step);

    uint8_t table[430], reached[128];
    for (unsigned j = 0; j < 128; j++)
        reached[j] = j % 12 != 11;
    struct room room = {ROOM, ROOM, ROOM};
    size_t len = many_steps(table, 128);
    repairs_at("repair 128 steps", table, len, 256, found(256, 0, 0, reached, 128, 152));
    for (uint64_t cap = 127; cap < 256; cap += 64)
        repairs_at("repair 128 steps, spent", table, len, cap, stopped(15, cap, 0, 152));
    repairs_at("repair 128 steps, spent behind the find", table, len, 128, stopped(15, 128, 0, 152));
    len = many_steps(table, 129);
    repair("repair 129 steps", table, len, 256, room, refused(3));
}

/* 32 states, 128 steps and 32 nodes: "true", and over it 31 times "true releases", which is true. All steps lead to
 * states 0 to 3, and 0 alone is initial, so these four are reached and no other. */
static void largest(uint8_t *table)
{
    const uint8_t counts[4] = {32, 128, 32, 0}, first[3] = {1, 0, 0};
    memset(table, 0, LARGEST);
    memcpy(table, counts, 4);
    table[4] = 1;
    for (unsigned j = 0; j < 128; j++) {
        table[100 + 3 * j] = (uint8_t)(j % 32);
        table[101 + 3 * j] = (uint8_t)(j / 32);
        table[102 + 3 * j] = (uint8_t)(255 - j);
    }
    memcpy(table + 484, first, 3);
    for (unsigned i = 1; i < 32; i++) {
        table[484 + 3 * i] = 8;
        table[486 + 3 * i] = (uint8_t)(i - 1);
    }
}

/* A line of these values. */
static size_t put_values(char *text, const uint8_t *values, size_t count)
{
    size_t at = 0;
    for (size_t i = 0; i < count; i++)
        at += (size_t)sprintf(text + at, i + 1 < count ? "%u " : "%u\n", values[i]);
    return at;
}

/* The largest table as a sheet. No state has a label. */
static size_t largest_sheet(const uint8_t *table, char *text)
{
    size_t at = (size_t)sprintf(text, "states edges nodes props\n");
    at += put_values(text + at, table, 4);
    at += (size_t)sprintf(text + at, "initial label\n");
    for (size_t s = 0; s < 32; s++)
        at += put_values(text + at, table + 4 + 3 * s, 2);
    at += (size_t)sprintf(text + at, "from to price\n");
    for (size_t j = 0; j < 128; j++)
        at += put_values(text + at, table + 100 + 3 * j, 3);
    at += (size_t)sprintf(text + at, "kind a b\n");
    for (size_t i = 0; i < 32; i++)
        at += put_values(text + at, table + 484 + 3 * i, 3);
    return at;
}

/* The largest table, with the most variables that there are. */
static void largest_calls(void)
{
    uint8_t table[LARGEST], all[128], reached[128], states[32];
    uint32_t words[32];
    char text[4096];
    largest(table);
    memset(all, 1, sizeof all);
    memset(words, 0xFF, sizeof words);
    for (unsigned j = 0; j < 128; j++)
        reached[j] = j % 32 < 4;
    for (unsigned s = 0; s < 32; s++)
        states[s] = (uint8_t)s;
    expect("judge the largest table", judge(table, LARGEST, reached, 128), 0);
    expect("judge the largest table, every step kept", judge(table, LARGEST, all, 128), 16);
    label("label the largest table", table, LARGEST, all, 128, 32, 0, words, 32);
    label("label the largest table, one entry short", table, LARGEST, all, 128, 31, 10, words, 0);
    holding("holding of the largest table", table, LARGEST, all, 128, 32, 0, states, 32);
    holding("holding of the largest table, one byte short", table, LARGEST, all, 128, 31, 10, states, 0);
    /* With the odd states initial, and they alone, these come first. */
    for (unsigned s = 0; s < 32; s++)
        table[4 + 3 * s] = s % 2;
    for (unsigned k = 0; k < 16; k++) {
        states[k] = (uint8_t)(2 * k + 1);
        states[k + 16] = (uint8_t)(2 * k);
    }
    holding("holding of the largest table, odd states initial", table, LARGEST, all, 128, 32, 0, states, 32);
    struct room needed = {128, VARIABLES, VARIABLES}, short_by_one = {128, VARIABLES, VARIABLES - 1};
    /* With all of them initial, every step may stay. */
    for (unsigned s = 0; s < 32; s++)
        table[4 + 3 * s] = 1;
    expect("judge the largest table, all states initial", judge(table, LARGEST, all, 128), 0);
    repair("repair the largest table, all states initial", table, LARGEST, 256, needed,
           found(256, 0, 0, all, 128, VARIABLES));
    largest(table);
    repair("repair the largest table", table, LARGEST, 256, needed, found(256, 0, 0, reached, 128, VARIABLES));
    repair("repair the largest table, cap 255", table, LARGEST, 255, needed, stopped(15, 255, 0, VARIABLES));
    repair("repair the largest table, cap 127", table, LARGEST, 127, needed, stopped(15, 127, 0, VARIABLES));
    repair("repair the largest table, one word short", table, LARGEST, 256, short_by_one, refused(10));
    size_t text_len = largest_sheet(table, text);
    read_text("read the largest sheet", text, text_len, LARGEST, 0, table, LARGEST);
    read_text("read the largest sheet, one byte short", text, text_len, LARGEST - 1, 10, table, LARGEST);
}

/* Repair gives the refusal's number whatever is lent, and touches nothing. */
static void repair_damaged(const char *what, const uint8_t *table, size_t table_len, unsigned wanted)
{
    struct room all = {ROOM, ROOM, ROOM}, none = {0, 0, 0};
    repair(what, table, table_len, UINT64_MAX, all, refused(wanted));
    repair(what, table, table_len, 0, none, refused(wanted));
}

/* The sample with one byte changed. */
static void change(uint8_t *table, size_t at, unsigned value)
{
    memcpy(table, sample, SAMPLE);
    table[at] = (uint8_t)value;
}

/* 0, 2 to 9, 11 to 13 or 16. */
static int of_the_judge(unsigned number)
{
    return number == 16 || (number <= 13 && number != 1 && number != 10);
}

static void repair_changed(const char *what, size_t at, unsigned value, unsigned wanted)
{
    uint8_t table[SAMPLE];
    change(table, at, value);
    repair_damaged(what, table, SAMPLE, wanted);
}

/* Any byte changed, to any value: the judge gives a number of its own, whether or not every kept step is reached, and
 * what it refuses of the table, Repair refuses with the same number. A price is nothing to the judge. */
static void any_byte_changed(void)
{
    static const uint8_t loop[4] = {1, 1, 0, 1}, cut[4] = {1, 1, 0, 0};
    for (unsigned at = 0; at < SAMPLE; at++)
        for (unsigned value = 0; value < 256; value++) {
            uint8_t table[SAMPLE];
            change(table, at, value);
            unsigned number = judge(table, SAMPLE, cut, 4), other = judge(table, SAMPLE, loop, 4);
            expect("a byte changed: a number of the judge's", of_the_judge(number) && of_the_judge(other), 1);
            if (at >= STEPS && at < NODES && (at - STEPS) % 3 == 2)
                expect("a price changed: the judge's numbers stay", number == 0 && other == 16, 1);
            if (number >= 2 && number <= 8)
                repair_damaged("repair with a byte changed", table, SAMPLE, number);
        }
}

/* 1 0 twice, at one price and at different ones. */
static void step_given_twice(void)
{
    static const uint8_t list[4] = {1, 1, 0, 0};
    for (unsigned price = 0; price < 256; price++) {
        uint8_t table[SAMPLE];
        change(table, STEPS + 7, 0);
        table[STEPS + 8] = (uint8_t)price;
        repair_damaged("repair a step given twice", table, SAMPLE, 7);
        damaged("a step given twice", table, SAMPLE, list, 4, 7);
    }
}

static void repair_refusals(void)
{
    uint8_t longer[SAMPLE + 1];
    memcpy(longer, sample, SAMPLE);
    longer[SAMPLE] = 0;
    repair_damaged("repair an empty table", NULL, 0, 2);
    repair_damaged("repair 3 bytes", sample, 3, 2);
    repair_damaged("repair a byte short", sample, SAMPLE - 1, 2);
    repair_damaged("repair a byte long", longer, SAMPLE + 1, 2);
    repair_damaged("repair without prices", without_prices, sizeof without_prices, 2);
    repair_changed("repair 33 states", 0, 33, 3);
    repair_changed("repair 4 states", 0, 4, 2);
    repair_changed("repair initial 2", 4, 2, 4);
    repair_changed("repair a label bit too high", 8, 2, 4);
    repair_changed("repair no initial state", 4, 0, 5);
    repair_changed("repair a step from nowhere", STEPS, 3, 6);
    repair_changed("repair a step to nowhere", STEPS + 10, 3, 6);
    repair_changed("repair kind 16", NODES + 6, 16, 8);
    repair_changed("repair kind 14 with a second child", NODES + 12, 14, 8);
    repair_changed("repair a child not lower", NODES + 10, 3, 8);
    step_given_twice();
}

/* How many entries of each buffer are lent for a parcel, and what is to be in them. */
struct parcel_room {
    size_t lists, bytes, words, answers;
};

struct parcelled {
    unsigned number;
    const fitter_answer *answers;
    size_t tables;
    uint64_t left;
    const uint8_t *lists;
    size_t lists_len, variables;
};

static struct parcelled parcel_refused(unsigned number)
{
    struct parcelled wanted = {number, NULL, 0, 0, NULL, 0, 0};
    return wanted;
}

static fitter_answer answer(unsigned number, uint64_t choices, uint32_t price, uint32_t settled)
{
    fitter_answer one = {choices, number, price, settled};
    return one;
}

/* The first answers are these, and of the others every byte is as it was. */
static void expect_answers(const char *what, const fitter_answer *got, size_t room, const fitter_answer *wanted,
                           size_t count)
{
    for (size_t k = 0; k < count; k++) {
        expect(what, got[k].choices == wanted[k].choices, 1);
        expect(what, got[k].number, wanted[k].number);
        expect(what, got[k].price, wanted[k].price);
        expect(what, got[k].settled, wanted[k].settled);
    }
    if (count < room)
        expect_bytes(what, (const uint8_t *)(got + count), (room - count) * sizeof *got, NULL, 0);
}

/* A parcel: the number, the answers, how many tables there are, the allowance left, and every entry of the buffers. A
 * list that is not written is LENT in what is wanted. */
static void parcel(const char *what, const uint8_t *tables, size_t tables_len, uint64_t cap, struct parcel_room room,
                   struct parcelled wanted)
{
    uint8_t *lists = lend(room.lists), *bytes = lend(room.bytes);
    uint32_t *words = lend(room.words * sizeof *words), *count = lend(sizeof *count);
    fitter_answer *answers = lend(room.answers * sizeof *answers);
    uint64_t *left = lend(sizeof *left);
    const uint8_t *copy = lend_copy(tables, tables_len);
    unsigned number = fitter_parcel(copy, tables_len, cap, lists, room.lists, bytes, room.bytes, words, room.words,
                                    answers, room.answers, count, left);
    struct room work = {0, room.bytes, room.words};
    expect(what, number, wanted.number);
    expect(what, *count, wanted.number == 0 ? (uint32_t)wanted.tables : LENT32);
    expect(what, *left == (wanted.number == 0 ? wanted.left : LENT64), 1);
    expect_answers(what, answers, room.answers, wanted.answers, wanted.tables);
    expect_bytes(what, lists, room.lists, wanted.lists, wanted.lists_len);
    expect_zeros(what, bytes, words, work, wanted.variables);
    take_back();
}

/* With as much room as needed, with more, and with one entry too few of each buffer. */
static void parcels_at(const char *what, const uint8_t *tables, size_t tables_len, uint64_t cap,
                       struct parcelled wanted)
{
    size_t e = wanted.lists_len, v = wanted.variables, k = wanted.tables;
    struct parcel_room needed = {e, v, v, k}, more = {e + 9, v + 9, v + 9, k + 3};
    struct parcel_room lists = {e - 1, v, v, k}, bytes = {e, v - 1, v, k}, words = {e, v, v - 1, k};
    struct parcel_room answers = {e, v, v, k - 1};
    parcel(what, tables, tables_len, cap, needed, wanted);
    parcel(what, tables, tables_len, cap, more, wanted);
    if (e > 0)
        parcel(what, tables, tables_len, cap, lists, parcel_refused(10));
    parcel(what, tables, tables_len, cap, bytes, parcel_refused(10));
    parcel(what, tables, tables_len, cap, words, parcel_refused(10));
    parcel(what, tables, tables_len, cap, answers, parcel_refused(10));
}

/* The sample so many times, end to end. */
static size_t put_samples(uint8_t *tables, size_t count)
{
    for (size_t k = 0; k < count; k++)
        memcpy(tables + k * SAMPLE, sample, SAMPLE);
    return count * SAMPLE;
}

/* Each sample needs 6 choices; from where the allowance does not reach for one on, the answers are spent, and the lists
 * as they were. Nine are too many. */
static void sample_parcels(void)
{
    static const uint8_t cut[4] = {1, 1, 0, 0};
    uint8_t tables[9 * SAMPLE];
    for (size_t count = 1; count <= 8; count++) {
        size_t len = put_samples(tables, count);
        for (uint64_t cap = 0; cap <= 6 * count + 1; cap++) {
            fitter_answer answers[8];
            uint8_t lists[32];
            uint64_t left = cap;
            memset(lists, LENT, sizeof lists);
            for (size_t k = 0; k < count; k++) {
                answers[k] = left < 6 ? answer(15, left, 0, 1) : answer(0, 6, 3, 1);
                if (left >= 6)
                    memcpy(lists + 4 * k, cut, 4);
                left -= answers[k].choices;
            }
            struct parcelled wanted = {0, answers, count, left, lists, 4 * count, 100};
            parcels_at("a parcel of samples", tables, len, cap, wanted);
        }
    }
    const fitter_answer twice[2] = {answer(0, 6, 3, 1), answer(0, 6, 3, 1)};
    static const uint8_t two[8] = {1, 1, 0, 0, 1, 1, 0, 0};
    struct parcelled greatest = {0, twice, 2, UINT64_MAX - 12, two, 8, 100};
    parcels_at("a parcel of two samples, greatest cap", tables, put_samples(tables, 2), UINT64_MAX, greatest);
    struct parcel_room all = {ROOM, ROOM, ROOM, 9}, none = {0, 0, 0, 0};
    size_t len = put_samples(tables, 9);
    parcel("a parcel of nine samples", tables, len, UINT64_MAX, all, parcel_refused(17));
    parcel("a parcel of nine samples, nothing lent", tables, len, UINT64_MAX, none, parcel_refused(17));
}

/* A table, its V, the list that Repair writes, and what it answers with enough choices. With fewer choices than this
 * answer has it is spent. */
struct part {
    const uint8_t *table;
    size_t table_len, variables;
    const uint8_t *list;
    fitter_answer enough;
};

/* Any three of four tables: found without a choice or with six, none without or with two. A table behind one that is
 * spent is tried with no choice, and may be found or none all the same. The largest V may be anywhere. */
static void mixed_parcels(void)
{
    static const uint8_t one_way[19] = {2, 2, 1, 0, 1, 0, 0, 0, 0, 0, 0, 1, 5, 1, 1, 5, 1, 0, 0};
    static const uint8_t dead_end[16] = {2, 1, 1, 0, 1, 0, 0, 0, 0, 0, 0, 1, 9, 1, 0, 0};
    static const uint8_t undecided[43] = {
        3, 4, 6, 1,
        1, 0, 0, 0, 1, 0, 0, 0, 0,
        0, 1, 1, 0, 0, 1, 1, 1, 1, 0, 2, 1,
        2, 0, 0, 7, 0, 0, 3, 1, 0, 4, 1, 2, 4, 2, 1, 5, 3, 4,
    };
    static const uint8_t both[2] = {1, 1}, cut[4] = {1, 1, 0, 0};
    const struct part parts[4] = {
        {one_way, 19, 6, both, answer(0, 0, 0, 2)},
        {dead_end, 16, 5, NULL, answer(14, 0, 0, 0)},
        {undecided, 43, 29, NULL, answer(14, 2, 0, 1)},
        {sample, SAMPLE, 100, cut, answer(0, 6, 3, 1)},
    };
    for (unsigned which = 0; which < 64; which++)
        for (uint64_t cap = 0; cap < 20; cap++) {
            fitter_answer answers[3];
            uint8_t tables[3 * 43], lists[3 * 4];
            struct parcelled wanted = {0, answers, 3, cap, lists, 0, 0};
            size_t len = 0;
            memset(lists, LENT, sizeof lists);
            for (unsigned k = 0; k < 3; k++) {
                const struct part *part = &parts[which >> 2 * k & 3];
                const fitter_answer *enough = &part->enough;
                memcpy(tables + len, part->table, part->table_len);
                len += part->table_len;
                answers[k] = wanted.left < enough->choices ? answer(15, wanted.left, 0, enough->settled) : *enough;
                if (answers[k].number == 0)
                    memcpy(lists + wanted.lists_len, part->list, part->table[1]);
                wanted.lists_len += part->table[1];
                wanted.left -= answers[k].choices;
                if (part->variables > wanted.variables)
                    wanted.variables = part->variables;
            }
            parcels_at("a parcel of different tables", tables, len, cap, wanted);
        }
}

/* 17 comes before 10, and where no 17 comes the buffers, of no entries, are too short. */
static void parcel_number(const char *what, const uint8_t *tables, size_t tables_len, int accepted)
{
    struct parcel_room none = {0, 0, 0, 0}, all = {ROOM, ROOM, ROOM, 9};
    parcel(what, tables, tables_len, UINT64_MAX, none, parcel_refused(accepted ? 10 : 17));
    if (!accepted)
        parcel(what, tables, tables_len, 1000, all, parcel_refused(17));
}

static void parcel_refusals(void)
{
    uint8_t tables[2 * SAMPLE + 4] = {0};
    put_samples(tables, 2);
    parcel_number("an empty parcel", NULL, 0, 0);
    /* every part of two samples, and a tail */
    for (size_t len = 1; len <= sizeof tables; len++)
        parcel_number("a part of a parcel", tables, len, len == SAMPLE || len == 2 * SAMPLE);
    /* any byte behind the counts n, e and f changed, in the first table or the second */
    for (size_t at = 3; at < 2 * SAMPLE; at++)
        for (unsigned value = 0; value < 256 && at % SAMPLE >= 3; value++) {
            uint8_t changed[2 * SAMPLE], table[SAMPLE];
            static const uint8_t list[4] = {1, 1, 0, 0};
            memcpy(changed, tables, sizeof changed);
            changed[at] = (uint8_t)value;
            change(table, at % SAMPLE, value);
            unsigned number = judge(table, SAMPLE, list, 4);
            parcel_number("a parcel with a byte changed", changed, sizeof changed, number < 2 || number > 8);
        }
}

/* No list where there is no step, and nothing at all for what is refused. */
static void parcel_no_buffers(void)
{
    static const uint8_t no_steps[20] = {1, 0, 1, 0, 1, 0, 0, 1, 0, 0, 1, 0, 1, 0, 1, 0, 0, 1, 0, 0};
    uint32_t count = LENT32, words[2] = {LENT32, LENT32};
    uint64_t left = LENT64;
    uint8_t bytes[2] = {LENT, LENT};
    fitter_answer answers[2];
    const fitter_answer none[2] = {answer(14, 0, 0, 0), answer(14, 0, 0, 0)};
    struct room two = {0, 2, 2};
    expect("nothing at all", fitter_parcel(NULL, 0, 9, NULL, 0, NULL, 0, NULL, 0, NULL, 0, &count, &left), 17);
    expect("no buffers", fitter_parcel(no_steps, 20, 9, NULL, 0, NULL, 0, NULL, 0, NULL, 0, &count, &left), 10);
    expect("no buffers: tables", count, LENT32);
    expect("no buffers: left", left == LENT64, 1);
    expect("no lists", fitter_parcel(no_steps, 20, 9, NULL, 0, bytes, 2, words, 2, answers, 2, &count, &left), 0);
    expect("no lists: tables", count, 2);
    expect("no lists: left", left == 9, 1);
    expect_answers("no lists: answers", answers, 2, none, 2);
    expect_zeros("no lists: buffers", bytes, words, two, 2);
}

/* The layout that fitter.h says. */
static void answer_layout(void)
{
    expect("size of an answer", sizeof(fitter_answer), 24);
    expect("place of the choices", offsetof(fitter_answer, choices), 0);
    expect("place of the number", offsetof(fitter_answer, number), 8);
    expect("place of the price", offsetof(fitter_answer, price), 12);
    expect("place of the settled steps", offsetof(fitter_answer, settled), 16);
}

/* The largest table eight times, 256 choices each. */
static void largest_parcel(void)
{
    static uint8_t tables[9 * LARGEST], lists[8 * 128];
    fitter_answer answers[8];
    for (size_t k = 0; k < 9; k++)
        largest(tables + k * LARGEST);
    for (size_t k = 0; k < 8; k++) {
        answers[k] = answer(0, 256, 0, 0);
        for (unsigned j = 0; j < 128; j++)
            lists[128 * k + j] = j % 32 < 4;
    }
    struct parcelled wanted = {0, answers, 8, 0, lists, sizeof lists, VARIABLES};
    parcels_at("eight largest tables", tables, 8 * LARGEST, 2048, wanted);
    struct parcel_room more = {2000, VARIABLES, VARIABLES, 12};
    parcel("nine largest tables", tables, 9 * LARGEST, 2048, more, parcel_refused(17));
    answers[7] = answer(15, 255, 0, 0);
    memset(lists + 7 * 128, LENT, 128);
    parcel("eight largest tables, cap 2047", tables, 8 * LARGEST, 2047, more, wanted);
}

static void parcels(void)
{
    answer_layout();
    sample_parcels();
    mixed_parcels();
    parcel_refusals();
    parcel_no_buffers();
    largest_parcel();
}

static void all_calls(void)
{
    sheets();
    sheet_prices();
    samples();
    unreached();
    refusals();
    repairs();
    largest_calls();
    repair_refusals();
    any_byte_changed();
    parcels();
}

int main(void)
{
    expect("pages stop reads", (unsigned)pages_stop_reads(), 1);
    for (enum place place = ON_HEAP; place <= AFTER_PAGE; place++) {
        lend_at(place);
        all_calls();
    }
    printf("c calls: %d checks, %d failures\n", checks, failures);
    return failures != 0;
}
