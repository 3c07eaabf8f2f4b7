/* The step-table fitter, for C. Link libfitter.a (see the README).
 *
 * Every call answers 0, or the number of its refusal, and then it has written nothing; fitter_repair answers 14 and
 * 15 besides. No call needs its input checked before: any bytes of any length are safe. A buffer may be NULL only
 * where its length is 0.
 *
 * A packed table has the counts n, e, f and p, a byte each, then 3 bytes for each of n states (initial, and the
 * label's low and high byte), for each of e steps (from, to, price) and for each of f nodes (kind, a, b):
 * 4 + 3 n + 3 e + 3 f bytes, at most 580.
 *
 * The library keeps no state: calls may be made from several threads at once, each with buffers of its own to write
 * to. What a call writes, in a buffer or through a pointer, must overlap nothing else that it is handed. A pointer to
 * a number must not be NULL. */
#ifndef FITTER_H
#define FITTER_H

#include <stddef.h>
#include <stdint.h>

#ifdef __cplusplus
extern "C" {
#endif

/* 0 where a repair is found: `list` has a byte for each step, 1 kept and 0 struck. It is the repair whose struck
 * steps cost least in all, the one that ranks first where several cost the same, with every step struck besides
 * that leaves a state not reached from a kept initial state by kept steps; fitter_judge accepts it. `price` gets
 * the sum of the prices of its struck steps, without those struck besides: at most 32640. 14 where there is no
 * repair. 15 where the search has made `cap` choices and would make another, whether or not it has come upon a
 * repair by then. These three store the choices made, a price, which is 0 with 14 and 15, and the settled steps,
 * leave the first V entries of `bytes` and `words` 0, and but for the list that is found every other entry as it
 * was. Else 2 to 8 or 10, and nothing is stored.
 * `settled` gets the number of steps that were known to be kept, or known to be struck, before the first choice: at
 * most 128, the same at any cap and any prices, and 0 where it shows before any choice that there is no repair.
 * `list` needs a byte for each step, `bytes` and `words` V entries each. With n states and e steps, V is e + n and,
 * for each node, n (kinds 0 to 5), e + n (6 and 7), n + n (e + 3 n) (8 to 11) or n + n (e + 2 n) (12 to 15): at
 * most 223392. */
uint32_t fitter_repair(const uint8_t *table, size_t table_len, uint64_t cap,
                       uint8_t *list, size_t list_len,
                       uint8_t *bytes, size_t bytes_len,
                       uint32_t *words, size_t words_len,
                       uint64_t *choices, uint32_t *price, uint32_t *settled);

/* 0 where the list is a repair of the table, and each of its kept steps leaves a state that is reached from a kept
 * initial state by kept steps; else 2 to 9, 11, 12, 16 or 13, the first that holds in this order. */
uint32_t fitter_judge(const uint8_t *table, size_t table_len,
                      const uint8_t *list, size_t list_len);

/* 0, and an entry for each node of the table: bit s of entry i is set where state s is kept and node i holds there,
 * all higher bits are clear. Else 2 to 11. Entries past the last node's stay as they were. */
uint32_t fitter_label(const uint8_t *table, size_t table_len,
                      const uint8_t *list, size_t list_len,
                      uint32_t *out, size_t out_len);

/* 0, the states at which the rule holds, a byte each, and how many they are: the initial states first, ascending,
 * then the others, ascending. Else 2 to 11. The buffer needs a byte for each state of the table; bytes past the
 * states written stay as they were. */
uint32_t fitter_holding(const uint8_t *table, size_t table_len,
                        const uint8_t *list, size_t list_len,
                        uint8_t *out, size_t out_len, uint32_t *count);

/* 0, the packed table of the sheet written and its length stored. Else 1, 3 to 8 or 10. At most 580 bytes are
 * written; those past the table stay as they were. */
uint32_t fitter_read(const uint8_t *text, size_t text_len,
                     uint8_t *out, size_t out_len, uint64_t *length);

/* What Repair answers for one table of several. `number` is 0 where a repair is found, 14 where there is none, 15 where
 * the allowance was spent; `price` is 0 with 14 and 15. */
typedef struct {
    uint64_t choices;
    uint32_t number;
    uint32_t price;
    uint32_t settled;
} fitter_answer;

/* Repairs one to eight packed tables that stand end to end, each as long as its own counts say, under one allowance of
 * choices: the first table under `cap`, each further one under what those before it have left. Each answer and list is
 * that of fitter_repair alone under what is then left; a table after a spent one is tried with none left.
 * 0, an answer for each table in `answers`, their number in `tables`, and in `left` what is left of the cap: all
 * choices and `left` add up to `cap`. The lists stand end to end in `lists`, a byte for each step of each table; a
 * table without a list leaves its part as it was. The first V entries of `bytes` and `words` are 0 afterwards, V that
 * of the table which has most. All other entries stay. 17 where the bytes are not one to eight accepted tables end to
 * end; else 10 where a buffer is too short: `lists` needs a byte for each step of all tables, `bytes` and `words` V
 * entries, `answers` an entry for each table. Then nothing is stored or written. */
uint32_t fitter_parcel(const uint8_t *parcel, size_t parcel_len, uint64_t cap,
                       uint8_t *lists, size_t lists_len,
                       uint8_t *bytes, size_t bytes_len,
                       uint32_t *words, size_t words_len,
                       fitter_answer *answers, size_t answers_len,
                       uint32_t *tables, uint64_t *left);

#ifdef __cplusplus
}
#endif

#endif
