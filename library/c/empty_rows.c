/*
 * Rows without words: each call with NULL and length 0 in place of its rows, for every choice of rows that are left out.
 * It must return the first refusal that fits and change no other row; with no row left out the same call is accepted.
 */
#include <inttypes.h>
#include <stdio.h>
#include <stdlib.h>
#include <string.h>

#include "kitesonnet.h"

enum { CELLS = 2, CELLS_NOT_ALLOWED = 3, WORKERS = 1, WORKER = 0, VERSIONS = 9, NO_OPERATION = 0 };

/* Which rows are lent, as a sum of these. */
enum { NODE_TABLE = 1, VERSION_TABLE = 2, BOARD = 4, TREE = 7, ANSWER = 8, ALL = 15 };

struct rows {
    uint64_t nodes[KITE_NODE_WORDS(CELLS)];
    uint64_t versions[KITE_VERSION_WORDS(VERSIONS)];
    uint64_t board[KITE_BOARD_WORDS(WORKERS)];
    uint64_t answer[KITE_ANSWER_WORDS];
};

static struct rows rows;
static struct rows before;

static uint64_t *words(int is_lent, uint64_t *row)
{
    return is_lent ? row : NULL;
}

static size_t length(int is_lent, size_t row_length)
{
    return is_lent ? row_length : 0;
}

static uint64_t open_with(int lent, uint64_t cells)
{
    return kite_open(cells, WORKERS, words(lent & NODE_TABLE, rows.nodes), length(lent & NODE_TABLE, KITE_NODE_WORDS(CELLS)),
                     words(lent & VERSION_TABLE, rows.versions), length(lent & VERSION_TABLE, KITE_VERSION_WORDS(VERSIONS)),
                     words(lent & BOARD, rows.board), length(lent & BOARD, KITE_BOARD_WORDS(WORKERS)));
}

static uint64_t start_with(int lent, uint64_t cells, uint64_t operation)
{
    return kite_start(cells, WORKERS, WORKER, operation, 0, 0, words(lent & NODE_TABLE, rows.nodes),
                      length(lent & NODE_TABLE, KITE_NODE_WORDS(CELLS)), words(lent & VERSION_TABLE, rows.versions),
                      length(lent & VERSION_TABLE, KITE_VERSION_WORDS(VERSIONS)), words(lent & BOARD, rows.board),
                      length(lent & BOARD, KITE_BOARD_WORDS(WORKERS)));
}

static uint64_t step_with(int lent, uint64_t cells)
{
    return kite_step(cells, WORKERS, WORKER, words(lent & NODE_TABLE, rows.nodes),
                     length(lent & NODE_TABLE, KITE_NODE_WORDS(CELLS)), words(lent & VERSION_TABLE, rows.versions),
                     length(lent & VERSION_TABLE, KITE_VERSION_WORDS(VERSIONS)), words(lent & BOARD, rows.board),
                     length(lent & BOARD, KITE_BOARD_WORDS(WORKERS)), words(lent & ANSWER, rows.answer),
                     length(lent & ANSWER, KITE_ANSWER_WORDS));
}

static uint64_t energy_with(int lent, uint64_t level)
{
    return kite_energy(level, words(lent & ANSWER, rows.answer), length(lent & ANSWER, KITE_ANSWER_WORDS));
}

/* The first that fits of 20, 2 and 3, which is their order in every call that has them. */
static uint64_t refusal_of(int lent)
{
    if (!(lent & ANSWER)) {
        return KITE_REFUSED_ANSWER;
    }
    if (!(lent & BOARD)) {
        return KITE_REFUSED_WORKERS;
    }
    return lent == ALL ? KITE_OK : KITE_REFUSED_TABLES;
}

static void expect(const char *call, int lent, uint64_t result, uint64_t wanted)
{
    int changed = memcmp(&rows, &before, sizeof rows) != 0;

    if (result != wanted || (result != KITE_OK && changed)) {
        fprintf(stderr, "%s, rows lent %d: returned %" PRIu64 ", should be %" PRIu64 "%s\n", call, lent, result, wanted,
                changed ? ", and rows were changed" : "");
        exit(EXIT_FAILURE);
    }
    before = rows;
}

/* With a wrong number as well as a missing row, the order of the refusals decides. */
static void leave_out_with_wrong_numbers(void)
{
    expect("kite_open, cells", 0, open_with(0, CELLS_NOT_ALLOWED), KITE_REFUSED_CELLS);
    expect("kite_start, operation", 0, start_with(0, CELLS_NOT_ALLOWED, NO_OPERATION), KITE_REFUSED_OPERATION);
    expect("kite_start, cells", 0, start_with(0, CELLS_NOT_ALLOWED, KITE_TOTAL), KITE_REFUSED_CELLS);
    expect("kite_step, cells and answer", 0, step_with(0, CELLS_NOT_ALLOWED), KITE_REFUSED_ANSWER);
    expect("kite_step, cells", ANSWER, step_with(ANSWER, CELLS_NOT_ALLOWED), KITE_REFUSED_CELLS);
    expect("kite_energy, level and answer", 0, energy_with(0, KITE_MOST_LEVEL + 1), KITE_REFUSED_ANSWER);
}

static void leave_out_of_energy(void)
{
    expect("kite_energy", 0, energy_with(0, 0), KITE_REFUSED_ANSWER);
    expect("kite_energy", ANSWER, energy_with(ANSWER, 0), KITE_OK);
}

/* An open and a start have no answer's row, so to them it counts as lent. */
static void leave_out_of_open(void)
{
    int lent;

    for (lent = 0; lent <= TREE; lent++) {
        expect("kite_open", lent, open_with(lent, CELLS), refusal_of(lent | ANSWER));
    }
}

static void leave_out_of_start(void)
{
    int lent;

    for (lent = 0; lent <= TREE; lent++) {
        expect("kite_start", lent, start_with(lent, CELLS, KITE_TOTAL), refusal_of(lent | ANSWER));
    }
}

static void leave_out_of_step(void)
{
    int lent;

    for (lent = 0; lent <= ALL; lent++) {
        expect("kite_step", lent, step_with(lent, CELLS), refusal_of(lent));
    }
}

int main(void)
{
    leave_out_with_wrong_numbers();
    leave_out_of_energy();
    /* Each loop ends with an accepted call, which makes what the next one needs. */
    leave_out_of_open();
    leave_out_of_start();
    leave_out_of_step();
    return EXIT_SUCCESS;
}
