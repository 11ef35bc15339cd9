/*
 * A first program with libkitesonnet: two workers mark cells of one ping, their steps interleaved, and the mate asks.
 * It lends three rows of words to the library and looks at every number that comes back.
 */
#include <inttypes.h>
#include <stdio.h>
#include <stdlib.h>

#include "kitesonnet.h"

enum { CELLS = 8, WORKERS = 2, VERSIONS = 100 };

/* What the library is lent. It keeps nothing else, so this is the whole tree. */
static uint64_t nodes[KITE_NODE_WORDS(CELLS)];
static uint64_t versions[KITE_VERSION_WORDS(VERSIONS)];
static uint64_t board[KITE_BOARD_WORDS(WORKERS)];

/* The last answer: its kind and two values. */
static uint64_t answer[KITE_ANSWER_WORDS];

/* Each refusal is a mistake of this program or a full table, never a surprise; here any that was not expected ends the program. */
static void expect_ok(const char *call, uint64_t result)
{
    if (result != KITE_OK) {
        fprintf(stderr, "%s was refused with number %" PRIu64 "\n", call, result);
        exit(EXIT_FAILURE);
    }
}

static void expect_kind(uint64_t kind)
{
    if (answer[0] != kind) {
        fprintf(stderr, "an answer of kind %" PRIu64 " was expected, not of kind %" PRIu64 "\n", kind, answer[0]);
        exit(EXIT_FAILURE);
    }
}

static uint64_t ask_to_start(uint64_t worker, uint64_t operation, uint64_t first, uint64_t second)
{
    return kite_start(CELLS, WORKERS, worker, operation, first, second, nodes, KITE_NODE_WORDS(CELLS), versions,
                      KITE_VERSION_WORDS(VERSIONS), board, KITE_BOARD_WORDS(WORKERS));
}

/* One step of one worker. It tells whether the operation is still under way. */
static int goes_on(uint64_t worker)
{
    expect_ok("kite_step", kite_step(CELLS, WORKERS, worker, nodes, KITE_NODE_WORDS(CELLS), versions,
                                     KITE_VERSION_WORDS(VERSIONS), board, KITE_BOARD_WORDS(WORKERS), answer, KITE_ANSWER_WORDS));
    return answer[0] == KITE_ON;
}

/* Both workers mark a cell. One step each in turn: on a boat the turns would be the scheduler's, in any order. */
static void mark_two_cells(uint64_t cell_of_0, uint64_t level_of_0, uint64_t cell_of_1, uint64_t level_of_1)
{
    int busy[WORKERS] = {1, 1};
    int steps[WORKERS] = {0, 0};
    uint64_t worker = 0;

    expect_ok("kite_start", ask_to_start(0, KITE_INSERT, cell_of_0, level_of_0));
    expect_ok("kite_start", ask_to_start(1, KITE_INSERT, cell_of_1, level_of_1));
    while (busy[0] || busy[1]) {
        if (busy[worker]) {
            steps[worker]++;
            busy[worker] = goes_on(worker);
            if (!busy[worker]) {
                expect_kind(KITE_YES);
                printf("Worker %" PRIu64 " has marked its cell, in %d steps of its own.\n", worker, steps[worker]);
            }
        }
        worker = 1 - worker;
    }
}

/* A whole operation of worker 0, when there is nothing to do in between. The answer's kind must be the one that is told. */
static void run(uint64_t operation, uint64_t first, uint64_t second, uint64_t kind)
{
    expect_ok("kite_start", ask_to_start(0, operation, first, second));
    while (goes_on(0)) {
    }
    expect_kind(kind);
}

static void show_a_refusal(void)
{
    uint64_t result = ask_to_start(0, KITE_INSERT, CELLS, 40);

    if (result != KITE_REFUSED_ARGUMENT) {
        fprintf(stderr, "cell %d should have been refused\n", CELLS);
        exit(EXIT_FAILURE);
    }
    printf("Marking cell %d is refused with number %" PRIu64 ": the last cell is %d. Nothing has changed.\n", CELLS, result,
           CELLS - 1);
}

int main(void)
{
    expect_ok("kite_open", kite_open(CELLS, WORKERS, nodes, KITE_NODE_WORDS(CELLS), versions, KITE_VERSION_WORDS(VERSIONS), board,
                                     KITE_BOARD_WORDS(WORKERS)));
    printf("A ping of %d cells is open for %d workers.\n", CELLS, WORKERS);

    /* Cell 0 is the shallowest. The levels are decibels over the floor. */
    mark_two_cells(2, 40, 5, 43);
    run(KITE_INSERT, 6, 44, KITE_YES);
    show_a_refusal();

    run(KITE_RANK, 5, 0, KITE_SUMS);
    printf("Down to cell 5: %" PRIu64 " cells with fish, energy %" PRIu64 ".\n", answer[1], answer[2]);
    run(KITE_TOTAL, 0, 0, KITE_SUMS);
    printf("In the whole ping: %" PRIu64 " cells with fish, energy %" PRIu64 ".\n", answer[1], answer[2]);

    /* Energies may be added, levels may not: the library converts each level and adds only then. */
    expect_ok("kite_energy", kite_energy(40, answer, KITE_ANSWER_WORDS));
    expect_kind(KITE_ENERGY);
    printf("Level 40 alone is energy %" PRIu64 ".\n", answer[1]);
    return EXIT_SUCCESS;
}
