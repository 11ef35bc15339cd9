/*
 * libkitesonnet: the school estimator, for programs in C and C++.
 * Four calls on numbers and on rows of 64-bit words that the caller lends; every call is proved.
 *
 * A ping is cut into cells. Up to sixteen workers mark and clear cells in one shared tree, and ask it, one small step
 * at a time: kite_start gives a worker an operation, and each kite_step takes it one step further, until a step answers.
 *
 * No call has to be guarded. Whatever numbers and words it is given, it ends, and either does what it should and
 * returns KITE_OK, or returns one of the refusals below and has changed no word that was lent to it.
 *
 * The caller owns every row. The library allocates nothing, keeps no pointer and has no state of its own, so any number of
 * trees may be in use. A row is a pointer to its first word and the number of its words; rows of one call must not overlap,
 * and a pointer must be valid for the whole length that is told, as always in C. A row without words is told as length 0, and its
 * pointer may then be NULL.
 * Calls on the same rows must not run at the same time: the tree is made for one processor that turns from worker to worker
 * between two calls. If several threads share a tree, hold one lock during each call.
 */
#ifndef KITESONNET_H
#define KITESONNET_H

#include <stddef.h>
#include <stdint.h>

#ifdef __cplusplus
extern "C" {
#endif

/* Limits. The number of cells is a power of two from KITE_LEAST_CELLS to KITE_MOST_CELLS. */
#define KITE_LEAST_CELLS 2
#define KITE_MOST_CELLS 4096
#define KITE_MOST_WORKERS 16
#define KITE_MOST_LEVEL 60
#define KITE_MOST_VERSIONS 1000000

/*
 * Sizes of the rows, in words of 64 bits.
 * The node table of a tree of so many cells; the version table for so many versions; the board of so many workers. A node
 * table or a board may be longer: what lies beyond is neither read nor written. Of a version table every whole version is used,
 * up to KITE_MOST_VERSIONS.
 * Bounds are told by h, the height of the tree, which has 2 to the power h cells. A tree opens with 2 * cells - 1 versions, and
 * an update makes at most 1 + h. Versions are not used again, so the version table is what runs out.
 */
#define KITE_NODE_WORDS(cells) (2 * (size_t)(cells))
#define KITE_VERSION_WORDS(versions) (5 * (size_t)(versions))
#define KITE_BOARD_WORDS(workers) (KITE_RECORD_WORDS * (size_t)(workers))
#define KITE_RECORD_WORDS 12
#define KITE_ANSWER_WORDS 3

/* Operations of kite_start, each with its two arguments. An argument that an operation does not have is 0. */
#define KITE_INSERT 1 /* cell, level: mark the cell; yes if it was unmarked */
#define KITE_DELETE 2 /* cell, 0: clear the cell; yes if it was marked */
#define KITE_FIND 3   /* cell, 0: the level of the cell, or none */
#define KITE_SELECT 4 /* j, 0: the j-th smallest marked cell, j from 1, or none */
#define KITE_RANK 5   /* cell, 0: count and energy of the marked cells up to this one, itself included */
#define KITE_TOTAL 6  /* 0, 0: count and energy of all marked cells */

/* Kinds of answers, the first of the three words of an answer; two values follow. A value that a kind does not have is 0. */
#define KITE_ON 0     /* 0, 0: the operation goes on; step again */
#define KITE_YES 1    /* 0, 0 */
#define KITE_NO 2     /* 0, 0 */
#define KITE_NONE 3   /* 0, 0 */
#define KITE_LEVEL 4  /* level, 0 */
#define KITE_CELL 5   /* cell, 0 */
#define KITE_SUMS 6   /* count, energy */
#define KITE_ENERGY 7 /* energy, 0: what kite_energy answers */

/* What a call returns: 0, or the number of its refusal. */
#define KITE_OK 0
#define KITE_REFUSED_CELLS 1      /* the number of cells is not allowed */
#define KITE_REFUSED_WORKERS 2    /* the number of workers is not 1 to 16, or the board is too short for them */
#define KITE_REFUSED_TABLES 3     /* the node table or the version table is too short for the cells */
#define KITE_REFUSED_WORKER 4     /* there is no worker of this number */
#define KITE_REFUSED_BUSY 5       /* start: the worker has an operation under way */
#define KITE_REFUSED_IDLE 6       /* step: the worker has none */
#define KITE_REFUSED_ARGUMENT 7   /* a cell that the tree does not have, a level above 60, or Select of 0 */
#define KITE_REFUSED_FULL 8       /* start of an update: too few versions are left besides those promised to updates under way */
#define KITE_REFUSED_DAMAGED 9    /* what was lent is not a tree, or the board's words are no records */
#define KITE_REFUSED_OPERATION 10 /* start: the operation is none of the above, or an argument that it does not have is not 0 */
#define KITE_REFUSED_ANSWER 20    /* the answer's row has fewer than KITE_ANSWER_WORDS words */

/*
 * Opens a tree of unmarked cells, with workers 0 to workers - 1 idle. It reads no old words: the rows may hold anything, and
 * a tree may be opened again in the same rows.
 * Refusals, the first that fits: 1, 2, 3.
 */
uint64_t kite_open(uint64_t cells, uint64_t workers,
                   uint64_t *nodes, size_t node_words,
                   uint64_t *versions, size_t version_words,
                   uint64_t *board, size_t board_words);

/*
 * Gives an idle worker an operation. Only the worker's record is written.
 * Refusals, the first that fits: 10, 1, 2, 3, 4, 5, 7, 9, 8. It is 9 too where the words of any worker are no record.
 */
uint64_t kite_start(uint64_t cells, uint64_t workers, uint64_t worker,
                    uint64_t operation, uint64_t first, uint64_t second,
                    const uint64_t *nodes, size_t node_words,
                    const uint64_t *versions, size_t version_words,
                    uint64_t *board, size_t board_words);

/*
 * Takes a worker's operation one step further, and writes the answer's three words: KITE_ON until the last step, then the
 * operation's own answer, after which the worker is idle again. An update answers within 2 + 8h steps of its own worker and a
 * query within 1 + h, whatever other workers do.
 * Refusals, the first that fits: 20, 1, 2, 3, 4, 6, 9. It is 9 too where the worker's words are no record.
 */
uint64_t kite_step(uint64_t cells, uint64_t workers, uint64_t worker,
                   uint64_t *nodes, size_t node_words,
                   uint64_t *versions, size_t version_words,
                   uint64_t *board, size_t board_words,
                   uint64_t *answer, size_t answer_words);

/*
 * The energy of a level: 1000 times ten to the power of a tenth of the level, rounded down. It answers KITE_ENERGY.
 * Levels are logarithms and must not be added; energies may.
 * Refusals, the first that fits: 20, 7.
 */
uint64_t kite_energy(uint64_t level, uint64_t *answer, size_t answer_words);

/*
 * The words of the tables and of a record are told on the page docs/WORDS.md of the project. A program need not look at them.
 */

#ifdef __cplusplus
}
#endif

#endif
