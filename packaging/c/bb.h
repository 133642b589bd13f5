/*
 * The judge of bb as a library: one record, or a ledger's whole text, judged by proved code inside a program's own loop.
 *
 * A record is a table in the bbchallenge standard text format and a certificate for it, such as
 * `1RB1LB_1LA--- H 6 4`. docs/FORMATS.md has every kind of certificate, the text of a ledger, and each refusal's number.
 *
 * What holds of each call:
 *
 * - It gives what it promises below for each text of any bytes. That is proved of the code behind it, for all texts,
 *   from the definitions on; docs/PROOFS.md names the contracts.
 * - It reads the text and nothing else, writes OUT or the reader and nothing else, and asks the C library for memory that it
 *   gives back before it returns, or before the reader's end. Refused memory is an answer. It prints nothing, opens nothing, never ends the process, and returns.
 * - Except for a reader, it keeps nothing from one call to the next, and it takes no lock. So threads may call side by side, on
 *   the same text too.
 *
 * What a caller owes, which nothing checks:
 *
 * - TEXT points to LENGTH bytes that nobody writes to during the call. It isn't a null pointer, also where LENGTH is 0, and
 *   LENGTH is below 2^63. No byte behind the text is read, so it needs no zero there.
 * - OUT points to a struct of the caller's, which nobody else reads or writes during the call, and which is no part of the
 *   text. What stood in it doesn't matter.
 * - A processor with SSE4.2 (x86-64-v2), and BB_STACK_BYTES of stack that are still free.
 * - No call comes from a signal handler, or from the forked child of a process with threads; `malloc`, `realloc` and `free`
 *   are those of one allocator.
 *
 * How long a call takes is bounded by the limits of the kinds (docs/FORMATS.md): most records take microseconds, a
 * halting one up to its number of steps, and Skelet 1's half a minute and 80 megabytes.
 */
#ifndef BB_H
#define BB_H

#include <stddef.h>
#include <stdint.h>

#ifdef __cplusplus
extern "C" {
#endif

/* The number of this interface. It grows with each change of what is declared here. */
#define BB_VERSION 2

/* So much stack is enough for a call. */
#define BB_STACK_BYTES 65536

/* So many bytes a reader has. */
#define BB_READER_BYTES 1024

/* What is said of a record: bb_answer.outcome. */
enum {
    BB_HALTS = 0,     /* the certificate stands: the table halts */
    BB_NEVER = 1,     /* the certificate stands: the table never halts */
    BB_UNDECIDED = 2, /* a record of the kind U, by which nothing is claimed */
    BB_REFUSED = 3,   /* the text is no record, or its certificate doesn't stand within the limits of its kind */
    BB_NO_MEMORY = 4  /* memory was refused: of bb_answer and of bb_tree */
};

/* How the tree of a ledger stands: bb_tree.outcome; 3 and 4 are BB_REFUSED and BB_NO_MEMORY. */
enum {
    BB_COMPLETE = 0, /* no table is open and none is a holdout */
    BB_HOLDOUTS = 1, /* no table is open, but there are holdouts */
    BB_WORKING = 2   /* tables are open */
};

/* Why a line of a ledger wasn't kept: bb_tree.left_why. */
enum {
    BB_KEPT = 0,     /* every line was */
    BB_TORN = 1,     /* it has no end */
    BB_UNREAD = 2,   /* it isn't the text of a record */
    BB_UNFIT = 3,    /* its table isn't open, or has another number of states, or its certificate was refused */
    BB_REPEATED = 4  /* its table is recorded already */
};

/* What is said of a record's text. A number that the outcome doesn't speak of is 0. */
struct bb_answer {
    uint64_t steps;      /* BB_HALTS: in how many steps; the halting step counts */
    uint64_t ones;       /* BB_HALTS: the ones on its tape then, whether the record says them or not */
    uint64_t place;      /* how many bytes stand before the fault of the table's text, where has_place is 1 */
    uint32_t outcome;    /* BB_HALTS, BB_NEVER, BB_UNDECIDED, BB_REFUSED or BB_NO_MEMORY */
    uint32_t code;       /* BB_REFUSED: the refusal's number, 201 to 204 or 301 to 305 */
    uint32_t table_code; /* where code is 301: the number of the fault of the table's text, 101 to 105 */
    uint32_t has_place;  /* whether that fault has a place */
    uint32_t has_ones;   /* whether the record says the ones itself */
    uint32_t kind;       /* the letter of the record's kind, as 'H'; 0 where the text is no record */
};

/* What is said of a ledger's text. A number that the outcome doesn't speak of is 0. */
struct bb_tree {
    uint64_t nodes;      /* the records and the open tables together */
    uint64_t halting;    /* the tables recorded as halting */
    uint64_t never;      /* the tables recorded as never halting */
    uint64_t holdouts;   /* the tables recorded without a verdict */
    uint64_t open;       /* the tables without a record that are the root or a child of a table recorded as halting */
    uint64_t best;       /* the greatest number of steps recorded of a table that halts, where has_best is 1 */
    uint64_t ones;       /* the greatest score of a table that is recorded as halting, where has_ones is 1 */
    uint64_t left_line;  /* the number of the first line that wasn't kept, the header's being 1; 0 where every byte was */
    uint32_t outcome;    /* BB_COMPLETE, BB_HOLDOUTS, BB_WORKING, BB_REFUSED or BB_NO_MEMORY */
    uint32_t code;       /* BB_REFUSED: 404 where there is no header, 405 where its root isn't in order */
    uint32_t states;     /* the number of states of the root */
    uint32_t is_whole;   /* whether the root is the empty table, with which the tree of all machines of its states begins */
    uint32_t has_best;   /* whether a table is recorded as halting */
    uint32_t has_ones;   /* whether a table is recorded as halting */
    uint32_t left_why;   /* BB_KEPT, BB_TORN, BB_UNREAD, BB_UNFIT or BB_REPEATED */
    uint32_t left_code;  /* the refusal's number of that line, where it is BB_UNREAD or BB_UNFIT */
};

/* A ledger's text that is reported in pieces. What is in it is the library's own. */
struct bb_reader {
    uint64_t room[BB_READER_BYTES / 8];
};

/* BB_VERSION of the library that is linked. */
uint32_t bb_version(void);

/*
 * What a refusal's number means, in a few words of English: of a code, table_code or left_code. The text is the library's:
 * nobody frees it, and it stays. A number that none of these can be has a text too, which says so. Where there is a place,
 * the words don't have it.
 */
const char *bb_strerror(uint32_t code);

/*
 * Judges one record: a text without a newline.
 *
 * The text is read as exactly the record that its grammar says, or refused for exactly the first fault, with its place.
 *
 * BB_HALTS: the record's table halts from the blank tape in so many steps, and leaves so many ones.
 * BB_NEVER: the record's table never halts from the blank tape.
 * BB_REFUSED with 201: the certificate doesn't stand; with 202 it asks for more than the limit of its kind, with 203 its
 * check gets too large, with 204 (Skelet 1 alone) its run isn't seen to repeat; none of these three says anything of the table.
 * BB_NO_MEMORY: only for a record whose check takes memory.
 */
void bb_check(const unsigned char *text, size_t length, struct bb_answer *out);

/*
 * Reports a ledger: its whole text, from the header on. Every record of it is judged, up to the first line that can't be
 * kept, and the numbers are those of the records before it.
 *
 * BB_COMPLETE where is_whole and has_best are 1: best is S(n), the greatest number of steps from the blank tape with which
 * a machine of n states and two symbols halts, for n the number of states; where has_ones is 1 too, ones is Σ(n), the
 * greatest number of ones that such a machine leaves. Where left_line isn't 0 that is so all the same, since what was kept
 * is enough for it.
 *
 * It keeps the records in memory until it returns: some 160 bytes for each, and what their lists and automata take.
 */
void bb_report(const unsigned char *text, size_t length, struct bb_tree *out);

/*
 * The same of a text that comes in pieces, wherever it is cut: begin a reader, feed it the pieces in their order, and end it.
 * What the end answers is what is promised of bb_report for all that was fed. No piece is needed once it was fed: a reader
 * keeps the records, and of a line that isn't finished no more than a record has.
 *
 * A reader lies in the caller's memory, and asks for more behind that. Its caller begins it once, ends it once, and feeds it
 * between the two alone; until its end nobody else reads, writes, copies or moves it. Where memory is refused, the end says
 * so. Threads may feed different readers side by side, and hand one on to another thread between two calls. A reader that
 * isn't ended keeps its memory.
 */
void bb_report_begin(struct bb_reader *reader);
void bb_report_feed(struct bb_reader *reader, const unsigned char *piece, size_t length);
struct bb_tree bb_report_end(struct bb_reader *reader);

#ifdef __cplusplus
}
#endif

#endif
