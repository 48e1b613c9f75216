/*
 * Blyskota: a judge of Armv8 litmus programs. C interface of libcapi.a, which ./library proves and writes.
 *
 * Every call takes byte slices, each as a pointer and a length, and writes its answer into an area that the caller lends. It returns
 *
 *   BLYSKOTA_WRITTEN       the answer is written: exactly its bytes, at the start of the area; what lies behind them stays;
 *   BLYSKOTA_SHORT_AREA    the answer area is shorter than the answer: nothing is written, in no area;
 *   BLYSKOTA_WRONG_LENGTH  a program or machine value has another length than it should: nothing is written. (A short area is
 *                          tested first.)
 *
 * What is in the bytes does not matter: any file, trace, program value and machine value gets an answer. What is not well formed is
 * refused by a number in the answer. The caller owes what C asks of any pointer: each points to as many bytes as its length says,
 * also where that is 0 (not NULL), and an area that is lent to be written overlaps none of the other slices.
 *
 * Numbers of more than one byte are little endian. Places, steps and indexes are 32 bits wide; from a file of 4 GiB or more they
 * are the low 32 bits of the number. Calls keep nothing between them, and may run at the same time on different areas.
 *
 * Stack, by the frames of the code for x86-64: blyskota_read 5 KiB, blyskota_certify 33 KiB, blyskota_step 35 KiB, blyskota_replay 36 KiB,
 * blyskota_search 147 KiB, blyskota_search_within 147 KiB, blyskota_outcomes 147 KiB, blyskota_outcomes_within 147 KiB. No proof speaks
 * of it: lend each call as much, and some for what calls it.
 *
 * README.md says byte by byte what a program file and a trace file are.
 */
#ifndef BLYSKOTA_H
#define BLYSKOTA_H

#include <stddef.h>
#include <stdint.h>

#ifdef __cplusplus
extern "C" {
#endif

/* What a call returns. */
#define BLYSKOTA_WRITTEN 0
#define BLYSKOTA_SHORT_AREA 1
#define BLYSKOTA_WRONG_LENGTH 2

/* The verdicts of a search; those of a listing of outcomes are refused, finished and not finished. */
#define BLYSKOTA_REFUSED 0
#define BLYSKOTA_ALLOWED 1
#define BLYSKOTA_FORBIDDEN 2
#define BLYSKOTA_NOT_FINISHED 3
#define BLYSKOTA_FINISHED 1

/* The kinds of a step. */
#define BLYSKOTA_EXECUTE 0
#define BLYSKOTA_PROMISE 1

/* Refusals; 0 is none. Those of a program file; the first two are also those of a trace file. */
#define BLYSKOTA_REFUSED_INPUT_ENDS 1        /* the input ends before or inside a record that is needed */
#define BLYSKOTA_REFUSED_OTHER_MARK 2        /* a record begins with another mark than the one due here */
#define BLYSKOTA_REFUSED_VERSION 3           /* the version is not 1 */
#define BLYSKOTA_REFUSED_THREADS 4           /* the number of threads is not 1 to 4 */
#define BLYSKOTA_REFUSED_INSTRUCTIONS 5      /* a thread has more than 16 instructions */
#define BLYSKOTA_REFUSED_INSTRUCTION_BYTE 6  /* a byte of an instruction is out of range, or is not 0 though it is not used */
#define BLYSKOTA_REFUSED_STORES 7            /* a 17th store */
#define BLYSKOTA_REFUSED_CONDITION 8         /* the number of conditions is above 8, or a byte of a condition is out of range */
#define BLYSKOTA_REFUSED_BYTES_FOLLOW 9      /* bytes follow the last condition */
#define BLYSKOTA_REFUSED_THREAD_NUMBER 10    /* the thread's number is not the next one */

/* Those of a step; the first two are also those of a certification. */
#define BLYSKOTA_REFUSED_NOT_WELL_FORMED 20  /* the program value or the machine value is not well formed */
#define BLYSKOTA_REFUSED_NO_THREAD 21        /* there is no such thread */
#define BLYSKOTA_REFUSED_STEP_KIND 22        /* the kind of the step is above 1, or b is not 0 in an execution */
#define BLYSKOTA_REFUSED_LOCATION 23         /* the promised location is above 15 */
#define BLYSKOTA_REFUSED_MEMORY_FULL 24      /* 16 messages stand in memory already */
#define BLYSKOTA_REFUSED_AT_END 25           /* the thread is at its end */
#define BLYSKOTA_REFUSED_NO_MESSAGE 26       /* a load finds no message to its location at that time, a store has not promised
                                                its message at that time, any other instruction executes at time 0 only */
#define BLYSKOTA_REFUSED_NEWER_MESSAGE 27    /* a load would pass over a newer message to its location that the thread must see */
#define BLYSKOTA_REFUSED_VIEW_NOT_BELOW 28   /* a view that the store has to come after is not below its time */
#define BLYSKOTA_REFUSED_NOT_CERTIFIED 29    /* alone, the thread could not keep its promises after the step */

/* That of a search, after those of its program file. */
#define BLYSKOTA_REFUSED_TRACE_AREA 30  /* the lent trace area is shorter than 480 bytes */

/* That of a listing of outcomes, after those of its program file and where the budget is enough. */
#define BLYSKOTA_REFUSED_OUTCOMES 40  /* there are more outcomes than the lent table has entries */

/*
 * A program value, 487 bytes: version, threads, 4 x (instruction count, 16 x 7 bytes op m r k1 n1 k2 n2), condition count,
 * 8 x (kind, thread, index, value). Entries that are not used are 0.
 */
#define BLYSKOTA_PROGRAM 487

/*
 * A machine value, 341 bytes: message count; 16 x (location, value, thread); 4 x (position; 8 x (register value, view);
 * 16 x coherence view; 16 x (forward time, forward view); rOld, wOld, rNew, wNew, CAP, Rel; promises, low byte first, bit t - 1 for
 * time t).
 */
#define BLYSKOTA_MACHINE 341

/* The lengths of the answers. */
#define BLYSKOTA_READ_ANSWER 495
#define BLYSKOTA_STEP_ANSWER 342
#define BLYSKOTA_CERTIFY_ANSWER 36
#define BLYSKOTA_REPLAY_ANSWER 357
#define BLYSKOTA_SEARCH_ANSWER 12
#define BLYSKOTA_SEARCH_WITHIN_ANSWER 16
#define BLYSKOTA_OUTCOMES_ANSWER 16
#define BLYSKOTA_OUTCOMES_WITHIN_ANSWER 24

/* The least trace area for a search: 6 bytes for each of the 80 steps that a trace has at most. */
#define BLYSKOTA_TRACE 480

/*
 * An outcome, 48 bytes: 4 x 8 registers, all 0 of a thread that is not there, then the last values of 16 locations. An entry of a table
 * of outcomes is an outcome and the place of the first sequence that ends with it, the empty one being 1: u32, or u64 where the budget is.
 */
#define BLYSKOTA_OUTCOME 48
#define BLYSKOTA_OUTCOMES_ENTRY 52
#define BLYSKOTA_OUTCOMES_WITHIN_ENTRY 56

/* The kinds of a step of a certifying run. */
#define BLYSKOTA_EXECUTED 0
#define BLYSKOTA_OWN_MESSAGE 1

/*
 * Reads a program file. Answer, 495 bytes: refusal (0 none), 3 zero bytes, place u32 (0 where nothing is refused), the program
 * value (all 0 where the file is refused).
 */
uint32_t blyskota_read(const uint8_t *file, size_t file_len, uint8_t *answer, size_t answer_len);

/*
 * One step: BLYSKOTA_EXECUTE has the thread execute its next instruction at time a (b = 0), BLYSKOTA_PROMISE has it promise location
 * a, value b. Answer, 342 bytes: refusal (0 accepted), the machine value after the step; a refused machine is as it came in.
 */
uint32_t blyskota_step(const uint8_t *program, size_t program_len, const uint8_t *machine, size_t machine_len, uint8_t kind,
                       uint8_t thread, uint8_t a, uint8_t b, uint8_t *answer, size_t answer_len);

/*
 * Whether a thread is certified: alone, it can keep its promises; and the first run that shows it, up to where no promise is left. Its
 * steps are the thread's next instructions in turn; of several runs the first is the one with the earlier time where they part, and a
 * store's own message comes after the times. Answer, 36 bytes: refusal (20, 21 or 0), certified (0 or 1), length of the run (0 to 16),
 * 0, then 16 times kind and time: BLYSKOTA_EXECUTED, executed at that time (0 where it is neither load nor store);
 * BLYSKOTA_OWN_MESSAGE, a store that was not promised before, executed with a message of its own at that time. What lies behind the
 * run is 0; where the thread is not certified, or the call is refused, the length and all that follows are 0.
 */
uint32_t blyskota_certify(const uint8_t *program, size_t program_len, const uint8_t *machine, size_t machine_len, uint8_t thread,
                          uint8_t *answer, size_t answer_len);

/*
 * Replays a trace file on a program file. Answer, 357 bytes: refusal, the file it is in (0 none, 1 program, 2 trace), complete
 * (0 or 1), holds (complete with the asked outcome, 0 or 1), steps taken u32, index of the refused record u32, place u32, the machine
 * value after the steps.
 */
uint32_t blyskota_replay(const uint8_t *file, size_t file_len, const uint8_t *trace, size_t trace_len, uint8_t *answer,
                         size_t answer_len);

/*
 * Searches the accepted sequences of a program file in order, at most budget of them, for one that is complete with the asked
 * outcome. Answer, 12 bytes: verdict, refusal (0 none), steps (at most 80; 0 unless allowed), 0, place u32 (0 unless refused), count
 * u32 (the place of the sequence found, the number of all, or the budget; 0 where refused). Where the verdict is allowed, the first 6 bytes per step of the lent area are the trace file of the sequence that
 * was found, and what lies behind them stays; otherwise the whole area does. An area under 480 bytes is refused with 30.
 */
uint32_t blyskota_search(const uint8_t *file, size_t file_len, uint32_t budget, uint8_t *area, size_t area_len, uint8_t *answer,
                         size_t answer_len);

/*
 * The same search with a budget and a count of 64 bits, and with a table that is lent besides: a machine whose sequences were all
 * visited is kept there (349 bytes each) and not searched again, so that programs with more sequences than could be visited get an
 * answer. The table has any length, also 0, and may hold anything before; it changes no answer. Answer, 16 bytes: verdict, refusal,
 * steps, 0, place u32 as above, count u64. Where the search is refused or 1 is returned, the table is as it was, else it is all 0.
 */
uint32_t blyskota_search_within(const uint8_t *file, size_t file_len, uint64_t budget, uint8_t *area, size_t area_len, uint8_t *table,
                                size_t table_len, uint8_t *answer, size_t answer_len);

/*
 * Lists every outcome that some complete sequence of a program file ends with, each once and in ascending order, byte by byte, if there
 * are at most budget accepted sequences. The lent table has entries of 52 bytes: the outcomes, each with its place u32, and behind the
 * last one 0. Answer, 16 bytes: verdict (BLYSKOTA_FINISHED, BLYSKOTA_NOT_FINISHED or BLYSKOTA_REFUSED), refusal (0 none), 2 zero bytes,
 * place u32 (of the refusal of a file, else 0), count u32 (the number of all sequences; the budget where not finished; 0 where the file is
 * refused), number of outcomes u32 (0 unless finished). Where there are more outcomes than entries, the listing is refused with 40, and
 * the count is that of all sequences. After that, and where it is not finished, all entries are 0; where the file is refused or 1 is
 * returned, the table is as it was. Bytes at its end that make no whole entry stay in any case.
 */
uint32_t blyskota_outcomes(const uint8_t *file, size_t file_len, uint32_t budget, uint8_t *table, size_t table_len, uint8_t *answer,
                           size_t answer_len);

/*
 * The same listing with a budget, a count and places of 64 bits: entries of 56 bytes, the outcome and its place u64, in the memory that is
 * lent as outcomes. The table is that of a search with one: any length and content, it changes no answer, and it is all 0 afterwards, also
 * after 40, unless the file is refused or 1 is returned. Answer, 24 bytes: verdict, refusal, 2 zero bytes, place u32 as above, number of
 * outcomes u32, 4 zero bytes, count u64.
 */
uint32_t blyskota_outcomes_within(const uint8_t *file, size_t file_len, uint64_t budget, uint8_t *outcomes, size_t outcomes_len,
                                  uint8_t *table, size_t table_len, uint8_t *answer, size_t answer_len);

#ifdef __cplusplus
}
#endif

#endif
