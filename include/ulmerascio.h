/* ulmerascio.h: does every task of a table meet its deadline? For programs in C and C++.
 *
 * The analysis takes the bytes of one task table and two slices (arrays with their lengths) of
 * 32-bit words that the caller lends it. It writes each task's longest response time, in ticks, and
 * the rounds, the number of steps that it took to find it, and says whether every task meets its
 * deadline. It covers one processor, fixed priorities where a more urgent task takes the processor
 * at once and several tasks may share a priority, whole ticks, and sporadic tasks: their jobs come
 * at least a period apart. The engine comes to the same answers, for the tables that it takes, by
 * playing the worst case tick by tick. The checker of claims is given response times that somebody
 * claims, and says whether they hold. The second analysis is for tables in which a deadline may be
 * longer than the task's period. The intake is for a table that comes in pieces, over a cable say:
 * it keeps them, and at the end answers as the analysis does. docs/SPECIFICATION.md has all the
 * rules and terms.
 *
 * THE LIBRARY. All functions are in one archive, libulmerascio.a, which the command ./library makes
 * in the folder target/c, with a copy of this header beside it:
 *
 *     gcc -Itarget/c -o program program.c target/c/libulmerascio.a
 *
 * ("./library install PREFIX" installs both.) The header needs C99 or C++, and of other headers
 * stddef.h and stdint.h, which come with the compiler.
 *
 * WHAT MAY BE LENT. No pointer may be null, even where its length is 0. If a table or a list is
 * refused, no word of any slice is changed. What a call reads and writes must not overlap.
 *
 * MEMORY. A call uses the stack and what it is lent: no heap, and no global variables; the archive
 * has no data that can be written. So the functions are reentrant: they may be called from several
 * threads at once, and from a signal handler that interrupts a call, if each call has slices of its
 * own to write to, and each intake its own store and fill. (They use the SSE registers and the 128
 * bytes below the stack pointer, as the calling convention allows. Whoever calls them from an
 * interrupt without an operating system has to keep those for what was interrupted.)
 *
 * THE C LIBRARY. One function of it is called: memset, with which the compiler clears arrays. Where
 * there is no C library, supply a memset of your own, and have gcc compile it with -ffreestanding:
 * else it may turn the loop in it into a call of memset.
 *
 * STACK AND TIME of a call: bytes of stack, the return address with them, and millions of
 * instructions.
 *
 *                                       stack  32 tasks  200 tasks  slowest    no table takes
 *                                       bytes                       found      more than
 *     ulmerascio_analyse                6,700    0.06      1.2        3,520       650,000
 *     ulmerascio_analyse_from_own_cost  6,700    0.06      1.2        3,520       650,000
 *     ulmerascio_play                   7,400    3.0       5.7        3,110         3,200
 *     ulmerascio_check_claims           5,800    0.011     0.29           0.55          0.6
 *     ulmerascio_analyse_past_period    6,700    0.023     0.46     116,000    42,000,000
 *     ulmerascio_intake_begin               8    2 instructions
 *     ulmerascio_intake_take               64    0.0003    0.0011         0.0011        0.0012
 *     ulmerascio_intake_end             6,800    0.06      1.2        3,520       650,000
 *
 * ulmerascio_intake_take is that of a whole table in one piece; a single byte takes 48 instructions.
 *
 * The stack was measured, and agrees with what the machine code takes; the numbers are rounded up.
 * To them comes what memset itself uses: next to nothing, but some 3,000 bytes at the first call in
 * a program that is linked dynamically and looks for memset only then. The instructions for 32 and
 * for 200 tasks were counted, on tables as one meets them: schedulable, and near full load. The
 * slowest found were counted too, on tables that were made to be slow; slower ones may exist. The
 * last column was not counted but reckoned, from how often each loop can run at most and how many
 * instructions it has. docs/PERFORMANCE.md tells how ("The greatest cost"), and has the same for up
 * to 32 tasks. (All instructions are those of the library as an older kit compiled it.) So let
 * nothing wait for an analysis, the engine or the end of an intake that gets tables from strangers;
 * a check of claims is always quick, and so is taking a piece.
 *
 * THE PROCESSOR. The archive is for x86-64 and Linux: the System V calling convention, position
 * independent code, and instructions that every x86-64 processor has. With another processor there
 * are three ways:
 *
 *   - Decide where the table is made, on a PC, with "./answers" or with this library, and load only
 *     tables that were found schedulable. The answers hold for every processor that works as
 *     described above.
 *   - Run a program with this library under an emulator, such as qemu-user.
 *   - Compile the plain C in the folder bench (plain.h and plain*.c), for any processor. It is
 *     written to the same rules, and tests/c/run compares it with this library on every test table;
 *     but it is not proved.
 */
#ifndef ULMERASCIO_H
#define ULMERASCIO_H

#include <stddef.h>
#include <stdint.h>

#ifdef __cplusplus
extern "C" {
#endif

/* A table is a head of 5 bytes, then a record for each of n tasks, then m section rows, which say
 * for how long a task holds a semaphore. Versions 1, 2 and 3 are read. The version, byte 0, alone
 * decides the size s of a task's record and how many tasks there may be. In version 1 a record has
 * 17 bytes, with one jitter J; in version 2 it has 21, with an earliest and a latest delay in place
 * of J. Both have at most 32 tasks. Version 3 has the records of version 2 and at most 200 tasks. A
 * version 1 table is read as one with earliest delay 0 and latest delay J.
 *
 * A record has a priority, a period T, a cost C, a deadline D, and the jitter or the delays. T is
 * the least number of ticks between two jobs of the task, C the most processor time that a job
 * takes, and D the number of ticks within which a job is to be done. T and C are 1 to 1,000,000,
 * and D is 1 to T. For ulmerascio_analyse_past_period alone D is 1 to 4T, and at most 1,000,000.
 *
 * A larger priority is more urgent. Priorities may repeat from one record to the next, but not
 * rise. Of jobs of one priority the one that was released first is served first, and of those
 * released in one tick the one whose task stands first in the table. A task may have to wait for
 * every other task of its own priority or a greater one, and its answer counts all of them.
 *
 * The most tasks and the most bytes of all versions: those of version 3. The longest tables of
 * versions 1 and 2, with 32 tasks and 64 rows, have 933 and 1,061 bytes. */
#define ULMERASCIO_MOST_TASKS 200
#define ULMERASCIO_LONGEST_TABLE 4589

/* Why a table was refused. They are tested in this order, except that 5 and 6 take turns record
 * by record; the first that applies is given, and only when it applies. */
enum ulmerascio_refusal_number {
    ULMERASCIO_REFUSED_SHORT = 1,    /* fewer than 5 bytes */
    ULMERASCIO_REFUSED_VERSION = 2,  /* byte 0 is not 1, 2 or 3 */
    ULMERASCIO_REFUSED_COUNTS = 3,   /* n is not 1 to 32, in version 3 not 1 to 200; or m is not 0
                                      * to 64 */
    ULMERASCIO_REFUSED_LENGTH = 4,   /* stated length, table_len and 5 + sn + 6m are not all
                                      * equal */
    ULMERASCIO_REFUSED_NUMBERS = 5,  /* T, C, D, J or a delay out of range, or the earliest delay
                                      * above the latest */
    ULMERASCIO_REFUSED_PRIORITY = 6, /* priority 0, or above that of the record before */
    ULMERASCIO_REFUSED_ROW = 7,      /* a section row breaks a rule */
    ULMERASCIO_REFUSED_SLICES = 8,   /* a slice for answers, rounds or tried has fewer than n
                                      * words */
    ULMERASCIO_REFUSED_NOT_PLAYABLE = 9, /* given by ulmerascio_play alone: some jitter or delay is
                                      * not 0, there is a row, or two tasks have one priority */
    ULMERASCIO_REFUSED_CLAIMS = 10,  /* given by ulmerascio_check_claims alone: there are fewer or
                                      * more claims than n */
    ULMERASCIO_REFUSED_DELAYS = 11   /* given by ulmerascio_analyse_past_period alone: some jitter
                                      * or delay is not 0 */
};

/* Where it was refused. The place of refusals 3, 5, 6 and 7 is the offset, from the table's first
 * byte, at which the first faulty field begins; that of the others is 0. Record i, counted from 0,
 * begins at t = 5 + si, and row k at r = 5 + sn + 6k, where s is 17 or 21 by the version.
 *
 *     number        place
 *     1, 2, 4       0
 *     3             3, where n stands; or 4, where m stands, if only m is wrong
 *     5             t + 1 for T, t + 5 for C, t + 9 for D, t + 13 for J or for the earliest delay,
 *                   t + 17 for the latest, tested in this order; an earliest delay that is in
 *                   range but above the latest is a fault of the latest
 *     6             t, where the priority stands; it is tested after the numbers of its record
 *     7             r for the task's place, r + 1 for the semaphore, r + 2 for the length, tested
 *                   in this order; then r if the row does not rise above the one before
 *     8 to 11       0
 */

/* Analyses the table of table_len bytes at table.
 *
 * The verdict is code * 4294967296 + place, so that its high 32 bits are the code and its low 32
 * bits the place:
 *
 *     code 0         every task meets its deadline; the place is 0
 *     code 1 to 8    the table is refused, with that number and at that place of the lists above
 *     code 255       late; the place is the number of the first task whose answer is 0, from 0
 *
 * The functions below take it apart.
 *
 * If the table is not refused, and n is its number of tasks, words 0 to n - 1 of answers get the
 * tasks' longest response times in ticks, 0 for a task that is not shown to meet its deadline, and
 * words 0 to n - 1 of rounds get the rounds spent on them. Later words of both slices stay as they
 * were. If the table is refused, no word of either slice is changed.
 *
 * With no delay and no rows, no job takes longer than its task's answer. For a task that shares its
 * priority with no other some job can take that long, and an answer of 0 means that some job can
 * miss its deadline. For a task that shares its priority neither is said: the answer may be more
 * than any job takes, and 0 means "not shown to be in time" and no more than that.
 *
 * Rounds are counted along a sequence that rises to the answer. It starts at the task's cost and
 * blocking (the longest time for which a less urgent task can hold it up) plus one cost of every
 * other task that is at least as urgent. The rounds are at most D - J - start + 1, with the latest
 * delay for J, and 1 if the start with it is above D.
 *
 * answers_len and rounds_len are counted in words. Each pointer must be good for its length:
 * table for reading table_len bytes, answers and rounds for reading and writing answers_len and
 * rounds_len words, and both aligned for a word. No pointer may be null, even where its length
 * is 0. The three ranges must not overlap.
 */
uint64_t ulmerascio_analyse(const uint8_t *table, size_t table_len,
                            uint32_t *answers, size_t answers_len,
                            uint32_t *rounds, size_t rounds_len);

/* The same with the older start: the sequence starts at the task's cost and blocking alone.
 *
 * Verdict, answers and the words that stay are always those of ulmerascio_analyse. The rounds are
 * the same or one more: 1, 2 and 5 for examples/fifth.table, where ulmerascio_analyse gives 1, 1
 * and 4. The bound above holds with this start.
 *
 * Choose ulmerascio_analyse, which takes no more rounds to the same answers, unless the rounds are
 * to be held against others that are counted from a task's own cost.
 *
 * What is said above of lengths and pointers holds here too.
 */
uint64_t ulmerascio_analyse_from_own_cost(const uint8_t *table, size_t table_len,
                                          uint32_t *answers, size_t answers_len,
                                          uint32_t *rounds, size_t rounds_len);

/* Plays the table of table_len bytes at table: a second way to the answers of
 * ulmerascio_analyse. It solves no equation, so that each can be held against the other. All
 * tasks are released at tick 0 and then every T, each job takes its full cost, and tick after
 * tick the most urgent task that has work is served; late jobs queue.
 *
 * Refusals 1 to 8 and their places are as above, 8 for its one slice; then a table with any row,
 * with a jitter or delay that is not 0, even if it is constant, or with two tasks of one priority
 * is refused with 9. The verdict is packed as above, with codes 1 to 9 for a refusal.
 *
 * If the table is not refused, words 0 to n - 1 of answers get the number of ticks from 0 to the
 * end of each task's first job, 0 where that is past its deadline; later words stay. Verdict and
 * answers are then those of ulmerascio_analyse. If the table is refused, no word is changed.
 *
 * A call takes longer the longer the deadlines are: it plays up to the latest deadline, at most
 * 1,000,000 ticks, or up to the first tick at which no work is left.
 *
 * What is said above of lengths and pointers holds here too.
 */
uint64_t ulmerascio_play(const uint8_t *table, size_t table_len,
                         uint32_t *answers, size_t answers_len);

/* Checks claims for the table of table_len bytes at table. A claim is a response time in ticks that
 * somebody says a task of the table has: word i of claims is the claim for task i, counted from 0.
 *
 * Each claim is looked at once. From claim r the task's latest delay (J in version 1) is taken off,
 * which leaves w ticks. The claim passes if
 *
 *     w is at least 1;
 *     r is at most the deadline D; and
 *     the work that may come in w ticks is at most w: the task's cost and blocking, and for every
 *     other task that is at least as urgent its cost times (w + s) / T rounded up, where T is that
 *     task's period and s its latest delay minus its earliest.
 *
 * If every claim passes, the table is schedulable, and no task's longest response time, which is
 * the answer that ulmerascio_analyse gives, is above its claim. The answers of a schedulable table
 * always pass. A claim above the answer may fail, also where it is within the deadline: in a few
 * ticks more, more work may come than there is time for. So a claim that fails does not mean that
 * its task is late, but that this claim does not show it to be in time. No claim passes for a task
 * whose answer is 0.
 *
 * Refusals 1 to 7 and their places are as above; there is no 8, since nothing is written. Then a
 * list with fewer or more claims than the table has tasks is refused with 10. What is returned is
 * packed as above:
 *
 *     code 0               every claim passes; the place is 0
 *     code 1 to 7, or 10   refused, with that number and at that place of the lists above
 *     code 255             a claim fails; the place is the number of the first task whose claim
 *                          does, from 0
 *
 * claims_len is counted in words. table must be good for reading table_len bytes, claims for
 * reading claims_len words, and claims must be aligned for a word. Neither may be null, even where
 * its length is 0.
 */
uint64_t ulmerascio_check_claims(const uint8_t *table, size_t table_len,
                                 const uint32_t *claims, size_t claims_len);

/* The answer of an open task: nothing is decided about it. */
#define ULMERASCIO_OPEN 4294967295u

/* Analyses the table of table_len bytes at table, in which a deadline D may be longer than the
 * period T: up to 4T, and at most 1,000,000. A job of such a task may still be waiting or at work
 * when the task's next job is released; then the next one has to wait for it, and may take longer
 * than the first.
 *
 * The verdict is packed as above:
 *
 *     code 0               every task has an answer within its deadline; the place is 0
 *     code 1 to 8, or 11   the table is refused, with that number and at that place of the lists
 *                          above
 *     code 254             open; the place is the number of the first task that is late or open,
 *                          from 0, and that task is open
 *     code 255             late; the same, but that task is late
 *
 * Load a table only if the code is 0.
 *
 * If the table is not refused, and n is its number of tasks, words 0 to n - 1 of answers get the
 * tasks' longest response times in ticks, 0 for a task that is late and ULMERASCIO_OPEN for one
 * that is open, and words 0 to n - 1 of tried get how many of each task's jobs were looked at.
 * Later words of both slices stay as they were. If the table is refused, no word of either slice is
 * changed.
 *
 * How an answer is found: let jobs 0, 1, 2 and so on of a task be released at ticks 0, T, 2T and so
 * on, and every other task as often as it can be. Job q is then taken to end at tick w, the
 * smallest whole number of at least 1 that is equal to
 *
 *     B + (1 + q)C, and for every other task that is at least as urgent its cost times w / P
 *     rounded up, where P is that task's period and B the blocking of the task itself, as above.
 *
 * Its response time is R = w - qT. The jobs are looked at one after the other, from job 0 on:
 *
 *     late      If R is above D, or there is no such w, the task is late: not shown to meet its
 *               deadline. The answer is 0.
 *     answered  Else, if R is at most T, the job is done when the next one is released, and no
 *               further job is looked at. The answer is the largest R of the jobs looked at.
 *     open      Else the next job is looked at. But if 64 jobs in a row were each in time for their
 *               deadline and not done when the next one was released, nothing is decided: the task
 *               is open, and the answer is ULMERASCIO_OPEN. Do not load such a table.
 *
 * The number tried counts the last job looked at too: it is 1 to 64, and 64 for an open task.
 *
 * For example, let T, C and D be 20, 10 and 20 for the more urgent of two tasks and 10, 5 and 20
 * for the other. The answers are 10 and 15, and the numbers tried 1 and 2: job 0 of the second task
 * takes 15 ticks, and job 1, which is released at tick 10, ends at tick 20 and takes 10.
 *
 * Refusals 1 to 8 and their places are as above, but that 5 allows the longer D and that 8 is about
 * answers and tried. Then a table with a jitter or delay that is not 0, even if it is constant, is
 * refused with 11. Rows are taken, and so are tasks that share a priority.
 *
 * What is proved: for every table the verdict and every word are what is said here. Where no D is
 * above T and the table is not refused, the verdict and the answers are those of
 * ulmerascio_analyse, and what is said there of jobs holds here too. What is not proved: in a table
 * with a D above T, that no job takes longer than its task's answer, or that some job can take that
 * long. There the answers are those of the equation above, the usual one for such deadlines, and no
 * more than that is claimed.
 *
 * A call takes longer the more jobs are tried. What is said above of lengths and pointers holds
 * here too, with tried and tried_len for rounds and rounds_len.
 */
uint64_t ulmerascio_analyse_past_period(const uint8_t *table, size_t table_len,
                                        uint32_t *answers, size_t answers_len,
                                        uint32_t *tried, size_t tried_len);

/* THE INTAKE is for a table that does not come at once but in pieces, over a cable say. A piece is
 * any number of bytes, from none to all of the table, and the table may be cut anywhere, in the
 * middle of a number too. When the table has ended, the intake gives exactly the answer that
 * ulmerascio_analyse gives for all its bytes at once.
 *
 * What is kept from one piece to the next is yours: the store, an array in which the bytes of the
 * table are put one after the other, and the fill, the number of bytes that are in it. Here each
 * piece is one byte. receive and load stand for functions of your own: receive waits for the next
 * byte, and returns 0 when the table has ended. (How you learn that is up to you. The sender may
 * tell, or fall silent; the intake does not guess.)
 *
 *     static uint8_t store[ULMERASCIO_STORE_BYTES];
 *     static size_t fill;
 *     static uint32_t answers[ULMERASCIO_MOST_TASKS], rounds[ULMERASCIO_MOST_TASKS];
 *     uint64_t verdict;
 *     uint8_t byte;
 *
 *     ulmerascio_intake_begin(&fill);
 *     while (receive(&byte))
 *         ulmerascio_intake_take(store, sizeof store, &fill, &byte, 1);
 *     verdict = ulmerascio_intake_end(store, sizeof store, &fill, answers, ULMERASCIO_MOST_TASKS,
 *                                     rounds, ULMERASCIO_MOST_TASKS);
 *     if (ulmerascio_is_schedulable(verdict))
 *         load(store);
 *
 * examples/cable.c is a whole program of this kind.
 *
 * The next table: after ulmerascio_intake_end the intake is ready for it, after a refusal too. Just
 * take its first piece. To give up a table before its end, say because the cable was pulled out,
 * call ulmerascio_intake_begin.
 *
 * A table that is too long: no table has more than ULMERASCIO_LONGEST_TABLE bytes. The intake keeps
 * one byte more than that and drops the rest, so nothing is ever written past the store's end. Such
 * a table is refused, with the number and the place that it gets if all its bytes are there.
 *
 * The other functions can use the same intake. After the last piece call them with the store as the
 * table and the fill as its length, and then ulmerascio_intake_begin:
 *
 *     verdict = ulmerascio_check_claims(store, fill, claims, claims_len);
 *     ulmerascio_intake_begin(&fill);
 *
 * ulmerascio_analyse_past_period, ulmerascio_play and ulmerascio_analyse_from_own_cost are called
 * in the same way. If bytes were dropped, these functions, too, say of the bytes that were kept
 * what they say of all of them. But they cannot tell you that the store is too short, so look at
 * what ulmerascio_intake_take returns. (To have the analysis's answer as well, call
 * ulmerascio_intake_end last, in place of ulmerascio_intake_begin.) */

/* The store must have at least so many bytes: one more than the longest table has. Of a longer
 * store only the first so many are used. */
#define ULMERASCIO_STORE_BYTES 4590

/* What the intake returns if it is used wrongly.
 *
 * The store is too short: it has fewer than ULMERASCIO_STORE_BYTES bytes. This is tested first.
 * Nothing at all is changed, so nothing is lost: copy the bytes that are kept into a longer store,
 * if there are any, and make the call again with that. */
#define ULMERASCIO_SHORT_STORE 252

/* The fill is wrong: it is above ULMERASCIO_STORE_BYTES. Either ulmerascio_intake_begin was not
 * called, or something else has written to the variable. The table has to be sent again. (A wrong
 * fill that is smaller cannot be noticed.) */
#define ULMERASCIO_WRONG_FILL 253

/* Begins a table: sets the fill to 0, since nothing has come yet. Call it before the first piece of
 * the first table.
 *
 * fill must not be null, here and in the two functions below, and must be good for reading and
 * writing and aligned for a size_t.
 */
void ulmerascio_intake_begin(size_t *fill);

/* Takes the next piece of a table: the piece_len bytes at piece. They are copied into the store,
 * after those that came before, and the fill grows by their number. What has no room in the first
 * ULMERASCIO_STORE_BYTES bytes of the store is dropped. All other bytes of the store stay as they
 * were, and an empty piece changes nothing.
 *
 * It returns 0; or, if the store is too short or the fill is wrong, ULMERASCIO_SHORT_STORE or
 * ULMERASCIO_WRONG_FILL, and then changes nothing. You need not look at that after each piece if
 * you always lend the same store: ulmerascio_intake_end says it too.
 *
 * The time that a call takes depends on the number of bytes that it copies, and not on how many are
 * in the store already. Dropped bytes take no time.
 *
 * store must be good for reading and writing store_len bytes, and piece for reading piece_len
 * bytes. Neither may be null, even where its length is 0. Store, fill and piece must not overlap.
 */
uint32_t ulmerascio_intake_take(uint8_t *store, size_t store_len, size_t *fill,
                                const uint8_t *piece, size_t piece_len);

/* Ends a table: analyses the first bytes of the store, as many as the fill says, and sets the fill
 * to 0, after a refusal too.
 *
 * The verdict, and what is written to answers and rounds, are those of ulmerascio_analyse for all
 * the bytes that came since ulmerascio_intake_begin or since the end of the table before. (If none
 * came, the table is refused with 1.) There are two codes more, both with place 0:
 *
 *     code 252    ULMERASCIO_SHORT_STORE; nothing is changed, not even the fill
 *     code 253    ULMERASCIO_WRONG_FILL; no word of either slice is changed, and the fill is set
 *                 to 0
 *
 * For both ulmerascio_is_wrong_use is 1, and ulmerascio_is_schedulable, ulmerascio_is_late and
 * ulmerascio_is_refused are 0: so a program that loads schedulable tables alone loads nothing.
 *
 * The store is not changed: until the next piece is taken the table stands at its beginning, ready
 * to be loaded. Its length is what the fill was before the call; a table that is not refused also
 * has it in its bytes 1 and 2, the more significant byte first.
 *
 * A call takes as long as one of ulmerascio_analyse. What is said there of answers and rounds holds
 * here too. store must be good for reading store_len bytes and must not be null. Store, fill,
 * answers and rounds must not overlap.
 */
uint64_t ulmerascio_intake_end(const uint8_t *store, size_t store_len, size_t *fill,
                               uint32_t *answers, size_t answers_len,
                               uint32_t *rounds, size_t rounds_len);

/* Of what both analyses, the engine and the intake return: 1 if every task has an answer within its
 * deadline, else 0. */
static inline int ulmerascio_is_schedulable(uint64_t verdict)
{
    return verdict >> 32 == 0;
}

/* Of the same: 1 if some task is not shown to meet its deadline, and the first such task is late;
 * else 0. */
static inline int ulmerascio_is_late(uint64_t verdict)
{
    return verdict >> 32 == 255;
}

/* Of what ulmerascio_analyse_past_period returns: 1 if some task is not shown to meet its deadline,
 * and the first such task is open; else 0. */
static inline int ulmerascio_is_open(uint64_t verdict)
{
    return verdict >> 32 == 254;
}

/* Of what the checker of claims returns: 1 if every claim passes, else 0. */
static inline int ulmerascio_is_pass(uint64_t verdict)
{
    return verdict >> 32 == 0;
}

/* Of the same: 1 if some claim fails, else 0. */
static inline int ulmerascio_is_fail(uint64_t verdict)
{
    return verdict >> 32 == 255;
}

/* Of what ulmerascio_intake_end returns: 1 if nothing was analysed, since the store is too short or
 * the fill is wrong; else 0. */
static inline int ulmerascio_is_wrong_use(uint64_t verdict)
{
    return verdict >> 32 == ULMERASCIO_SHORT_STORE || verdict >> 32 == ULMERASCIO_WRONG_FILL;
}

/* 1 if the table or the list of claims was refused, else 0. */
static inline int ulmerascio_is_refused(uint64_t verdict)
{
    return verdict >> 32 >= 1 && verdict >> 32 <= 11;
}

/* The number of the refusal, 1 to 11, or 0 if nothing was refused. */
static inline int ulmerascio_refusal(uint64_t verdict)
{
    return ulmerascio_is_refused(verdict) ? (int)(verdict >> 32) : 0;
}

/* The place of a refusal, as listed above, or the number of the first task that is late or open, or
 * of the first whose claim fails, counted from 0; 0 if the table is schedulable, every claim passes
 * or the intake is used in a wrong way. */
static inline uint32_t ulmerascio_place(uint64_t verdict)
{
    return (uint32_t)(verdict & 0xFFFFFFFFu);
}

#ifdef __cplusplus
}
#endif

#endif
