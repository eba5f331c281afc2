/* plain_past.c: the second analysis, document 02's L8, as one would write it in C, without proofs.
 * It is the analysis of plain.c, compiled in the same three ways, but for how a task's answer is
 * found.
 *
 * For each q a window is looked for that is B + (1 + q) * C and what the loads ask for in it.
 * Nothing starts over: the next q goes on from the window that was found, with one C more, and the
 * marks stay. */
#define PAST
#define SPAN 4
#include "plain_table.h"

enum { MOST_TRIED = 64 };
#define OPEN_WORD UINT32_MAX

#ifdef MARKS

#include "plain_marks.h"

/* How far a task has come: the window, and what is asked for up to the marks. */
struct course {
    size_t end;
    uint32_t window, least, ahead;
    uint64_t sum;
    uint32_t *marks;
};

static uint64_t asked(const struct tasks *tasks, struct course *course)
{
    if (course->window + RAISE > course->least)
        course->sum = pass(tasks, course->end, course->window + RAISE, course->ahead, course->sum,
                           course->marks, &course->least);
    return course->sum;
}

static void add_job(struct course *course, uint32_t C)
{
    course->window += C;
    course->sum += C;
}

#else

#include "plain_demand.h"

/* How far task i has come: the window, and B + (1 + q) * C. */
struct course {
    size_t i, end;
    uint32_t window, base;
};

static uint64_t asked(const struct tasks *tasks, const struct course *course)
{
    return demand(tasks, course->i, course->end, course->base, course->window);
}

static void add_job(struct course *course, uint32_t C)
{
    course->window += C;
    course->base += C;
}

#endif

/* Goes on to the first window that is what is asked for in it. Is there one within the limit? */
static int settle(const struct tasks *tasks, uint32_t limit, struct course *course)
{
    if (course->window > limit)
        return 0;
    for (;;) {
        uint64_t next = asked(tasks, course);

        if (next > limit)
            return 0;
        if (next == course->window)
            return 1;
        course->window = (uint32_t)next;
    }
}

/* The answer of task i, and how many q were tried for it. */
static uint32_t try_jobs(const struct tasks *tasks, size_t i, struct course *course,
                         uint32_t *tried)
{
    uint32_t T = tasks->T[i];
    uint32_t released = 0; /* q * T */
    uint32_t done = 1, largest = 0, answer = 0;

    for (; settle(tasks, released + tasks->D[i], course); done++) {
        uint32_t response = course->window - released;

        if (response > largest)
            largest = response;
        if (response <= T) {
            answer = largest;
            break;
        }
        if (done == MOST_TRIED) {
            answer = OPEN_WORD;
            break;
        }
        released += T;
        add_job(course, tasks->C[i]);
    }
    *tried = done;
    return answer;
}

#ifdef MARKS

static uint32_t respond(const struct tasks *tasks, size_t i, size_t end, uint32_t once,
                        uint32_t start, uint32_t least, uint32_t *tried)
{
    uint32_t marks[MOST_TASKS + 1];
    struct course course = {end, start, least, look_ahead(least), once, marks};

    if (start > tasks->D[i]) {
        *tried = 1;
        return 0;
    }
    /* No task's mark is passed, that of task i neither: so the window is within T. */
    if (start + RAISE <= least) {
        *tried = 1;
        return start;
    }
    set_first(tasks, i, end, marks);
    return try_jobs(tasks, i, &course, tried);
}

#else

static uint32_t respond(const struct tasks *tasks, size_t i, size_t end, uint32_t base,
                        uint32_t start, uint32_t *tried)
{
    struct course course = {i, end, start, base};

    return try_jobs(tasks, i, &course, tried);
}

#endif

#include "plain.c"
