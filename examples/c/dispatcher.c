/*
 * Tasks that share a settings table under the lock, with the dispatcher for an
 * executive: it makes all moves but calls, leavings, and those of a reader that
 * was turned away.
 *
 * In each round the dispatcher makes moves until it is waiting, which it is after
 * a limited number of turns. Then every task does what is left to the host. One
 * that has rested calls. One in its section reads or writes a piece of the
 * settings, and leaves after the last. A reader that was turned away asks for the
 * mutex (hold), for some rounds at most, and then tries again without it (go).
 * Readers look for tearing: words of two versions in one read. A watcher judges
 * each event before its task acts on it.
 *
 * When the rounds are over no task calls any more, and the others finish, until
 * all are outside the lock. The program counts turns, reads, writes and torn
 * reads, of which there must be none.
 */
#include <stdio.h>
#include <stdlib.h>

#include "wospinzo.h"

enum { READERS = 6, PANELS = 2, TASKS = READERS + PANELS, PIECES = 4, WORDS = 8 };
/* Rounds with calls; those after them, in which the tasks finish; and the first ones, which are printed. */
enum { ROUNDS = 10000, LAST_ROUNDS = 50, SHOWN = 7 };
/* In rounds: a reader's wait for the mutex, at most; a panel's rest after it wrote, at least. */
enum { HOLD_ROUNDS = 3, PANEL_REST = 100 };

struct task {
    unsigned rest;    /* rounds to let pass before the next call */
    unsigned piece;   /* the next piece to read or write */
    uint32_t version; /* the version being written, or first met in reading */
    int torn;         /* whether the read met another version too */
    unsigned waited;  /* rounds since its last move in which it was refused the mutex */
};

static uint8_t table[WOSPINZO_TABLE_SIZE(TASKS)];
static wospinzo_watcher watcher;
static struct task tasks[TASKS];
static uint32_t settings[PIECES][WORDS];
static unsigned long all_turns, calls, leavings, reads, writes, torn_reads, waits, holds, timeouts;
static unsigned most_turns;

static int is_panel(uint16_t task)
{
    return task >= READERS;
}

static void read_piece(struct task *task)
{
    unsigned word;
    if (task->piece == 0)
        task->version = settings[0][0];
    for (word = 0; word < WORDS; word++)
        if (settings[task->piece][word] != task->version)
            task->torn = 1;
    task->piece++;
}

/* From the last piece to the first, so that a reader would meet both versions. */
static void write_piece(struct task *task)
{
    unsigned word;
    if (task->piece == 0)
        task->version = settings[0][0] + 1;
    for (word = 0; word < WORDS; word++)
        settings[PIECES - 1 - task->piece][word] = task->version;
    task->piece++;
}

/* Puts an event to the watcher, which must accept it. */
static void watch(uint16_t number, uint16_t event)
{
    uint64_t answer = wospinzo_watch_event(&watcher, number, event);

    if (!wospinzo_accepted(answer)) {
        printf("task %u: the watcher's refusal %u\n", (unsigned)number, wospinzo_refusal(answer));
        exit(2);
    }
}

/* What an event means to the task that showed it. */
static void heed(uint16_t number, uint16_t event)
{
    struct task *task = &tasks[number];

    if (event == WOSPINZO_QUIET)
        return;
    watch(number, event);
    switch (event) {
    case WOSPINZO_ENTER_SHARED_CALL:
    case WOSPINZO_ENTER_EXCLUSIVE_CALL:
        calls++;
        break;
    case WOSPINZO_ENTER_SHARED_RETURN:
    case WOSPINZO_ENTER_EXCLUSIVE_RETURN:
        task->piece = 0;
        task->torn = 0;
        break;
    case WOSPINZO_LEAVE_SHARED_CALL:
        leavings++;
        reads++;
        torn_reads += task->torn ? 1 : 0;
        break;
    case WOSPINZO_LEAVE_EXCLUSIVE_CALL:
        leavings++;
        writes++;
        break;
    case WOSPINZO_LEAVE_SHARED_RETURN:
    case WOSPINZO_LEAVE_EXCLUSIVE_RETURN:
        task->rest = (is_panel(number) ? PANEL_REST : 5u) + 3u * number;
        break;
    }
}

/* Lets the dispatcher make moves until it is waiting. Gives how many it made. */
static unsigned dispatch(void)
{
    unsigned turns = 0;
    uint64_t answer = wospinzo_dispatch(table, sizeof table);

    while (wospinzo_dispatched(answer) && turns < WOSPINZO_MOST_TURNS(TASKS)) {
        heed(wospinzo_turn_thread(answer), wospinzo_turn_event(answer));
        turns++;
        answer = wospinzo_dispatch(table, sizeof table);
    }
    if (!wospinzo_waiting(answer)) {
        printf("after %u turns: refusal %u, not waiting\n", turns, wospinzo_refusal(answer));
        exit(2);
    }
    all_turns += turns;
    if (turns > most_turns)
        most_turns = turns;
    return turns;
}

/* Makes a move of the host's own. Says whether it was made: not where it was
 * refused the mutex. */
static int make_move(uint16_t number, uint16_t move)
{
    uint64_t answer = wospinzo_move(table, sizeof table, number, move, 0);

    if (wospinzo_refusal(answer) == WOSPINZO_MUTEX_HELD)
        return 0;
    if (!wospinzo_accepted(answer)) {
        printf("task %u: refusal %u\n", (unsigned)number, wospinzo_refusal(answer));
        exit(2);
    }
    heed(number, (uint16_t)wospinzo_value(answer));
    return 1;
}

/* A reader that was turned away asks for the mutex, or has waited long enough. */
static void try_again(uint16_t number)
{
    struct task *task = &tasks[number];

    if (task->waited == HOLD_ROUNDS) {
        make_move(number, WOSPINZO_GO);
        task->waited = 0;
        timeouts++;
    } else if (make_move(number, WOSPINZO_HOLD)) {
        task->waited = 0;
        holds++;
    } else {
        task->waited++;
        waits++;
    }
}

/* The task is in its section: it reads or writes there, then leaves. */
static void work(uint16_t number)
{
    struct task *task = &tasks[number];

    if (task->piece == PIECES)
        make_move(number, WOSPINZO_GO);
    else if (is_panel(number))
        write_piece(task);
    else
        read_piece(task);
}

/* What is left to the host while the dispatcher is waiting. In phases 9 and 11
 * that is nothing: there a task waits for others. */
static void host(uint16_t number, int may_call)
{
    switch (wospinzo_phase(table, number)) {
    case WOSPINZO_PHASE_FREE:
        if (tasks[number].rest > 0)
            tasks[number].rest--;
        else if (may_call)
            make_move(number, is_panel(number) ? WOSPINZO_CALL_EXCLUSIVE : WOSPINZO_CALL_SHARED);
        break;
    case WOSPINZO_PHASE_TRY_AGAIN:
        try_again(number);
        break;
    case WOSPINZO_PHASE_IN_SHARED:
    case WOSPINZO_PHASE_IN_EXCLUSIVE:
        work(number);
        break;
    }
}

/* How many tasks are in a phase, or in the other. */
static unsigned count(unsigned phase, unsigned other)
{
    unsigned found = 0;
    uint16_t task;

    for (task = 0; task < TASKS; task++)
        found += wospinzo_phase(table, task) == phase || wospinzo_phase(table, task) == other;
    return found;
}

static void run_rounds(unsigned number, int may_call)
{
    unsigned round, turns;
    uint16_t task;

    for (round = 1; round <= number; round++) {
        turns = dispatch();
        if (may_call && round <= SHOWN)
            printf("round %u: %u turns, then waiting; inside %u\n", round, turns,
                   count(WOSPINZO_PHASE_IN_SHARED, WOSPINZO_PHASE_IN_EXCLUSIVE));
        for (task = 0; task < TASKS; task++)
            host(task, may_call);
    }
}

int main(void)
{
    int worked, ended;

    if (!wospinzo_accepted(wospinzo_fresh(TASKS, table, sizeof table)) ||
        !wospinzo_accepted(wospinzo_watch_start(TASKS, &watcher)))
        exit(2);
    run_rounds(ROUNDS, 1);
    run_rounds(LAST_ROUNDS, 0);
    printf("dispatcher: %d tasks, %d rounds: %lu turns, %u of %u in a round, %lu calls, %lu leavings, "
           "%lu reads, %lu writes, %lu waits for the mutex, %lu holds, %lu timeouts, %lu torn reads\n",
           (int)TASKS, (int)ROUNDS, all_turns, most_turns, WOSPINZO_MOST_TURNS(TASKS), calls, leavings,
           reads, writes, waits, holds, timeouts, torn_reads);
    worked = reads > 0 && writes > 0 && waits > 0 && holds > 0 && timeouts > 0;
    ended = count(WOSPINZO_PHASE_FREE, WOSPINZO_PHASE_FREE) == TASKS && calls == leavings &&
            wospinzo_nobody_inside(wospinzo_watch_inside(&watcher));
    return torn_reads == 0 && worked && ended ? 0 : 1;
}
