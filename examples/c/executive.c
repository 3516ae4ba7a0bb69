/*
 * A cooperative executive whose tasks share a settings table under the lock.
 *
 * Each turn gives every task up to three moves. After a retry the next task runs
 * at once: it is the others' moves that let this one get further. Readers read
 * the settings piece by piece, a piece a turn, and look for tearing: words of two
 * versions in one read. Panel tasks rewrite the settings now and then, a piece a
 * turn too. A reader that is turned away waits for the mutex, for some turns at
 * most, before it tries again; it gives the mutex back in the turn in which it
 * took it. A watcher judges each event before its task acts on it.
 *
 * Twice a warm restart comes between the turns. The table that was kept over it
 * is tested before a task moves. The first passes, and the tasks go on; the
 * second came back damaged and is refused, and all starts afresh.
 *
 * When the turns are over, the tasks that are in a section leave it. The program
 * counts reads, writes and torn reads, of which there must be none.
 */
#include <stdio.h>
#include <stdlib.h>
#include <string.h>

#include "wospinzo.h"

enum { READERS = 6, PANELS = 2, TASKS = READERS + PANELS, PIECES = 4, WORDS = 8 };
/* Turns before each restart, and in all. The first restart comes while a panel writes. */
enum { LEG = 10600, TURNS = 3 * LEG };
/* In turns: a reader's wait for the mutex, at most; a panel's rest after it wrote, at least. */
enum { HOLD_TURNS = 16, PANEL_REST = 100 };
/* A task's moves in a turn, at most. */
enum { MOVES = 3 };

struct task {
    unsigned rest;    /* turns to let pass before the next call */
    int inside;       /* whether the task is in its section */
    unsigned piece;   /* the next piece to read or write there */
    uint32_t version; /* the version being written, or first met in reading */
    int torn;         /* whether the read met another version too */
    unsigned waited;  /* turns since its last move in which it was refused the mutex */
};

struct request {
    uint16_t move;
    uint16_t target;
};

static uint8_t table[WOSPINZO_TABLE_SIZE(TASKS)];
static wospinzo_watcher watcher;
static struct task tasks[TASKS];
static uint32_t settings[PIECES][WORDS];
static unsigned long reads, writes, torn_reads, waits, holds, timeouts, retries;
static unsigned restarts_kept, restarts_afresh;

/* What is kept over a warm restart: the lock, its watcher, and where each task
 * is in its work, since a task must go on from the phase that the table says. */
static struct {
    uint8_t table[sizeof table];
    wospinzo_watcher watcher;
    struct task tasks[TASKS];
} kept;

static int is_panel(uint16_t task)
{
    return task >= READERS;
}

/* The first task whose forbidden flag has this value. */
static uint16_t first_with(unsigned forbidden)
{
    uint16_t task = 0;
    while (task < TASKS - 1 && wospinzo_forbidden(table, task) != forbidden)
        task++;
    return task;
}

/* The task's next move, by its phase. */
static struct request next_move(uint16_t task)
{
    struct request request = {WOSPINZO_GO, 0};
    switch (wospinzo_phase(table, task)) {
    case WOSPINZO_PHASE_FREE:
        request.move = is_panel(task) ? WOSPINZO_CALL_EXCLUSIVE : WOSPINZO_CALL_SHARED;
        break;
    case WOSPINZO_PHASE_TRY_AGAIN:
        if (tasks[task].waited < HOLD_TURNS)
            request.move = WOSPINZO_HOLD;
        break;
    case WOSPINZO_PHASE_SET_FLAG:
        request.move = WOSPINZO_SET;
        request.target = first_with(0);
        break;
    case WOSPINZO_PHASE_CLEAR_FLAGS:
        request.move = WOSPINZO_CLEAR;
        request.target = first_with(1);
        break;
    }
    return request;
}

static void read_piece(struct task *task)
{
    unsigned word;
    if (task->piece == 0)
        task->version = settings[0][0];
    for (word = 0; word < WORDS; word++)
        if (settings[task->piece][word] != task->version)
            task->torn = 1;
    task->piece++;
}

/* From the last piece to the first, so that a reader would meet both versions. */
static void write_piece(struct task *task)
{
    unsigned word;
    if (task->piece == 0)
        task->version = settings[0][0] + 1;
    for (word = 0; word < WORDS; word++)
        settings[PIECES - 1 - task->piece][word] = task->version;
    task->piece++;
}

/* Puts an event to the watcher, which must accept it. */
static void watch(uint16_t number, uint64_t event)
{
    uint64_t answer = wospinzo_watch_event(&watcher, number, (uint16_t)event);

    if (!wospinzo_accepted(answer)) {
        printf("task %u: the watcher's refusal %u\n", (unsigned)number, wospinzo_refusal(answer));
        exit(2);
    }
}

/* What an event means to the task that showed it. */
static void heed(uint16_t number, struct task *task, uint64_t event)
{
    switch (event) {
    case WOSPINZO_ENTER_SHARED_RETURN:
    case WOSPINZO_ENTER_EXCLUSIVE_RETURN:
        task->inside = 1;
        task->piece = 0;
        task->torn = 0;
        break;
    case WOSPINZO_LEAVE_SHARED_CALL:
        task->inside = 0;
        reads++;
        torn_reads += task->torn ? 1 : 0;
        break;
    case WOSPINZO_LEAVE_EXCLUSIVE_CALL:
        task->inside = 0;
        writes++;
        break;
    case WOSPINZO_LEAVE_SHARED_RETURN:
    case WOSPINZO_LEAVE_EXCLUSIVE_RETURN:
        task->rest = (is_panel(number) ? PANEL_REST : 5u) + 3u * number;
        break;
    }
}

/* Makes the task's next move, and heeds the answer. Says whether the task may
 * make another one in this turn: not after a retry, an event or a refusal. */
static int step(uint16_t number)
{
    struct task *task = &tasks[number];
    struct request request = next_move(number);
    unsigned phase = wospinzo_phase(table, number);
    uint64_t answer = wospinzo_move(table, sizeof table, number, request.move, request.target);

    if (wospinzo_accepted(answer)) {
        task->waited = 0;
        if (request.move == WOSPINZO_HOLD)
            holds++;
        else if (phase == WOSPINZO_PHASE_TRY_AGAIN)
            timeouts++;
        if (wospinzo_retry(answer)) {
            retries++;
            return 0;
        }
        if (wospinzo_value(answer) == WOSPINZO_QUIET)
            return 1;
        watch(number, wospinzo_value(answer));
        heed(number, task, wospinzo_value(answer));
    } else if (wospinzo_refusal(answer) == WOSPINZO_MUTEX_HELD) {
        task->waited++;
        waits++;
    } else {
        printf("task %u: refusal %u\n", (unsigned)number, wospinzo_refusal(answer));
        exit(2);
    }
    return 0;
}

static void turn(uint16_t number)
{
    struct task *task = &tasks[number];
    unsigned moves = MOVES;

    if (task->rest > 0) {
        task->rest--;
        return;
    }
    if (task->inside && task->piece < PIECES) {
        if (is_panel(number))
            write_piece(task);
        else
            read_piece(task);
        return;
    }
    while (moves > 0 && step(number))
        moves--;
    /* A reader gives the mutex back at once: while it has it, no panel gets in. */
    if (wospinzo_phase(table, number) == WOSPINZO_PHASE_HOLD_MUTEX)
        step(number);
}

/* The tasks that are in a section finish there and leave it; the others get no
 * turn. Then nobody may be inside. */
static void finish(void)
{
    unsigned turns;
    uint16_t task;
    uint64_t answer;

    for (turns = 0; turns <= PIECES; turns++)
        for (task = 0; task < TASKS; task++)
            if (tasks[task].inside)
                turn(task);
    answer = wospinzo_watch_inside(&watcher);
    if (!wospinzo_nobody_inside(answer)) {
        printf("at the end: the watcher's refusal %u, somebody inside %u\n", wospinzo_refusal(answer),
               (unsigned)wospinzo_value(answer));
        exit(2);
    }
}

/* A start with nothing kept: a fresh table, a new watch, every task at its
 * beginning, and the settings loaded anew, since a panel may have been cut off
 * while it wrote. */
static void start(void)
{
    if (!wospinzo_accepted(wospinzo_fresh(TASKS, table, sizeof table)) ||
        !wospinzo_accepted(wospinzo_watch_start(TASKS, &watcher)))
        exit(2);
    memset(tasks, 0, sizeof tasks);
    memset(settings, 0, sizeof settings);
}

static void keep(void)
{
    memcpy(kept.table, table, sizeof table);
    memcpy(kept.tasks, tasks, sizeof tasks);
    kept.watcher = watcher;
}

/* The kept table comes back with every task in 3 or 4, and all else to match.
 * No list of moves leaves it: the task that backs off last does so while another
 * one, a writer, has set its flag. */
static void damage_kept(void)
{
    uint16_t task;

    kept.table[1] = 0;
    kept.table[2] = WOSPINZO_NO_TARGET;
    for (task = 0; task < TASKS; task++) {
        uint8_t *bytes = kept.table + WOSPINZO_TABLE_SIZE(task);
        bytes[0] = task % 2 == 0 ? WOSPINZO_PHASE_BACK_OFF : WOSPINZO_PHASE_TRY_AGAIN;
        bytes[1] = task % 2 == 0;
        bytes[2] = 0;
    }
}

/* A warm restart: of the lock and the tasks, only what was kept is there. Its
 * table is tested, which changes nothing; the tasks go on if it passes. */
static void restart(void)
{
    uint8_t nodes[TASKS];
    uint64_t answer = wospinzo_nodes(kept.table, sizeof kept.table, nodes, sizeof nodes);
    unsigned inside = 0;
    uint16_t task;

    memset(table, 0, sizeof table);
    memset(tasks, 0, sizeof tasks);
    memset(&watcher, 0, sizeof watcher);
    if (wospinzo_accepted(answer)) {
        memcpy(table, kept.table, sizeof table);
        memcpy(tasks, kept.tasks, sizeof tasks);
        watcher = kept.watcher;
        for (task = 0; task < TASKS; task++)
            inside += nodes[task] == WOSPINZO_SHARED || nodes[task] == WOSPINZO_EXCLUSIVE;
        restarts_kept++;
        printf("restart: the kept table passes, the tasks go on, %u of them inside\n", inside);
    } else {
        start();
        restarts_afresh++;
        printf("restart: the kept table is refused by %u, a fresh one is made\n", wospinzo_refusal(answer));
    }
}

static void run_turns(unsigned count)
{
    uint16_t task;

    for (; count > 0; count--)
        for (task = 0; task < TASKS; task++)
            turn(task);
}

int main(void)
{
    int worked;

    start();
    run_turns(LEG);
    keep();
    restart();
    run_turns(LEG);
    keep();
    damage_kept();
    restart();
    run_turns(LEG);
    finish();
    printf("%d tasks, %d turns: %lu reads, %lu writes, %lu waits for the mutex, %lu holds, "
           "%lu timeouts, %lu retries, %lu torn reads\n",
           (int)TASKS, (int)TURNS, reads, writes, waits, holds, timeouts, retries, torn_reads);
    worked = reads > 0 && writes > 0 && holds > 0 && timeouts > 0 && retries > holds + timeouts;
    return torn_reads == 0 && worked && restarts_kept == 1 && restarts_afresh == 1 ? 0 : 1;
}
