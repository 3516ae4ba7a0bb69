/*
 * Calls each entry on inputs of several sizes, one callgrind dump a call. The
 * label of a dump is the entry, the sizes, and what the input is; count.py adds
 * up the instructions of the archive's own functions in each.
 */
#include <stdint.h>
#include <stdio.h>
#include <string.h>
#include <valgrind/callgrind.h>

#include "wospinzo.h"

enum { PAST_LAST_MOVE = WOSPINZO_HOLD + 1, LONG_LIST = 100000 };

static uint8_t table[WOSPINZO_MAX_TABLE_SIZE], kept[WOSPINZO_MAX_TABLE_SIZE];
static uint8_t history[WOSPINZO_MAX_HISTORY], script[WOSPINZO_MAX_SCRIPT], triples[WOSPINZO_READ_ROOM], out[WOSPINZO_MAX_PLAN_SIZE];
static wospinzo_watcher watcher;
static uint64_t answer;
static uint32_t version;
static unsigned failures;

#define COUNT(expected, call, ...)                                             \
    do {                                                                       \
        char label[160];                                                       \
        snprintf(label, sizeof label, __VA_ARGS__);                            \
        CALLGRIND_ZERO_STATS;                                                  \
        answer = (call);                                                       \
        CALLGRIND_DUMP_STATS_AT(label);                                        \
        if (wospinzo_refusal(answer) != (expected)) {                          \
            fprintf(stderr, "%s: refusal %u\n", label, wospinzo_refusal(answer)); \
            failures++;                                                        \
        }                                                                      \
    } while (0)

static void move(uint16_t thread, uint16_t mv, uint16_t target)
{
    if (!wospinzo_accepted(wospinzo_move(table, wospinzo_threads(table) * 3u + 3u, thread, mv, target))) {
        fprintf(stderr, "thread %u: move %u in phase %u was refused\n", thread, mv, wospinzo_phase(table, thread));
        failures++;
    }
}

static void fresh(uint16_t n)
{
    if (!wospinzo_accepted(wospinzo_fresh(n, table, sizeof table))) failures++;
}

/* Puts all threads of a fresh table in a phase with busy 0. All in phase 4 breaks one rule of soundness and no other. */
static void all_in(uint16_t n, uint8_t phase)
{
    uint16_t t;

    for (t = 0; t < n; t++) table[3 + 3 * t] = phase;
}

/* A call that is counted, on the table as it is, which is put back after it. */
static void counted(unsigned expected, uint16_t n, uint16_t thread, uint16_t mv, uint16_t target, const char *what)
{
    memcpy(kept, table, sizeof table);
    COUNT(expected, wospinzo_move(table, WOSPINZO_TABLE_SIZE(n), thread, mv, target), "move %u %s", n, what);
    memcpy(table, kept, sizeof table);
}

/* Counts the move, then makes it. */
static void step(uint16_t n, uint16_t thread, uint16_t mv, uint16_t target, const char *what)
{
    counted(WOSPINZO_ACCEPTED, n, thread, mv, target, what);
    move(thread, mv, target);
}

/* Every way of a reader and of a writer, each move counted on its way. */
static void moves(uint16_t n)
{
    uint16_t last = (uint16_t)(n - 1), t;

    fresh(n);
    all_in(n, WOSPINZO_PHASE_TRY_AGAIN);
    counted(WOSPINZO_UNSOUND, n, 0, WOSPINZO_GO, 0, "refused by 2, all in 4");
    all_in(n, WOSPINZO_PHASE_FREE);
    step(n, last, WOSPINZO_CALL_SHARED, 0, "call shared");
    step(n, last, WOSPINZO_GO, 0, "go in 1");
    step(n, last, WOSPINZO_GO, 0, "go in 2, open");
    step(n, last, WOSPINZO_GO, 0, "go in 5");
    step(n, last, WOSPINZO_GO, 0, "go in 6");
    step(n, last, WOSPINZO_GO, 0, "go in 7");
    step(n, last, WOSPINZO_GO, 0, "go in 8");
    step(n, last, WOSPINZO_CALL_EXCLUSIVE, 0, "call exclusive");
    counted(WOSPINZO_NOT_IN_PHASE, n, last, WOSPINZO_RELENT, 0, "refused by 6");
    counted(WOSPINZO_BAD_TARGET, n, last, WOSPINZO_GO, 1, "refused by 5");
    counted(WOSPINZO_NO_MOVE, n, last, PAST_LAST_MOVE, 0, "refused by 4");
    counted(WOSPINZO_NO_THREAD, n, n, WOSPINZO_GO, 0, "refused by 3");
    step(n, last, WOSPINZO_GO, 0, "go in 9");
    for (t = 0; t < n; t++) {
        step(n, last, WOSPINZO_SET, t, t == last ? "set in 10, last" : "set in 10");
        if (t == 0) {
            step(n, last, WOSPINZO_RELENT, 0, "relent");
            step(n, last, WOSPINZO_GO, 0, "go in 12");
            step(n, last, WOSPINZO_SET, t, "set in 10, again");
        }
        step(n, last, WOSPINZO_GO, 0, t == last ? "go in 11, every flag" : "go in 11, not every flag");
    }
    step(n, last, WOSPINZO_GO, 0, "go in 13");
    if (n > 1) {
        move(0, WOSPINZO_CALL_SHARED, 0);
        move(0, WOSPINZO_GO, 0);
        step(n, 0, WOSPINZO_GO, 0, "go in 2, forbidden");
        step(n, 0, WOSPINZO_GO, 0, "go in 3");
        counted(WOSPINZO_ACCEPTED, n, 0, WOSPINZO_GO, 0, "go in 4");
        counted(WOSPINZO_MUTEX_HELD, n, 0, WOSPINZO_HOLD, 0, "hold in 4, refused by 7");
    }
    if (n > 2) {
        move(1, WOSPINZO_CALL_EXCLUSIVE, 0);
        counted(WOSPINZO_MUTEX_HELD, n, 1, WOSPINZO_GO, 0, "go in 9, refused by 7");
    }
    step(n, last, WOSPINZO_GO, 0, "go in 14");
    step(n, last, WOSPINZO_SET, 0, "set in 15");
    for (t = 0; t < n; t++) step(n, last, WOSPINZO_CLEAR, t, t == last ? "clear, last" : "clear");
    step(n, last, WOSPINZO_GO, 0, "go in 16");
    step(n, last, WOSPINZO_GO, 0, "go in 17");
    if (n > 1) {
        step(n, 0, WOSPINZO_HOLD, 0, "hold in 4");
        step(n, 0, WOSPINZO_GO, 0, "go in 18");
        move(0, WOSPINZO_GO, 0);
        move(last, WOSPINZO_CALL_EXCLUSIVE, 0);
        move(last, WOSPINZO_GO, 0);
        move(last, WOSPINZO_SET, 0);
        step(n, last, WOSPINZO_GO, 0, "go in 11, busy");
    }
    table[0] = (uint8_t)(n == 1 ? 2 : n - 1);
    COUNT(WOSPINZO_BAD_SIZE, wospinzo_move(table, WOSPINZO_TABLE_SIZE(n), 0, WOSPINZO_GO, 0), "move %u refused by 1", n);
    table[0] = (uint8_t)n;
    table[1] ^= 1;
    COUNT(WOSPINZO_UNSOUND, wospinzo_move(table, WOSPINZO_TABLE_SIZE(n), 0, WOSPINZO_GO, 0), "move %u refused by 2", n);
}

/* A turn that is counted. */
static void turn(unsigned expected, uint16_t n, const char *what)
{
    COUNT(expected, wospinzo_dispatch(table, WOSPINZO_TABLE_SIZE(n)), "dispatch %u %s", n, what);
}

/* Turns until the dispatcher is waiting, each counted. */
static void settle(uint16_t n, const char *what)
{
    unsigned turns;

    for (turns = 0; turns <= WOSPINZO_MOST_TURNS(n); turns++) {
        turn(WOSPINZO_ACCEPTED, n, what);
        if (wospinzo_waiting(answer)) return;
    }
    fprintf(stderr, "%u threads, %s: not waiting after %u turns\n", n, what, turns);
    failures++;
}

/* A reader and a writer from their calls to their returns, with the others where they are. */
static void dispatched(uint16_t n, uint16_t thread, const char *reader, const char *writer)
{
    move(thread, WOSPINZO_CALL_SHARED, 0);
    settle(n, reader);
    move(thread, WOSPINZO_GO, 0);
    settle(n, reader);
    move(thread, WOSPINZO_CALL_EXCLUSIVE, 0);
    settle(n, writer);
    move(thread, WOSPINZO_GO, 0);
    settle(n, writer);
}

/* The first thread and the last, with the others outside; a writer that waits for a reader, and readers that it turns away. */
static void turns(uint16_t n)
{
    uint16_t last = (uint16_t)(n - 1), t;

    fresh(n);
    turn(WOSPINZO_ACCEPTED, n, "waiting, all outside");
    dispatched(n, 0, "the first reads", "the first writes");
    dispatched(n, last, "the last reads", "the last writes");
    if (n == 1) return;
    move(last, WOSPINZO_CALL_SHARED, 0);
    settle(n, "the last reads");
    move(0, WOSPINZO_CALL_EXCLUSIVE, 0);
    settle(n, "the first waits for the last");
    for (t = 1; t < last; t++) move(t, t % 2 == 0 ? WOSPINZO_CALL_SHARED : WOSPINZO_CALL_EXCLUSIVE, 0);
    settle(n, "others are turned away");
    move(last, WOSPINZO_GO, 0);
    settle(n, "the last has left");
    move(0, WOSPINZO_GO, 0);
    settle(n, "the first has left");
}

/* The fresh table, the nodes, and the open moves of threads in several phases. */
static void lists(uint16_t n)
{
    /* Phases that all threads may be in with no flag set, one of each node. */
    const uint8_t many[] = {WOSPINZO_PHASE_FREE, WOSPINZO_PHASE_RAISE_BUSY, WOSPINZO_PHASE_LEAVE_SHARED, WOSPINZO_PHASE_TAKE_MUTEX,
                            WOSPINZO_PHASE_LEAVE_EXCLUSIVE};
    uint16_t t;

    fresh(n);
    COUNT(WOSPINZO_ACCEPTED, wospinzo_fresh(n, out, sizeof out), "fresh %u", n);
    COUNT(WOSPINZO_NO_ROOM, wospinzo_fresh(n, out, WOSPINZO_TABLE_SIZE(n) - 1), "fresh %u refused by 12", n);
    COUNT(WOSPINZO_NO_ROOM, wospinzo_nodes(table, WOSPINZO_TABLE_SIZE(n), out, n - 1u), "nodes %u refused by 12", n);
    COUNT(WOSPINZO_NO_ROOM, wospinzo_open_moves(table, WOSPINZO_TABLE_SIZE(n), 0, out, 1), "open_moves %u refused by 12", n);
    COUNT(WOSPINZO_NO_THREAD, wospinzo_open_moves(table, WOSPINZO_TABLE_SIZE(n), n, out, sizeof out), "open_moves %u refused by 3", n);
    turn(WOSPINZO_ACCEPTED, n, "waiting, all outside");
    table[0] = (uint8_t)(n == 1 ? 2 : n - 1);
    turn(WOSPINZO_BAD_SIZE, n, "refused by 1");
    table[0] = (uint8_t)n;
    table[1] = 1;
    turn(WOSPINZO_UNSOUND, n, "refused by 2");
    COUNT(WOSPINZO_UNSOUND, wospinzo_nodes(table, WOSPINZO_TABLE_SIZE(n), out, sizeof out), "nodes %u refused by 2", n);
    COUNT(WOSPINZO_UNSOUND, wospinzo_open_moves(table, WOSPINZO_TABLE_SIZE(n), 0, out, sizeof out), "open_moves %u refused by 2", n);
    table[1] = 0;
    all_in(n, WOSPINZO_PHASE_TRY_AGAIN);
    turn(WOSPINZO_UNSOUND, n, "refused by 2, all in 4");
    COUNT(WOSPINZO_UNSOUND, wospinzo_nodes(table, WOSPINZO_TABLE_SIZE(n), out, sizeof out), "nodes %u refused by 2, all in 4", n);
    COUNT(WOSPINZO_UNSOUND, wospinzo_open_moves(table, WOSPINZO_TABLE_SIZE(n), 0, out, sizeof out), "open_moves %u refused by 2, all in 4", n);
    for (t = 0; t < sizeof many; t++) {
        all_in(n, many[t]);
        COUNT(WOSPINZO_ACCEPTED, wospinzo_nodes(table, WOSPINZO_TABLE_SIZE(n), out, sizeof out), "nodes %u all in %u", n, many[t]);
    }
    all_in(n, WOSPINZO_PHASE_FREE);
    COUNT(WOSPINZO_ACCEPTED, wospinzo_open_moves(table, WOSPINZO_TABLE_SIZE(n), 0, out, sizeof out), "open_moves %u in 0", n);
    move(0, WOSPINZO_CALL_EXCLUSIVE, 0);
    move(0, WOSPINZO_GO, 0);
    COUNT(WOSPINZO_ACCEPTED, wospinzo_open_moves(table, WOSPINZO_TABLE_SIZE(n), 0, out, sizeof out), "open_moves %u in 10", n);
    for (t = 0; t < n; t++) {
        move(0, WOSPINZO_SET, t);
        move(0, WOSPINZO_GO, 0);
    }
    move(0, WOSPINZO_GO, 0);
    move(0, WOSPINZO_GO, 0);
    COUNT(WOSPINZO_ACCEPTED, wospinzo_open_moves(table, WOSPINZO_TABLE_SIZE(n), 0, out, sizeof out), "open_moves %u in 15", n);
    if (n == 1) return;
    /* Thread 1 is turned away, then thread 0 lets the mutex go. */
    move(1, WOSPINZO_CALL_SHARED, 0);
    for (t = 0; t < 3; t++) move(1, WOSPINZO_GO, 0);
    COUNT(WOSPINZO_ACCEPTED, wospinzo_open_moves(table, WOSPINZO_TABLE_SIZE(n), 1, out, sizeof out), "open_moves %u in 4, mutex 1", n);
    for (t = 0; t < n; t++) move(0, WOSPINZO_CLEAR, t);
    move(0, WOSPINZO_GO, 0);
    COUNT(WOSPINZO_ACCEPTED, wospinzo_open_moves(table, WOSPINZO_TABLE_SIZE(n), 1, out, sizeof out), "open_moves %u in 4, mutex 0", n);
}

/* A history whose last pair is bad; one that is permitted is put back. */
static void bad_last(unsigned expected, uint16_t n, size_t events, uint8_t thread, uint8_t event)
{
    uint8_t *last = history + 2 * (events - 1), was[2];

    memcpy(was, last, 2);
    last[0] = thread;
    last[1] = event;
    COUNT(expected, wospinzo_check(n, history, 2 * events), "check %u %zu the last pair is refused by %u", n, events, expected);
    COUNT(expected, wospinzo_plan_length(n, history, 2 * events), "plan_length %u %zu the last pair is refused by %u", n, events, expected);
    COUNT(expected, wospinzo_plan(n, history, 2 * events, out, sizeof out), "plan %u %zu 0 the last pair is refused by %u", n, events, expected);
    memcpy(last, was, 2);
}

/* Rounds of shared by n threads in turn, and rounds of exclusive. */
static void histories(uint16_t n, size_t events)
{
    size_t k;

    for (k = 0; k < events; k++) {
        history[2 * k] = (uint8_t)(k / 4 % n);
        history[2 * k + 1] = (uint8_t)(1 + k % 4);
    }
    COUNT(WOSPINZO_ACCEPTED, wospinzo_check(n, history, 2 * events), "check %u %zu shared", n, events);
    COUNT(WOSPINZO_ACCEPTED, wospinzo_plan_length(n, history, 2 * events), "plan_length %u %zu shared", n, events);
    COUNT(WOSPINZO_ACCEPTED, wospinzo_plan(n, history, 2 * events, out, sizeof out), "plan %u %zu %zu shared", n, events, events / 4 * 7);
    COUNT(WOSPINZO_NO_ROOM, wospinzo_plan(n, history, 2 * events, out, 0), "plan %u %zu 0 refused by 12", n, events);
    COUNT(WOSPINZO_BAD_FORM, wospinzo_check(n, history, 2 * events - 1), "check %u %zu refused by 8", n, events);
    COUNT(WOSPINZO_BAD_SIZE, wospinzo_check(0, history, 2 * events), "check 0 %zu refused by 1", events);
    COUNT(WOSPINZO_BAD_FORM, wospinzo_plan_length(n, history, 2 * events - 1), "plan_length %u %zu refused by 8", n, events);
    COUNT(WOSPINZO_BAD_SIZE, wospinzo_plan_length(0, history, 2 * events), "plan_length 0 %zu refused by 1", events);
    bad_last(WOSPINZO_UNKNOWN_PAIR, n, events, 0, 9);
    bad_last(WOSPINZO_UNKNOWN_PAIR, n, events, (uint8_t)n, 1);
    bad_last(WOSPINZO_NOT_NEXT, n, events, 0, 8);
    if (n > 1) {
        /* Task 0 is in shared, task 1 returns from enter exclusive. */
        uint8_t *end = history + 2 * (events - 4);
        const uint8_t crossed[] = {0, 1, 0, 2, 1, 5};
        memcpy(end, crossed, sizeof crossed);
        bad_last(WOSPINZO_OCCUPIED, n, events, 1, 6);
    }
    for (k = 0; k < events; k++) {
        history[2 * k] = (uint8_t)(k / 4 % n);
        history[2 * k + 1] = (uint8_t)(5 + k % 4);
    }
    COUNT(WOSPINZO_ACCEPTED, wospinzo_check(n, history, 2 * events), "check %u %zu exclusive", n, events);
    COUNT(WOSPINZO_ACCEPTED, wospinzo_plan_length(n, history, 2 * events), "plan_length %u %zu exclusive", n, events);
    COUNT(WOSPINZO_ACCEPTED, wospinzo_plan(n, history, 2 * events, out, sizeof out), "plan %u %zu %zu exclusive", n, events, events / 4 * (3u * n + 6u));
}

/* A script that repeats a text behind its first lines, as often as it fits. Answers its length. */
static size_t repeated(const char *first, const char *text, size_t most)
{
    size_t head = strlen(first), size = strlen(text), length = head;

    memcpy(script, first, head);
    while (length + size <= most) {
        memcpy(script + length, text, size);
        length += size;
    }
    return length;
}

/* A script of one note that fills it. Answers its length. */
static size_t one_note(size_t length)
{
    static const char first[] = "(threads 1)\n(note ";

    memset(script, 'a', length);
    memcpy(script, first, sizeof first - 1);
    memcpy(script + length - 2, ")\n", 2);
    return length;
}

static void runs(size_t length, const char *what)
{
    uint8_t was = script[length - 1];

    COUNT(WOSPINZO_ACCEPTED, wospinzo_run(script, length, out, WOSPINZO_RUN_ROOM), "run %zu %s", length, what);
    COUNT(WOSPINZO_NO_ROOM, wospinzo_run(script, length, out, 1), "run %zu %s, refused by 12", length, what);
    script[length - 1] = ' ';
    COUNT(WOSPINZO_ACCEPTED, wospinzo_run(script, length, out, WOSPINZO_RUN_ROOM), "run %zu %s, the last line refused", length, what);
    script[length - 1] = was;
}

/* A list whose last triple is bad; what was there is put back. */
static void bad_triple(unsigned expected, uint16_t n, uint8_t *list, size_t moves, const uint8_t *bad)
{
    uint8_t *last = list + 3 * (moves - 1), was[3];

    memcpy(was, last, 3);
    memcpy(last, bad, 3);
    COUNT(expected, wospinzo_write_script(n, list, 3 * moves, script, sizeof script),
          "write_script %zu 0 the last triple is refused by %u", moves, expected);
    memcpy(last, was, 3);
}

static void bad_triples(uint16_t n, uint8_t *list, size_t moves)
{
    const uint8_t thread[] = {(uint8_t)n, WOSPINZO_GO, 0}, move[] = {0, PAST_LAST_MOVE, 0}, target[] = {0, WOSPINZO_SET, (uint8_t)n};

    bad_triple(WOSPINZO_NO_THREAD, n, list, moves, thread);
    bad_triple(WOSPINZO_NO_MOVE, n, list, moves, move);
    bad_triple(WOSPINZO_BAD_TARGET, n, list, moves, target);
}

/* The list in `triples` is written as a script, into `out`. B is 0 where nothing is written. */
static void writes(uint16_t n, size_t moves, const char *what)
{
    size_t size = (size_t)wospinzo_value(wospinzo_write_script(n, triples, 3 * moves, out, WOSPINZO_MAX_SCRIPT));

    COUNT(WOSPINZO_ACCEPTED, wospinzo_write_script(n, triples, 3 * moves, out, WOSPINZO_MAX_SCRIPT), "write_script %zu %zu %s", moves, size, what);
    COUNT(WOSPINZO_NO_ROOM, wospinzo_write_script(n, triples, 3 * moves, out, size - 1), "write_script %zu 0 %s, refused by 12", moves, what);
    COUNT(WOSPINZO_BAD_SIZE, wospinzo_write_script(0, triples, 3 * moves, out, size), "write_script %zu 0 refused by 1", moves);
    if (moves == 0) return;
    COUNT(WOSPINZO_BAD_FORM, wospinzo_write_script(n, triples, 3 * moves - 1, out, size), "write_script %zu 0 refused by 8", moves);
    bad_triples(n, triples, moves);
}

/* A list whose script would be too long is looked at to its end. */
static void long_list(void)
{
    memset(out, 0, 3 * LONG_LIST);
    COUNT(WOSPINZO_BAD_FORM, wospinzo_write_script(1, out, 3 * LONG_LIST, script, sizeof script), "write_script %u 0 too long", LONG_LIST);
    bad_triples(1, out, LONG_LIST);
}

/* A byte so far from the end makes the last line bad; what was there is put back. */
static void bad_line(unsigned expected, size_t length, size_t moves, size_t back, uint8_t byte, const char *what)
{
    uint8_t *at = script + length - back, was = *at;

    *at = byte;
    COUNT(expected, wospinzo_read_script(script, length, out, WOSPINZO_READ_ROOM),
          "read_script %zu %zu %s, the last line refused by %u", length, moves, what, expected);
    *at = was;
}

/* The script is read, and the list that it gives is written. */
static void reads(size_t length, const char *what)
{
    uint64_t read = wospinzo_read_script(script, length, triples, sizeof triples);
    size_t bytes = (size_t)wospinzo_read_bytes(read), moves = bytes / 3;

    COUNT(WOSPINZO_ACCEPTED, wospinzo_read_script(script, length, out, WOSPINZO_READ_ROOM), "read_script %zu %zu %s", length, moves, what);
    if (moves > 0)
        COUNT(WOSPINZO_NO_ROOM, wospinzo_read_script(script, length, out, bytes - 1),
              "read_script %zu %zu %s, refused by 12", length, moves, what);
    bad_line(WOSPINZO_BAD_FORM, length, moves, 1, ' ', what);
    writes((uint16_t)wospinzo_read_threads(read), moves, what);
}

/* A script that is run, and read. */
static void scripts(size_t length, const char *what)
{
    runs(length, what);
    reads(length, what);
}

/* Scripts that are read alone: one move again and again, with short numbers and with long ones. */
static void spelled(size_t most)
{
    size_t length = repeated("(threads 1)\n", "(0 (go))\n", most);

    reads(length, "shortest lines");
    bad_line(WOSPINZO_NO_THREAD, length, (length - 12) / 9, 8, '9', "shortest lines");
    length = repeated("(threads 1)\n", "(0 (set 0))\n", most);
    reads(length, "shortest sets");
    bad_line(WOSPINZO_BAD_TARGET, length, (length - 12) / 12, 4, '9', "shortest sets");
    reads(repeated("(threads 200)\n", "(199 (set 199))\n", most), "sets of 200");
    reads(repeated("(threads 200)\n", "(199 (clear 199))\n", most), "clears of 200");
    reads(repeated("(threads 200)\n", "(199 (call exclusive))\n", most), "calls of 200");
    reads(repeated("(threads 200)\n", "(199 (relent))\n(199 (hold))\n", most), "relents and holds of 200");
}

/* Starts a watch, which is counted. */
static void start(uint16_t n)
{
    COUNT(WOSPINZO_ACCEPTED, wospinzo_watch_start(n, &watcher), "watch_start %u", n);
}

/* An event that is counted, on the record as it is, which is put back after it. */
static void judged(unsigned expected, uint16_t n, uint16_t thread, uint16_t event, const char *what)
{
    wospinzo_watcher was = watcher;

    COUNT(expected, wospinzo_watch_event(&watcher, thread, event), "watch_event %u event %u, %s", n, event, what);
    watcher = was;
}

/* The events from one to another of a thread, each counted, then taken into the record. */
static void events(uint16_t n, uint16_t thread, uint16_t from, uint16_t to, const char *what)
{
    uint16_t event;

    for (event = from; event <= to; event++) {
        judged(WOSPINZO_ACCEPTED, n, thread, event, what);
        if (!wospinzo_accepted(wospinzo_watch_event(&watcher, thread, event))) failures++;
    }
}

static void asked(unsigned expected, uint16_t n, const char *what)
{
    COUNT(expected, wospinzo_watch_inside(&watcher), "watch_inside %u %s", n, what);
}

/* A record that is turned down: by an event, and by the question. */
static void bad_record(unsigned expected, uint16_t n, const char *what)
{
    judged(expected, n, 0, WOSPINZO_ENTER_SHARED_CALL, what);
    asked(expected, n, what);
}

/* The record of a watch that has just started, with one part of it false. */
static void bad_records(uint16_t n)
{
    uint8_t last = (uint8_t)(n - 1);
    wospinzo_watcher started;

    start(n);
    started = watcher;
    watcher.threads = WOSPINZO_MAX_THREADS + 1;
    bad_record(WOSPINZO_BAD_SIZE, n, "refused by 1");
    watcher = started;
    watcher.shared = 1;
    bad_record(WOSPINZO_INCONSISTENT, n, "a false total of shared");
    watcher = started;
    watcher.exclusive = 1;
    bad_record(WOSPINZO_INCONSISTENT, n, "a false total of exclusive");
    watcher = started;
    watcher.places[last] = WOSPINZO_LEAVE_SHARED_RETURN;
    bad_record(WOSPINZO_INCONSISTENT, n, "a place that no round has");
    watcher = started;
    if (n < WOSPINZO_MAX_THREADS) {
        watcher.places[n] = WOSPINZO_ENTER_SHARED_CALL;
        bad_record(WOSPINZO_INCONSISTENT, n, "a place from N upward");
        watcher = started;
    }
    if (n > 1) {
        watcher.exclusive = 2;
        watcher.places[0] = watcher.places[last] = WOSPINZO_ENTER_EXCLUSIVE_RETURN;
        bad_record(WOSPINZO_INCONSISTENT, n, "two in exclusive");
        watcher.shared = watcher.exclusive = 1;
        watcher.places[0] = WOSPINZO_ENTER_SHARED_RETURN;
        bad_record(WOSPINZO_INCONSISTENT, n, "one in each section");
    }
}

/* Each event of the last thread with the others outside, in shared, and one of them in exclusive. */
static void watches(uint16_t n)
{
    uint16_t last = (uint16_t)(n - 1), t;

    start(n);
    asked(WOSPINZO_ACCEPTED, n, "nobody");
    judged(WOSPINZO_UNKNOWN_PAIR, n, last, 0, "refused by 9");
    judged(WOSPINZO_UNKNOWN_PAIR, n, last, UINT16_MAX, "refused by 9");
    judged(WOSPINZO_UNKNOWN_PAIR, n, n, WOSPINZO_ENTER_SHARED_CALL, "refused by 9");
    judged(WOSPINZO_NOT_NEXT, n, last, WOSPINZO_LEAVE_EXCLUSIVE_RETURN, "refused by 10");
    events(n, last, WOSPINZO_ENTER_SHARED_CALL, WOSPINZO_LEAVE_EXCLUSIVE_RETURN, "others outside");
    for (t = 0; t < last; t++) {
        watcher.places[t] = WOSPINZO_ENTER_SHARED_RETURN;
        watcher.shared++;
    }
    events(n, last, WOSPINZO_ENTER_SHARED_CALL, WOSPINZO_LEAVE_SHARED_RETURN, "others in shared");
    events(n, last, WOSPINZO_ENTER_EXCLUSIVE_CALL, WOSPINZO_ENTER_EXCLUSIVE_CALL, "others in shared");
    if (n > 1) {
        judged(WOSPINZO_OCCUPIED, n, last, WOSPINZO_ENTER_EXCLUSIVE_RETURN, "refused by 11");
        asked(WOSPINZO_ACCEPTED, n, "others in shared");
        start(n);
        events(n, 0, WOSPINZO_ENTER_EXCLUSIVE_CALL, WOSPINZO_ENTER_EXCLUSIVE_RETURN, "others outside");
        events(n, last, WOSPINZO_ENTER_SHARED_CALL, WOSPINZO_ENTER_SHARED_CALL, "one in exclusive");
        judged(WOSPINZO_OCCUPIED, n, last, WOSPINZO_ENTER_SHARED_RETURN, "refused by 11");
        asked(WOSPINZO_ACCEPTED, n, "one in exclusive");
    }
    bad_records(n);
}

int main(void)
{
    static const uint16_t counts[] = {1, 2, 8, 50, 100, 200};
    static const size_t lengths[] = {4, 400, 30000}, sizes[] = {100, 3000, 30000};
    static const char round[] = "(0 (call shared))\n(0 (go))\n(0 (go))\n(0 (go))\n(0 (go))\n(0 (go))\n(0 (go))\n";
    /* Task 1 is in exclusive, and task 0 has called shared: its goes are turned away again and again. */
    static const char away[] = "(threads 2)\n(1 (call exclusive))\n(1 (go))\n(1 (set 0))\n(1 (go))\n(1 (set 1))\n(1 (go))\n(1 (go))\n(0 (call shared))\n";
    static char brackets[64];
    uint16_t n;
    size_t i;

    snprintf(brackets, sizeof brackets, "(note %.16s%.16s)\n", "((((((((((((((((", "))))))))))))))))");
    CALLGRIND_ZERO_STATS;
    version = wospinzo_version();
    CALLGRIND_DUMP_STATS_AT("version");
    if (version != WOSPINZO_VERSION) failures++;
    for (i = 0; i < sizeof counts / sizeof *counts; i++) moves(counts[i]);
    for (n = 1; n <= WOSPINZO_MAX_THREADS; n++) {
        lists(n);
        histories(n, 40);
        watches(n);
    }
    COUNT(WOSPINZO_BAD_SIZE, wospinzo_watch_start(0, &watcher), "watch_start 0 refused by 1");
    for (i = 0; i < sizeof lengths / sizeof *lengths; i++) {
        histories(1, lengths[i]);
        histories(8, lengths[i]);
        histories(200, lengths[i]);
    }
    for (i = 0; i < sizeof sizes / sizeof *sizes; i++) {
        scripts(repeated("(threads 1)\n", round, sizes[i]), "shared rounds");
        scripts(repeated("(threads 200)\n", round, sizes[i]), "shared rounds of 200");
        if (sizes[i] > sizeof away) scripts(repeated(away, "(0 (go))\n", sizes[i]), "go alone");
        scripts(repeated("(threads 1)\n", "(note )\n", sizes[i]), "shortest notes");
        scripts(repeated("(threads 1)\n", brackets, sizes[i]), "notes of brackets");
        scripts(repeated("(threads 1)\n", "(note abcdefghijklmnopqrstuvwxyz)\n", sizes[i]), "notes of letters");
        scripts(one_note(sizes[i]), "one note");
        spelled(sizes[i]);
    }
    COUNT(WOSPINZO_BAD_FORM, wospinzo_read_script(out, WOSPINZO_MAX_SCRIPT + 1, triples, sizeof triples),
          "read_script %u 0 too long", WOSPINZO_MAX_SCRIPT + 1);
    COUNT(WOSPINZO_BAD_SIZE, wospinzo_read_script((const uint8_t *)"(threads 0)\n", 12, triples, sizeof triples), "read_script 12 0 refused by 1");
    long_list();
    for (i = 0; i < sizeof counts / sizeof *counts; i++) turns(counts[i]);
    return failures != 0;
}
