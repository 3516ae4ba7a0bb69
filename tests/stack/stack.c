/*
 * Measures how many bytes of stack each entry uses: it runs on a stack of its
 * own that was filled with one byte, and the lowest byte that changed is looked
 * for. Inputs are the largest that the entry takes. Prints a line for each
 * entry: its name, the bytes, and the bound that the header states.
 */
#define _XOPEN_SOURCE 600
#include <stdint.h>
#include <stdio.h>
#include <string.h>
#include <ucontext.h>

#include "wospinzo.h"

enum { STACK = 1 << 18, FILL = 0xA5 };

static uint8_t stack[STACK];
static uint8_t table[WOSPINZO_MAX_TABLE_SIZE];
static wospinzo_watcher watcher;
static uint8_t history[WOSPINZO_MAX_HISTORY];
static uint8_t script[WOSPINZO_MAX_SCRIPT];
static uint8_t triples[WOSPINZO_READ_ROOM];
static size_t triples_len;
static uint8_t spelled[WOSPINZO_MAX_SCRIPT];
static uint8_t out[WOSPINZO_MAX_PLAN_SIZE];
static uint64_t answer;

static void nothing(void) { answer = 0; }
static void version(void) { answer = 256u * (uint64_t)wospinzo_version(); }
static void fresh(void) { answer = wospinzo_fresh(WOSPINZO_MAX_THREADS, table, sizeof table); }
static void move(void) { answer = wospinzo_move(table, sizeof table, 199, WOSPINZO_CALL_EXCLUSIVE, 0); }
static void dispatch(void) { answer = wospinzo_dispatch(table, sizeof table); }
static void nodes(void) { answer = wospinzo_nodes(table, sizeof table, out, sizeof out); }
static void open_moves(void) { answer = wospinzo_open_moves(table, sizeof table, 199, out, sizeof out); }
static void check(void) { answer = wospinzo_check(WOSPINZO_MAX_THREADS, history, sizeof history); }
static void plan_length(void) { answer = wospinzo_plan_length(WOSPINZO_MAX_THREADS, history, sizeof history); }
static void plan(void) { answer = wospinzo_plan(WOSPINZO_MAX_THREADS, history, sizeof history, out, sizeof out); }
static void run(void) { answer = wospinzo_run(script, sizeof script, out, WOSPINZO_RUN_ROOM); }
static void write_script(void) { answer = wospinzo_write_script(WOSPINZO_MAX_THREADS, triples, triples_len, out, WOSPINZO_MAX_SCRIPT); }
static void read_script(void) { answer = wospinzo_read_script(spelled, sizeof spelled, out, WOSPINZO_READ_ROOM); }
static void watch_start(void) { answer = wospinzo_watch_start(WOSPINZO_MAX_THREADS, &watcher); }
static void watch_event(void) { answer = wospinzo_watch_event(&watcher, 199, WOSPINZO_ENTER_EXCLUSIVE_CALL); }
static void watch_inside(void) { answer = wospinzo_watch_inside(&watcher); }

static size_t used(void (*entry)(void))
{
    static ucontext_t here, there;
    size_t low = 0;

    memset(stack, FILL, sizeof stack);
    getcontext(&there);
    there.uc_stack.ss_sp = stack;
    there.uc_stack.ss_size = sizeof stack;
    there.uc_link = &here;
    makecontext(&there, entry, 0);
    swapcontext(&here, &there);
    while (low < sizeof stack && stack[low] == FILL) low++;
    return sizeof stack - low;
}

/* Rounds of one writer: events 5 to 8. */
static void fill_history(void)
{
    size_t i;

    for (i = 0; i + 1 < sizeof history; i += 2) {
        history[i] = 199;
        history[i + 1] = (uint8_t)(5 + i / 2 % 4);
    }
}

/* Moves of one reader, and a note that fills the rest. */
static void fill_script(void)
{
    static const char head[] = "(threads 200)\n";
    static const char round[] = "(199 (call shared))\n(199 (go))\n(199 (go))\n(199 (go))\n(199 (go))\n(199 (go))\n(199 (go))\n";
    size_t at = sizeof head - 1;

    memcpy(script, head, at);
    while (at + sizeof round + 16 < sizeof script) {
        memcpy(script + at, round, sizeof round - 1);
        at += sizeof round - 1;
    }
    memset(script + at, '.', sizeof script - at);
    memcpy(script + at, "(note ", 6);
    script[sizeof script - 2] = ')';
    script[sizeof script - 1] = '\n';
}

static void add_move(uint8_t move)
{
    int takes_target = move == WOSPINZO_SET || move == WOSPINZO_CLEAR;

    triples[triples_len] = 199;
    triples[triples_len + 1] = move;
    triples[triples_len + 2] = takes_target ? 199 : 0;
    triples_len += 3;
}

/*
 * A list of every move again and again, then three more, whose script has
 * WOSPINZO_MAX_SCRIPT bytes; and that script with a note in place of the last
 * three lines. Answers whether the script has so many bytes.
 */
static int fill_list(void)
{
    static const char note[] = "(note (((((((((((((((( ............... )))))))))))))))) )\n";
    /* The bytes of `(threads 200)`, and of the lines of every move. */
    enum { HEAD = 14, MOVES = 116 };
    size_t at, length;
    uint8_t move;

    for (at = HEAD; at + MOVES <= sizeof spelled; at += MOVES)
        for (move = WOSPINZO_GO; move <= WOSPINZO_HOLD; move++) add_move(move);
    add_move(WOSPINZO_CALL_SHARED);
    add_move(WOSPINZO_CALL_EXCLUSIVE);
    add_move(WOSPINZO_RELENT);
    answer = wospinzo_write_script(WOSPINZO_MAX_THREADS, triples, triples_len, spelled, sizeof spelled);
    length = sizeof note - 1;
    memcpy(spelled + sizeof spelled - length, note, length);
    return wospinzo_value(answer) == sizeof spelled && spelled[sizeof spelled - length - 1] == '\n';
}

int main(void)
{
    static const struct {
        const char *name;
        void (*call)(void);
        size_t bound;
    } entries[] = {
        {"wospinzo_version", version, WOSPINZO_STACK},
        {"wospinzo_fresh", fresh, WOSPINZO_STACK},
        {"wospinzo_move", move, WOSPINZO_STACK},
        {"wospinzo_dispatch", dispatch, WOSPINZO_STACK},
        {"wospinzo_nodes", nodes, WOSPINZO_STACK},
        {"wospinzo_open_moves", open_moves, WOSPINZO_STACK},
        {"wospinzo_check", check, WOSPINZO_STACK},
        {"wospinzo_plan_length", plan_length, WOSPINZO_STACK},
        {"wospinzo_plan", plan, WOSPINZO_STACK},
        {"wospinzo_run", run, WOSPINZO_RUN_STACK},
        {"wospinzo_write_script", write_script, WOSPINZO_STACK},
        {"wospinzo_read_script", read_script, WOSPINZO_READ_STACK},
        {"wospinzo_watch_start", watch_start, WOSPINZO_STACK},
        {"wospinzo_watch_event", watch_event, WOSPINZO_STACK},
        {"wospinzo_watch_inside", watch_inside, WOSPINZO_STACK},
    };
    size_t i, frame = used(nothing);
    int refused = !fill_list();

    fill_history();
    fill_script();
    for (i = 0; i < sizeof entries / sizeof *entries; i++) {
        size_t bytes = used(entries[i].call) - frame;

        printf("%s %zu %zu\n", entries[i].name, bytes, entries[i].bound);
        if (!wospinzo_accepted(answer)) refused = 1;
    }
    return refused;
}
