/*
 * wospinzo.h - the busy-forbidden lock: its table, its moves, histories,
 * scripts and watchers. C99 or later, or C++11 or later.
 *
 *   cc  -std=c99   -Iinclude -o executive executive.c   target/staticlib/libwospinzo.a
 *   c++ -std=c++11 -Iinclude -o executive executive.cpp target/staticlib/libwospinzo.a
 *
 * The archive is for x86-64; `./archive` builds it.
 *
 * A readers-writer lock for N threads (tasks of an executive) kept in one
 * table of bytes that the caller owns. Every step of a thread through the lock
 * is one call of wospinzo_move, or of wospinzo_dispatch, which chooses the thread
 * and the move by itself. The functions start no threads, take no memory, keep no
 * state between calls and call nothing back; none calls itself, directly or
 * through others, and none is called through a pointer (tests/calls).
 *
 * The table: 3 + 3N bytes.
 *   byte 0           N, 1 to 200
 *   byte 1           the mutex, 0 or 1
 *   byte 2           the target, a thread number, or 255 for none
 *   byte 3 + 3i      the phase of thread i, 0 to 18
 *   byte 4 + 3i      its busy flag, 0 or 1
 *   byte 5 + 3i      its forbidden flag, 0 or 1
 *
 * wospinzo_fresh fills it, wospinzo_move and wospinzo_dispatch bring it up to
 * date, and nobody else may write it between calls. The caller may read it, and
 * may put back, over a restart, the bytes that the last call left.
 *
 * The table is sound exactly if some list of moves, all accepted, leaves it from
 * the fresh table for its N: the theorem complete, for every N from 1 to 200, in
 * crates/completeness/proofs/Completeness.antt. The rules of soundness, one by
 * one, are in crates/definitions/specs/Sound.antt. Every function that is lent a
 * table tests all of it first, and turns down by 2 one that isn't sound. An
 * earlier copy of a table passes, and so does a table that was damaged into
 * another sound one (docs/MANUAL.md, section 7).
 *
 * A watcher is the second thing that a caller may own: a record of 203 bytes
 * that judges each event as it happens, without the history being kept. It
 * knows of no table: the caller hands it the events that the moves show.
 *
 * Slices: a pointer, which is never null, and the number of bytes there, which
 * may be 0. The slices of one call must not overlap, and nothing else may read
 * or write them during the call. A watcher is lent by a pointer to its record,
 * which is never null either, and nothing else may read or write it during the
 * call.
 *
 * Answers: every function but wospinzo_version answers a number of 64 bits,
 * which the functions below take apart. Its low byte is 0 where the request
 * was accepted, else the number of the refusal, the first that fits in the
 * order of their numbers, but for 13, which is tested after 1 and before 9, and
 * for wospinzo_write_script and wospinzo_read_script, which have an order of
 * their own. Of an accepted request the next 32 bits are the value, what the
 * function says it answers, and the 24 above them say how many retries were
 * made: of a move 1 or 0, of a run how many of its moves were retries, and 0 of
 * every other function. Of a refusal the rest is its place, which is
 *   of a history        the index of the first bad pair, for 9, 10 and 11
 *   of a list of moves  the index of the first bad triple, for 3, 4 and 5; the
 *                       largest that an answer holds is 2^55 - 1, which stands
 *                       for every larger one
 *   of a script read    the first bad line, from 1, for 1, 3, 5 and 8, but 0
 *                       for the 8 of a script that is too long
 * and 0 for every other refusal.
 *
 * A refused request leaves every lent byte as it was. An accepted one fills
 * exactly its output from the front and leaves the bytes after it.
 */
#ifndef WOSPINZO_H
#define WOSPINZO_H

#include <stddef.h>
#include <stdint.h>

#ifdef __cplusplus
extern "C" {
#endif

/* The version of this header; wospinzo_version answers that of the archive.
 * docs/CHANGELOG.md says what a version promises. */
#define WOSPINZO_VERSION_MAJOR 1
#define WOSPINZO_VERSION_MINOR 7
#define WOSPINZO_VERSION_PATCH 1
#define WOSPINZO_VERSION \
    (65536 * WOSPINZO_VERSION_MAJOR + 256 * WOSPINZO_VERSION_MINOR + WOSPINZO_VERSION_PATCH)

/* A compiler that can warns where an answer is not used. */
#if defined(__GNUC__) || defined(__clang__)
#define WOSPINZO_USE_ANSWER __attribute__((warn_unused_result))
#elif defined(__cplusplus) && __cplusplus >= 201703L
#define WOSPINZO_USE_ANSWER [[nodiscard]]
#else
#define WOSPINZO_USE_ANSWER
#endif

/* The largest number of threads. */
#define WOSPINZO_MAX_THREADS 200
/* The target byte of a table that has no target. */
#define WOSPINZO_NO_TARGET 255
/* The bytes of a table for n threads, and of the largest table. */
#define WOSPINZO_TABLE_SIZE(n) (3u + 3u * (n))
#define WOSPINZO_MAX_TABLE_SIZE 603
/* The bytes of a watcher's record. */
#define WOSPINZO_WATCHER_SIZE 203
/* The most bytes that wospinzo_open_moves writes for n threads. */
#define WOSPINZO_OPEN_MOVES_ROOM(n) (4u * (n))
/* The longest history and the longest script, in bytes. */
#define WOSPINZO_MAX_HISTORY 60000
#define WOSPINZO_MAX_SCRIPT 30000
/* The most moves that n threads can make one after the other without a call and
 * without a retry: N x (3N + 5), which some tables come to. */
#define WOSPINZO_MAX_PROGRESS(n) ((n) * (3ul * (n) + 5ul))
/* The most turns of the dispatcher that make a move, one after the other and for
 * n threads: 6N - 2, which some tables come to. With the host making no moves
 * between, waiting comes after so many turns at most, from any sound table. */
#define WOSPINZO_MOST_TURNS(n) (6u * (n) - 2u)
/* The bytes of a plan of so many moves, and the moves and bytes of the longest
 * plan: that of the longest history for 200 threads, rounds of exclusive and
 * then each thread's events 5, 6 and 7. */
#define WOSPINZO_PLAN_SIZE(moves) (3u * (moves))
#define WOSPINZO_MAX_PLAN_MOVES 4575100
#define WOSPINZO_MAX_PLAN_SIZE 13725300
/* Bytes in which the output of every run fits. */
#define WOSPINZO_RUN_ROOM 65536
/* Bytes in which the moves of every script fit: behind the 12 bytes of its
 * threads line, a move takes a line of 9 bytes at least. */
#define WOSPINZO_READ_ROOM 9996

/* Bytes of stack that suffice for a call of any function but wospinzo_run and
 * wospinzo_read_script, for wospinzo_run, and for wospinzo_read_script (x86-64;
 * tests/stack measures them). */
#define WOSPINZO_STACK 1024
#define WOSPINZO_RUN_STACK 8192
#define WOSPINZO_READ_STACK 12288

/* The moves. Set and clear take a thread as target; the others take 0. */
enum wospinzo_move_code {
    WOSPINZO_GO = 0,
    WOSPINZO_CALL_SHARED = 1,
    WOSPINZO_CALL_EXCLUSIVE = 2,
    WOSPINZO_SET = 3,
    WOSPINZO_CLEAR = 4,
    WOSPINZO_RELENT = 5,
    WOSPINZO_HOLD = 6
};

/* The events that a move shows. A quiet move answers WOSPINZO_QUIET. */
enum wospinzo_event {
    WOSPINZO_QUIET = 0,
    WOSPINZO_ENTER_SHARED_CALL = 1,
    WOSPINZO_ENTER_SHARED_RETURN = 2,
    WOSPINZO_LEAVE_SHARED_CALL = 3,
    WOSPINZO_LEAVE_SHARED_RETURN = 4,
    WOSPINZO_ENTER_EXCLUSIVE_CALL = 5,
    WOSPINZO_ENTER_EXCLUSIVE_RETURN = 6,
    WOSPINZO_LEAVE_EXCLUSIVE_CALL = 7,
    WOSPINZO_LEAVE_EXCLUSIVE_RETURN = 8
};

/* The phases, each with what the thread does next there. */
enum wospinzo_phase_number {
    WOSPINZO_PHASE_FREE = 0,             /* nothing: it is outside the lock */
    WOSPINZO_PHASE_RAISE_BUSY = 1,       /* a reader raises its busy flag */
    WOSPINZO_PHASE_READ_FORBIDDEN = 2,   /* it reads its forbidden flag */
    WOSPINZO_PHASE_BACK_OFF = 3,         /* it found 1: it lowers busy */
    WOSPINZO_PHASE_TRY_AGAIN = 4,        /* it starts again (go), or takes the mutex first (hold) */
    WOSPINZO_PHASE_ENTER_SHARED = 5,     /* it found 0: its return is shown */
    WOSPINZO_PHASE_IN_SHARED = 6,        /* it reads the settings, then leaves */
    WOSPINZO_PHASE_LOWER_BUSY = 7,       /* it lowers busy */
    WOSPINZO_PHASE_LEAVE_SHARED = 8,     /* its return is shown */
    WOSPINZO_PHASE_TAKE_MUTEX = 9,       /* a writer takes the mutex */
    WOSPINZO_PHASE_SET_FLAG = 10,        /* it sets a forbidden flag (set t) */
    WOSPINZO_PHASE_READ_BUSY = 11,       /* it reads that thread's busy flag */
    WOSPINZO_PHASE_TAKE_BACK = 12,       /* it found 1: it clears the flag */
    WOSPINZO_PHASE_ENTER_EXCLUSIVE = 13, /* every flag is set: its return is shown */
    WOSPINZO_PHASE_IN_EXCLUSIVE = 14,    /* it writes the settings, then leaves */
    WOSPINZO_PHASE_CLEAR_FLAGS = 15,     /* it clears the flags (clear t) */
    WOSPINZO_PHASE_LET_MUTEX_GO = 16,    /* it lets the mutex go */
    WOSPINZO_PHASE_LEAVE_EXCLUSIVE = 17, /* its return is shown */
    WOSPINZO_PHASE_HOLD_MUTEX = 18       /* a reader gives the mutex back and starts again */
};

/* The nodes, each with its phases. */
enum wospinzo_node {
    WOSPINZO_FREE = 0,      /* 0: outside the lock */
    WOSPINZO_ES = 1,        /* 1 to 4 and 18: entering shared */
    WOSPINZO_LOE = 2,       /* 5: no writer can enter any more */
    WOSPINZO_SHARED = 3,    /* 6: in the shared section */
    WOSPINZO_LS = 4,        /* 7 and 8: leaving shared */
    WOSPINZO_EE = 5,        /* 9: entering exclusive, before the mutex */
    WOSPINZO_SAF = 6,       /* 10 to 12: setting all forbidden flags */
    WOSPINZO_LOS = 7,       /* 13: no reader can enter any more */
    WOSPINZO_EXCLUSIVE = 8, /* 14: in the exclusive section */
    WOSPINZO_LE = 9,        /* 15: leaving exclusive, clearing the flags */
    WOSPINZO_OE = 10        /* 16 and 17: out of exclusive */
};

/* The refusals. A request is tested for them in the order of their numbers, but
 * for 13, which is tested after 1 and before 9, and for the two functions that
 * write and read a script, which say their order. */
enum wospinzo_refusal_number {
    WOSPINZO_ACCEPTED = 0,
    WOSPINZO_BAD_SIZE = 1,     /* N is 0 or above 200, or the table isn't 3 + 3N bytes */
    WOSPINZO_UNSOUND = 2,      /* the table isn't sound: no list of moves leaves it from a fresh table */
    WOSPINZO_NO_THREAD = 3,    /* the thread number isn't below N */
    WOSPINZO_NO_MOVE = 4,      /* the move is above 6 */
    WOSPINZO_BAD_TARGET = 5,   /* set or clear: not below N; another move: not 0 */
    WOSPINZO_NOT_IN_PHASE = 6, /* the thread's phase has no such move */
    WOSPINZO_MUTEX_HELD = 7,   /* go in phase 9, or hold in 4, while the mutex is 1: try again later */
    WOSPINZO_BAD_FORM = 8,     /* a history of odd length or too long; a script too long; the form of a
                                * line that is read; a list that isn't whole triples, or whose script
                                * would be too long */
    WOSPINZO_UNKNOWN_PAIR = 9, /* the event isn't 1 to 8, or its thread isn't below N */
    WOSPINZO_NOT_NEXT = 10,    /* the event isn't its thread's next */
    WOSPINZO_OCCUPIED = 11,    /* the section that must be empty isn't */
    WOSPINZO_NO_ROOM = 12,     /* the output is shorter than what would be written */
    WOSPINZO_INCONSISTENT = 13 /* the watcher's record isn't consistent: no watch could have left it */
};

/*
 * The record of a watcher: bytes alone, without padding, at any address.
 * wospinzo_watch_start fills it, wospinzo_watch_event brings it up to date, and
 * nobody else may write it between calls. The caller may read it, and may put
 * back, over a restart, the bytes that the last call left.
 *
 * It is consistent where the totals are what a count over the threads gives,
 * every entry of `places` from N upward is 0, and the others are places that
 * the plain lock shows: 0, 1, 2, 3, 5, 6 or 7, with one thread at most in
 * exclusive (6), and then none in shared (2). Another record is turned down by
 * 13. One that was damaged into another consistent one is not found.
 */
typedef struct wospinzo_watcher {
    uint8_t threads;   /* N, 1 to 200 */
    uint8_t shared;    /* how many threads are in shared */
    uint8_t exclusive; /* how many threads are in exclusive */
    /* Each thread's place in its round: the code of its last event, 0 before
     * its first and after a 4 or 8. 0 from N upward. */
    uint8_t places[WOSPINZO_MAX_THREADS];
} wospinzo_watcher;

/* Whether a request was accepted: 1 or 0. */
static inline int wospinzo_accepted(uint64_t answer)
{
    return (answer & 255u) == 0;
}

/* The number of the refusal, WOSPINZO_ACCEPTED where there is none. */
static inline unsigned wospinzo_refusal(uint64_t answer)
{
    return (unsigned)(answer & 255u);
}

/* The value of an accepted request, or the place of a refusal. */
static inline uint64_t wospinzo_value(uint64_t answer)
{
    uint64_t rest = answer >> 8;
    return wospinzo_accepted(answer) ? rest & 0xffffffffu : rest;
}

/* Of an answer of wospinzo_move: 1 where the move was made and was a retry, else
 * 0. A retry shows no event: it tries again what another thread kept this one
 * from, or undoes or repeats a step of its own. An executive may run other work
 * after one. */
static inline int wospinzo_retry(uint64_t answer)
{
    return wospinzo_accepted(answer) && answer >> 40 != 0;
}

/* Of an answer of wospinzo_run: how many of the moves that it made were retries;
 * 0 where it was refused. */
static inline uint64_t wospinzo_run_retries(uint64_t answer)
{
    return wospinzo_accepted(answer) ? answer >> 40 : 0;
}

/* Of an answer of wospinzo_dispatch: 1 where no thread had a move for it, so that
 * the table is as it was, else 0. */
static inline int wospinzo_waiting(uint64_t answer)
{
    return answer == 0;
}

/* Of an answer of wospinzo_dispatch: 1 where a move was made, else 0. */
static inline int wospinzo_dispatched(uint64_t answer)
{
    return wospinzo_accepted(answer) && answer != 0;
}

/* Of an answer of wospinzo_dispatch: the code of the event that its move shows, or
 * WOSPINZO_QUIET; the thread that made the move; the move; and its target, 0 where
 * it takes none. Where no move was made they are 0. */
static inline uint16_t wospinzo_turn_event(uint64_t answer)
{
    return (uint16_t)(wospinzo_dispatched(answer) ? (answer >> 8) & 127u : 0u);
}

static inline uint16_t wospinzo_turn_thread(uint64_t answer)
{
    return (uint16_t)(wospinzo_dispatched(answer) ? (answer >> 16) & 255u : 0u);
}

static inline uint16_t wospinzo_turn_move(uint64_t answer)
{
    return (uint16_t)(wospinzo_dispatched(answer) ? (answer >> 24) & 255u : 0u);
}

static inline uint16_t wospinzo_turn_target(uint64_t answer)
{
    return (uint16_t)(wospinzo_dispatched(answer) ? (answer >> 32) & 255u : 0u);
}

/* Of an answer of wospinzo_watch_inside: 1 where nobody is inside, else 0. A
 * refusal says nothing of who is inside, although its value is 0. */
static inline int wospinzo_nobody_inside(uint64_t answer)
{
    return answer == 0;
}

/* Of an accepted answer of wospinzo_read_script: the script's N, and the number
 * of bytes written. Of a refusal they tell nothing. */
static inline unsigned wospinzo_read_threads(uint64_t answer)
{
    return (unsigned)((answer >> 8) & 255u);
}

static inline uint64_t wospinzo_read_bytes(uint64_t answer)
{
    return answer >> 16;
}

/*
 * What stands in a table, of which nothing is tested: `table` is one that
 * wospinzo_fresh made, and `thread` is below its N.
 */
static inline unsigned wospinzo_threads(const uint8_t *table)
{
    return table[0];
}

static inline unsigned wospinzo_mutex(const uint8_t *table)
{
    return table[1];
}

static inline unsigned wospinzo_target(const uint8_t *table)
{
    return table[2];
}

/* An enumerator of wospinzo_phase_number. */
static inline unsigned wospinzo_phase(const uint8_t *table, uint16_t thread)
{
    return table[3u + 3u * thread];
}

static inline unsigned wospinzo_busy(const uint8_t *table, uint16_t thread)
{
    return table[4u + 3u * thread];
}

static inline unsigned wospinzo_forbidden(const uint8_t *table, uint16_t thread)
{
    return table[5u + 3u * thread];
}

/* Of this header: the largest table, that an answer's parts fit, the longest
 * plan, the limits on moves and turns, the room for a script's moves, and the
 * layout of a watcher's record. Its size is odd, so that its alignment is 1. */
#if defined(__cplusplus)
#define WOSPINZO_ASSERT(name, condition) static_assert(condition, "wospinzo.h: " #name)
#elif defined(__STDC_VERSION__) && __STDC_VERSION__ >= 201112L
#define WOSPINZO_ASSERT(name, condition) _Static_assert(condition, "wospinzo.h: " #name)
#else
#define WOSPINZO_ASSERT(name, condition) typedef char wospinzo_assert_##name[(condition) ? 1 : -1]
#endif
WOSPINZO_ASSERT(table, WOSPINZO_TABLE_SIZE(WOSPINZO_MAX_THREADS) == WOSPINZO_MAX_TABLE_SIZE);
WOSPINZO_ASSERT(byte, WOSPINZO_MAX_THREADS < WOSPINZO_NO_TARGET && WOSPINZO_NO_TARGET <= UINT8_MAX);
WOSPINZO_ASSERT(moves, (3 * WOSPINZO_MAX_THREADS + 6) * (WOSPINZO_MAX_HISTORY / 2) +
                               (3 * WOSPINZO_MAX_THREADS + 2) * WOSPINZO_MAX_THREADS ==
                           4 * WOSPINZO_MAX_PLAN_MOVES);
WOSPINZO_ASSERT(plan, WOSPINZO_PLAN_SIZE(WOSPINZO_MAX_PLAN_MOVES) == WOSPINZO_MAX_PLAN_SIZE);
WOSPINZO_ASSERT(progress, WOSPINZO_MAX_PROGRESS(WOSPINZO_MAX_THREADS) == 121000);
WOSPINZO_ASSERT(turns, WOSPINZO_MOST_TURNS(1) == 4 && WOSPINZO_MOST_TURNS(WOSPINZO_MAX_THREADS) == 1198);
WOSPINZO_ASSERT(room, WOSPINZO_READ_ROOM == (WOSPINZO_MAX_SCRIPT - 12) / 9 * 3);
WOSPINZO_ASSERT(watcher, sizeof(wospinzo_watcher) == WOSPINZO_WATCHER_SIZE);
WOSPINZO_ASSERT(places, offsetof(wospinzo_watcher, places) == 3);
#undef WOSPINZO_ASSERT

/* The version of the archive, as WOSPINZO_VERSION. */
WOSPINZO_USE_ANSWER
uint32_t wospinzo_version(void);

/*
 * Writes the fresh table for `threads` threads: all Free, mutex 0, no target.
 * Answers the number of bytes written, 3 + 3 * threads.
 * Refusals: 1, 12.
 */
WOSPINZO_USE_ANSWER
uint64_t wospinzo_fresh(uint16_t threads, uint8_t *out, size_t out_len);

/*
 * Tests the table and the request, then makes one move of one thread. The
 * table stays in the lent bytes and is sound after every accepted move.
 * Answers the code of the event shown, or WOSPINZO_QUIET; wospinzo_retry says
 * whether the move was a retry. Retries are go or hold in phase 4, relent, go in
 * 11 that reads busy 1, set in 10 on a thread with forbidden 1, every set in 15,
 * and clear in 15 on a thread with forbidden 0.
 * Refusals: 1 to 7, all with the table unchanged.
 *
 *   call shared     phase 0 to 1, event 1
 *   call exclusive  phase 0 to 9, event 5
 *   go              the thread's next step. A reader takes 3 from its call
 *                   into Shared where no flag stops it, 2 out of it (the first
 *                   shows event 3), and 1 to be Free again. One that a flag
 *                   stops comes to phase 4; go there starts again, and so does
 *                   go in 18, which gives the mutex back. A writer takes the
 *                   mutex with the first; in phase 11 it reads its target's
 *                   busy flag and goes on, or to 12 where that is 1; go in 13
 *                   enters Exclusive, go in 14 leaves it.
 *   set t           phase 10: sets t's forbidden flag and makes t the target;
 *                   phase 15: sets it
 *   clear t         phase 15: clears t's forbidden flag; the last one leads on
 *   relent          phase 11 to 12, without looking at the target
 *   hold            phase 4 to 18: a reader takes the mutex. No call waits: the
 *                   host asks again later while 7 is answered, and makes go in
 *                   4 when its time is over. A thread that stays in 18 keeps
 *                   every writer out: make go there at once.
 */
WOSPINZO_USE_ANSWER
uint64_t wospinzo_move(uint8_t *table, size_t table_len, uint16_t thread, uint16_t move,
                       uint16_t target);

/*
 * The dispatcher. Tests the table, then makes one move: for the lowest-numbered
 * thread that has one, a move that is no call, no retry and no leaving (go in 6
 * or 14). The table stays in the lent bytes and is sound after it.
 * Answers whether a move was made and which (wospinzo_dispatched,
 * wospinzo_turn_thread, wospinzo_turn_move, wospinzo_turn_target), with the
 * move's own answer (wospinzo_turn_event); or, where no thread has such a move,
 * that it is waiting (wospinzo_waiting), with the table unchanged.
 * wospinzo_value is 0 for waiting, else 128 + the event's code + 256 times the
 * thread + 65,536 times the move + 16,777,216 times the target.
 * Refusals: 1, 2, both with the table unchanged.
 *
 *   go       in phases 1, 2, 3, 5, 7, 8, 12, 13, 16, 17 and 18; in 9 while the
 *            mutex is 0; in 11 while the target's busy flag is 0
 *   set t    in phase 10, t being the lowest thread with forbidden 0
 *   clear t  in phase 15, t being the lowest thread with forbidden 1
 *
 * The host makes all other moves by wospinzo_move, between turns: calls,
 * leavings, and a reader's go or hold in phase 4. While it makes none, waiting
 * comes after at most WOSPINZO_MOST_TURNS(N) turns, from any sound table. In a
 * table that is waiting every thread is in phase 0, 4, 6, 9, 11 or 14, a writer in
 * 11 has a target in Shared (6), and a thread in 9 finds the mutex taken: it is
 * the host's move that lets them go on.
 */
WOSPINZO_USE_ANSWER
uint64_t wospinzo_dispatch(uint8_t *table, size_t table_len);

/*
 * Tests the table and writes the node of each thread, one byte a thread (enum
 * wospinzo_node): the call to test a table that was kept over a restart with.
 * Answers the number of bytes written, N. The table is only read.
 * Refusals: 1, 2, 12.
 */
WOSPINZO_USE_ANSWER
uint64_t wospinzo_nodes(const uint8_t *table, size_t table_len, uint8_t *out, size_t out_len);

/*
 * Writes the open moves of a thread as byte pairs, move then target, by move
 * and then by target: exactly those that wospinzo_move would accept now.
 * Answers the number of bytes written, at most WOSPINZO_OPEN_MOVES_ROOM(N),
 * and 0 for a thread in phase 9 while the mutex is 1. The table is only read.
 * Refusals: 1, 2, 3, 12.
 */
WOSPINZO_USE_ANSWER
uint64_t wospinzo_open_moves(const uint8_t *table, size_t table_len, uint16_t thread,
                             uint8_t *out, size_t out_len);

/*
 * Judges a history, byte pairs of thread and event, against a plain
 * readers-writer lock: each thread goes round 1, 2, 3, 4 or 5, 6, 7, 8; event
 * 2 needs nobody in exclusive, event 6 nobody in either section.
 * Answers the number of events. Writes nothing.
 * Refusals: 1, 8, and for the first bad pair 9, 10 or 11 with its index as
 * place.
 */
WOSPINZO_USE_ANSWER
uint64_t wospinzo_check(uint16_t threads, const uint8_t *history, size_t history_len);

/*
 * Counts the moves of the plan for a history without making the plan, so that
 * memory for it can be reserved, three bytes a move: with
 * WOSPINZO_PLAN_SIZE(wospinzo_value(answer)) bytes of output wospinzo_plan is not
 * refused by 12, with a byte less it is. A full round of shared counts 7 moves
 * and one of exclusive 3N + 6, whatever stands between its events. A round that
 * isn't finished counts 1, 4 or 6 after its event 1, 2 or 3, and 1, 2N + 3 or
 * 3N + 5 after its event 5, 6 or 7.
 * Answers the number of moves, the one that wospinzo_plan answers, at most
 * WOSPINZO_MAX_PLAN_MOVES. Writes nothing.
 * Refusals: those of wospinzo_check, with the same place.
 */
WOSPINZO_USE_ANSWER
uint64_t wospinzo_plan_length(uint16_t threads, const uint8_t *history, size_t history_len);

/*
 * Writes a plan for a history: byte triples, thread, move and target, which as
 * requests to wospinzo_move from a fresh table are all accepted and show
 * exactly that history. Events 1, 4, 5 and 8 take one move, 2 takes three, 3
 * two, 6 takes 2N + 2 and 7 takes N + 2.
 * Answers the number of moves, the one that wospinzo_plan_length answers; three
 * times as many bytes are written, WOSPINZO_PLAN_SIZE of it.
 * Refusals: those of wospinzo_check, then 12.
 */
WOSPINZO_USE_ANSWER
uint64_t wospinzo_plan(uint16_t threads, const uint8_t *history, size_t history_len,
                       uint8_t *out, size_t out_len);

/*
 * Runs a script on a fresh table of its own and writes what it prints: a line
 * for each event, then `(steps K)`, or `(refused R L)` at the first line L
 * that is turned down. Such a line is an answer of the run, no refusal of it.
 * Answers the number of bytes written; WOSPINZO_RUN_ROOM always suffices.
 * wospinzo_run_retries says how many of the moves made were retries, which isn't
 * printed; a plan's script makes none.
 * Refusals: 8 for a script above WOSPINZO_MAX_SCRIPT bytes, 12.
 */
WOSPINZO_USE_ANSWER
uint64_t wospinzo_run(const uint8_t *script, size_t script_len, uint8_t *out, size_t out_len);

/*
 * Writes a list of moves as a script: the line `(threads N)`, then one line a
 * move, without notes. The list is byte triples, thread, move and target, as
 * wospinzo_plan writes them; a move that a run would turn down by 6 or 7 is
 * written too. What was written reads back as the same N and list, and two
 * lists give the same script only if they are equal.
 * Answers the number of bytes written; WOSPINZO_MAX_SCRIPT always suffices.
 * Refusals, in this order: 1; 8 for a length that isn't three times a whole
 * number; triple by triple 3, 4 and 5 with the triple's index as place; 8 for a
 * script that would exceed WOSPINZO_MAX_SCRIPT bytes; 12.
 */
WOSPINZO_USE_ANSWER
uint64_t wospinzo_write_script(uint16_t threads, const uint8_t *triples, size_t triples_len,
                               uint8_t *out, size_t out_len);

/*
 * Reads a script: writes its moves as byte triples, thread, move and target, and
 * passes over its notes. It turns down exactly what a run would for form and
 * numbers; a move that a run would turn down by 6 or 7 is read too. Written
 * again, the script differs only by the notes left out.
 * Answers N and the number of bytes written, which wospinzo_read_threads and
 * wospinzo_read_bytes take apart; wospinzo_value is N + 256 times the bytes.
 * WOSPINZO_READ_ROOM always suffices.
 * Refusals, in this order: 8 with place 0 for a script above WOSPINZO_MAX_SCRIPT
 * bytes; of the first bad line, from 1, with it as place: 8 for its form, 1 for
 * a bad N, 3 for a thread and 5 for a target that isn't below N; 12 with place 0.
 */
WOSPINZO_USE_ANSWER
uint64_t wospinzo_read_script(const uint8_t *script, size_t script_len,
                              uint8_t *out, size_t out_len);

/*
 * Starts a watch of `threads` threads: fills the whole lent record, whatever it
 * held, with N, every place 0 and both totals 0.
 * Answers 0.
 * Refusals: 1 where `threads` is 0 or above 200, with the record unchanged.
 */
WOSPINZO_USE_ANSWER
uint64_t wospinzo_watch_start(uint16_t threads, wospinzo_watcher *watcher);

/*
 * Tests the record, then judges one event of one thread: by the rules of
 * wospinzo_check, after the events that were accepted since the start, however
 * many they are. Both numbers may be any of 16 bits. An accepted event is taken
 * into the lent record.
 * Answers 0.
 * Refusals, in this order and all with place 0 and the record unchanged: 1
 * where the record's N is 0 or above 200; 13 where it isn't consistent; 9
 * where the event isn't 1 to 8 or its thread isn't below N; 10 where it isn't
 * the thread's next; 11 where the section that must be empty isn't. The watch
 * goes on as if a refused event had not been.
 */
WOSPINZO_USE_ANSWER
uint64_t wospinzo_watch_event(wospinzo_watcher *watcher, uint16_t thread, uint16_t event);

/*
 * Is anybody inside, in shared or in exclusive? Tests the record, which is only
 * read.
 * Answers 1 where somebody is, 0 where nobody is; see wospinzo_nobody_inside.
 * Refusals: 1 where the record's N is 0 or above 200, 13 where it isn't
 * consistent.
 */
WOSPINZO_USE_ANSWER
uint64_t wospinzo_watch_inside(const wospinzo_watcher *watcher);

#ifdef __cplusplus
}
#endif

#endif
