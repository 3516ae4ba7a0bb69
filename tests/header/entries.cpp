// Calls every entry from C++: the answers are those of a reader's first moves.
#include "wospinzo.h"

static_assert(WOSPINZO_MAX_PROGRESS(1) == 8 && WOSPINZO_MAX_PROGRESS(2) == 22 && WOSPINZO_MAX_PROGRESS(3) == 42 &&
                  WOSPINZO_MAX_PROGRESS(WOSPINZO_MAX_THREADS) == 121000,
              "the most moves without calls and retries");
static_assert(WOSPINZO_MOST_TURNS(1) == 4 && WOSPINZO_MOST_TURNS(2) == 10 && WOSPINZO_MOST_TURNS(3) == 16 &&
                  WOSPINZO_MOST_TURNS(WOSPINZO_MAX_THREADS) == 1198,
              "the most turns of the dispatcher");
static_assert(sizeof(wospinzo_watcher) == 203 && alignof(wospinzo_watcher) == 1, "the layout of a watcher's record");

// A watch of two threads: each part of the record, and each answer to the question.
static bool watches()
{
    wospinzo_watcher watcher;

    bool good = wospinzo_accepted(wospinzo_watch_start(2, &watcher)) && watcher.threads == 2;
    good = good && wospinzo_accepted(wospinzo_watch_event(&watcher, 1, WOSPINZO_ENTER_SHARED_CALL));
    good = good && wospinzo_nobody_inside(wospinzo_watch_inside(&watcher));
    good = good && wospinzo_accepted(wospinzo_watch_event(&watcher, 1, WOSPINZO_ENTER_SHARED_RETURN));
    good = good && watcher.shared == 1 && watcher.exclusive == 0 && watcher.places[1] == WOSPINZO_ENTER_SHARED_RETURN;
    good = good && wospinzo_value(wospinzo_watch_inside(&watcher)) == 1;
    good = good && !wospinzo_nobody_inside(wospinzo_watch_inside(&watcher));
    good = good && wospinzo_watch_event(&watcher, 1, WOSPINZO_ENTER_SHARED_RETURN) == WOSPINZO_NOT_NEXT;
    watcher.exclusive = 1;
    good = good && wospinzo_watch_inside(&watcher) == WOSPINZO_INCONSISTENT;
    good = good && !wospinzo_nobody_inside(wospinzo_watch_inside(&watcher));
    return good;
}

// The history with the longest plan: rounds of exclusive, then each thread's events 5, 6 and 7.
static uint64_t longest_plan()
{
    static uint8_t history[WOSPINZO_MAX_HISTORY];
    const size_t events = sizeof history / 2, rounds = events - 3 * WOSPINZO_MAX_THREADS;

    for (size_t i = 0; i < events; i++) {
        const size_t last = i < rounds ? 0 : i - rounds;
        history[2 * i] = static_cast<uint8_t>(last / 3);
        history[2 * i + 1] = static_cast<uint8_t>(5 + (i < rounds ? i % 4 : last % 3));
    }
    return wospinzo_plan_length(WOSPINZO_MAX_THREADS, history, sizeof history);
}

// How long a plan will be: the plan's own count, its bytes, the longest plan, and a refusal's place.
static bool plans()
{
    const uint8_t history[] = {1, 5, 0, 1, 1, 6, 1, 7, 0, 2}, bad[] = {0, 1, 0, 3};
    uint8_t triples[WOSPINZO_PLAN_SIZE(15)];

    bool good = wospinzo_value(wospinzo_plan_length(2, history, sizeof history)) == 15;
    good = good && wospinzo_value(wospinzo_plan(2, history, sizeof history, triples, sizeof triples)) == 15;
    good = good && wospinzo_plan(2, history, sizeof history, triples, sizeof triples - 1) == WOSPINZO_NO_ROOM;
    good = good && wospinzo_accepted(longest_plan()) && wospinzo_value(longest_plan()) == WOSPINZO_MAX_PLAN_MOVES;
    const uint64_t bad_pair = wospinzo_plan_length(1, bad, sizeof bad);
    return good && wospinzo_refusal(bad_pair) == WOSPINZO_NOT_NEXT && wospinzo_value(bad_pair) == 1;
}

// A plan written as a script, and read back: each part of the answer, and a refusal's place.
static bool scripts()
{
    const uint8_t history[] = {0, 5, 0, 6};
    uint8_t triples[15], script[100], again[WOSPINZO_READ_ROOM];

    uint64_t written = wospinzo_value(wospinzo_plan(1, history, sizeof history, triples, sizeof triples));
    bool good = written == 5;
    written = wospinzo_value(wospinzo_write_script(1, triples, sizeof triples, script, sizeof script));
    good = good && written == 72;
    const uint64_t answer = wospinzo_read_script(script, written, again, sizeof again);
    good = good && wospinzo_accepted(answer) && wospinzo_value(answer) == 1 + 256 * sizeof triples;
    good = good && wospinzo_read_threads(answer) == 1 && wospinzo_read_bytes(answer) == sizeof triples;
    for (size_t i = 0; i < sizeof triples; i++)
        good = good && again[i] == triples[i];
    const uint64_t bad_line = wospinzo_read_script(script, written - 1, again, sizeof again);
    good = good && wospinzo_refusal(bad_line) == WOSPINZO_BAD_FORM && wospinzo_value(bad_line) == 6;
    triples[6] = 1;
    const uint64_t bad_triple = wospinzo_write_script(1, triples, sizeof triples, script, sizeof script);
    return good && wospinzo_refusal(bad_triple) == WOSPINZO_NO_THREAD && wospinzo_value(bad_triple) == 2;
}

// One move of the first of two threads, and whether it was a retry; the answer's value is that of a quiet move.
static bool made(const uint8_t (&table)[9], uint16_t move, uint16_t target, int retry)
{
    uint8_t after[sizeof table];

    for (size_t i = 0; i < sizeof table; i++)
        after[i] = table[i];
    const uint64_t answer = wospinzo_move(after, sizeof after, 0, move, target);
    return wospinzo_accepted(answer) && wospinzo_value(answer) == WOSPINZO_QUIET && wospinzo_retry(answer) == retry;
}

// Moves that are retries, and ones that are not; of a refused move and of one that shows an event it is said that they are none.
static bool retries()
{
    const uint8_t turned_away[] = {2, 0, 255, 4, 0, 0, 9, 0, 0}, holds[] = {2, 1, 255, 18, 0, 0, 9, 0, 0};
    const uint8_t sets[] = {2, 1, 255, 10, 0, 0, 0, 0, 1}, clears[] = {2, 1, 255, 15, 0, 0, 6, 1, 1};
    const uint8_t reads_1[] = {2, 1, 1, 11, 0, 0, 2, 1, 1}, reads_0[] = {2, 1, 1, 11, 0, 0, 1, 0, 1};
    uint8_t held[] = {2, 1, 255, 4, 0, 0, 16, 0, 0}, free[] = {1, 0, 255, 0, 0, 0};

    bool good = made(turned_away, WOSPINZO_GO, 0, 1) && made(turned_away, WOSPINZO_HOLD, 0, 1) && made(holds, WOSPINZO_GO, 0, 0);
    good = good && made(reads_1, WOSPINZO_GO, 0, 1) && made(reads_0, WOSPINZO_GO, 0, 0) && made(reads_0, WOSPINZO_RELENT, 0, 1);
    good = good && made(sets, WOSPINZO_SET, 1, 1) && made(sets, WOSPINZO_SET, 0, 0);
    good = good && made(clears, WOSPINZO_SET, 0, 1) && made(clears, WOSPINZO_SET, 1, 1);
    good = good && made(clears, WOSPINZO_CLEAR, 0, 1) && made(clears, WOSPINZO_CLEAR, 1, 0);
    const uint64_t refused = wospinzo_move(held, sizeof held, 0, WOSPINZO_HOLD, 0);
    good = good && wospinzo_refusal(refused) == WOSPINZO_MUTEX_HELD && wospinzo_value(refused) == 0 && !wospinzo_retry(refused);
    const uint64_t called = wospinzo_move(free, sizeof free, 0, WOSPINZO_CALL_SHARED, 0);
    return good && wospinzo_value(called) == WOSPINZO_ENTER_SHARED_CALL && !wospinzo_retry(called);
}

// The retries of a run, beside the bytes that it wrote: two of seven moves, the last line is refused. A refused run has none.
static bool runs()
{
    const char script[] = "(threads 1)\n(0 (call exclusive))\n(0 (go))\n(0 (set 0))\n(0 (relent))\n(0 (go))\n(0 (set 0))\n"
                          "(0 (relent))\n(0 (relent))\n";
    const char printed[] = "(event 0 (enter exclusive call))\n(refused 6 9)\n";
    uint8_t text[sizeof script - 1], out[sizeof printed - 1];

    for (size_t i = 0; i < sizeof text; i++)
        text[i] = static_cast<uint8_t>(script[i]);
    const uint64_t answer = wospinzo_run(text, sizeof text, out, sizeof out);
    bool good = wospinzo_accepted(answer) && wospinzo_value(answer) == sizeof out && wospinzo_run_retries(answer) == 2;
    for (size_t i = 0; i < sizeof out; i++)
        good = good && out[i] == static_cast<uint8_t>(printed[i]);
    const uint64_t refused = wospinzo_run(text, sizeof text, out, sizeof out - 1);
    return good && refused == WOSPINZO_NO_ROOM && wospinzo_run_retries(refused) == 0;
}

// One turn that makes a move: each part of the answer, which has no refusal and no retry.
static bool turned(uint64_t answer, uint16_t thread, uint16_t move, uint16_t target, uint16_t event)
{
    const uint64_t value = 128u + event + 256u * thread + 65536u * move + 16777216u * static_cast<uint64_t>(target);

    bool good = wospinzo_dispatched(answer) && !wospinzo_waiting(answer) && wospinzo_accepted(answer) && !wospinzo_retry(answer);
    good = good && wospinzo_turn_thread(answer) == thread && wospinzo_turn_move(answer) == move;
    return good && wospinzo_turn_target(answer) == target && wospinzo_turn_event(answer) == event && wospinzo_value(answer) == value;
}

// An answer that tells of no move.
static bool not_turned(uint64_t answer, int waiting)
{
    bool good = wospinzo_waiting(answer) == waiting && !wospinzo_dispatched(answer) && wospinzo_value(answer) == 0;
    good = good && wospinzo_turn_thread(answer) == 0 && wospinzo_turn_move(answer) == 0;
    return good && wospinzo_turn_target(answer) == 0 && wospinzo_turn_event(answer) == 0;
}

// Thread 199 sets the flag of thread 198, the lowest that has none; then its own, which is read and is the last.
static bool last_of_200()
{
    uint8_t table[WOSPINZO_MAX_TABLE_SIZE] = {WOSPINZO_MAX_THREADS, 1, WOSPINZO_NO_TARGET};

    for (uint16_t thread = 0; thread < 198; thread++)
        table[WOSPINZO_TABLE_SIZE(thread) + 2] = 1;
    table[WOSPINZO_TABLE_SIZE(199)] = WOSPINZO_PHASE_SET_FLAG;
    bool good = turned(wospinzo_dispatch(table, sizeof table), 199, WOSPINZO_SET, 198, WOSPINZO_QUIET);
    good = good && turned(wospinzo_dispatch(table, sizeof table), 199, WOSPINZO_GO, 0, WOSPINZO_QUIET);
    good = good && turned(wospinzo_dispatch(table, sizeof table), 199, WOSPINZO_SET, 199, WOSPINZO_QUIET);
    good = good && turned(wospinzo_dispatch(table, sizeof table), 199, WOSPINZO_GO, 0, WOSPINZO_QUIET);
    good = good && turned(wospinzo_dispatch(table, sizeof table), 199, WOSPINZO_GO, 0, WOSPINZO_ENTER_EXCLUSIVE_RETURN);
    return good && not_turned(wospinzo_dispatch(table, sizeof table), 1) && wospinzo_phase(table, 199) == WOSPINZO_PHASE_IN_EXCLUSIVE;
}

// Turns of the dispatcher: a reader comes in, a writer waits for it, and both refusals.
static bool turns()
{
    uint8_t table[] = {2, 0, 255, 9, 0, 0, 5, 1, 0};
    const uint8_t stuck[] = {2, 1, 1, 11, 0, 1, 6, 1, 1};

    bool good = turned(wospinzo_dispatch(table, sizeof table), 0, WOSPINZO_GO, 0, WOSPINZO_QUIET);
    good = good && turned(wospinzo_dispatch(table, sizeof table), 0, WOSPINZO_SET, 0, WOSPINZO_QUIET);
    good = good && turned(wospinzo_dispatch(table, sizeof table), 0, WOSPINZO_GO, 0, WOSPINZO_QUIET);
    good = good && turned(wospinzo_dispatch(table, sizeof table), 0, WOSPINZO_SET, 1, WOSPINZO_QUIET);
    good = good && turned(wospinzo_dispatch(table, sizeof table), 1, WOSPINZO_GO, 0, WOSPINZO_ENTER_SHARED_RETURN);
    good = good && not_turned(wospinzo_dispatch(table, sizeof table), 1);
    for (size_t i = 0; i < sizeof table; i++)
        good = good && table[i] == stuck[i];
    const uint64_t bad_size = wospinzo_dispatch(table, sizeof table - 1);
    good = good && bad_size == WOSPINZO_BAD_SIZE && not_turned(bad_size, 0);
    table[1] = 0;
    const uint64_t unsound = wospinzo_dispatch(table, sizeof table);
    return good && unsound == WOSPINZO_UNSOUND && not_turned(unsound, 0);
}

int main()
{
    uint8_t table[WOSPINZO_TABLE_SIZE(2)], out[64];
    const uint8_t history[] = {0, 1, 0, 2};
    const uint8_t script[] = {'(', 't', 'h', 'r', 'e', 'a', 'd', 's', ' ', '1', ')', '\n'};

    bool good = wospinzo_version() == WOSPINZO_VERSION;
    good = good && wospinzo_value(wospinzo_fresh(2, table, sizeof table)) == sizeof table;
    good = good && wospinzo_threads(table) == 2 && wospinzo_mutex(table) == 0 && wospinzo_target(table) == WOSPINZO_NO_TARGET;
    good = good && wospinzo_value(wospinzo_move(table, sizeof table, 0, WOSPINZO_CALL_SHARED, 0)) == WOSPINZO_ENTER_SHARED_CALL;
    good = good && wospinzo_value(wospinzo_move(table, sizeof table, 0, WOSPINZO_GO, 0)) == WOSPINZO_QUIET;
    good = good && wospinzo_phase(table, 0) == WOSPINZO_PHASE_READ_FORBIDDEN && wospinzo_busy(table, 0) == 1;
    good = good && wospinzo_forbidden(table, 1) == 0 && wospinzo_phase(table, 1) == WOSPINZO_PHASE_FREE;
    good = good && wospinzo_value(wospinzo_nodes(table, sizeof table, out, sizeof out)) == 2 && out[0] == WOSPINZO_ES;
    good = good && wospinzo_value(wospinzo_open_moves(table, sizeof table, 1, out, sizeof out)) == 4;
    good = good && wospinzo_value(wospinzo_check(2, history, sizeof history)) == 2;
    good = good && wospinzo_value(wospinzo_plan(2, history, sizeof history, out, sizeof out)) == 4;
    const uint64_t ran = wospinzo_run(script, sizeof script, out, sizeof out);
    good = good && wospinzo_value(ran) == 10 && wospinzo_run_retries(ran) == 0;
    good = good && wospinzo_refusal(wospinzo_check(201, history, sizeof history)) == WOSPINZO_BAD_SIZE;
    return good && watches() && plans() && scripts() && retries() && runs() && turns() && last_of_200() ? 0 : 1;
}
