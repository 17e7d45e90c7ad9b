/*
 * A wake-up queue of two plugin threads, from C. Both put wake-ups, whose turns cross; then one takes the least, one takes the rest as a
 * list, and one loses its permission while it puts. Then a region of the old form is converted, records of threads that ran at the same
 * time are checked, and a script is cut down. ./test builds this program, runs it and compares what it prints with wake_ups.out.
 */
#include <stdio.h>

#include "mound.h"

enum { DEPTH = 4, CELLS = 8, THREADS = 2, THRESHOLD = 2, MOST_TURNS = 64 };

static uint8_t region[MOUND_REGION_BYTES(DEPTH, CELLS, THREADS)];

/* Says what was asked for and what the call answered. */
static void report(const char *what, uint32_t answer)
{
    if (answer == MOUND_DONE)
        printf("%s\n", what);
    else
        printf("%s: refused %u\n", what, (unsigned)answer);
}

static void report_turn(uint32_t thread, const uint8_t *answer)
{
    static const char *const words[] = {"moved", "idle", "inserted", "took", "empty", "refused", "withdrawn"};
    uint32_t code = mound_word(answer, 0);

    if (code == MOUND_TOOK)
        printf("  thread %u took key %u tag %u\n", (unsigned)thread, (unsigned)mound_word(answer, 1), (unsigned)mound_word(answer, 2));
    else if (code == MOUND_REFUSED)
        printf("  thread %u refused %u\n", (unsigned)thread, (unsigned)mound_word(answer, 1));
    else if (code != MOUND_MOVED && code != MOUND_IDLE)
        printf("  thread %u %s\n", (unsigned)thread, words[code]);
}

/* Gives the threads turns, one after the other, and reports every answer but moved and idle. */
static void run(uint32_t turns)
{
    uint8_t schedule[MOST_TURNS * MOUND_TURN_BYTES];
    uint8_t answers[MOST_TURNS * MOUND_ANSWER_BYTES];
    uint32_t turn;
    uint64_t done;

    for (turn = 0; turn < turns; turn++) {
        mound_set_word(schedule, 2 * turn, 1 + turn % THREADS); /* the thread */
        mound_set_word(schedule, 2 * turn + 1, turn);           /* the choice of a leaf */
    }
    done = mound_run(region, sizeof region, schedule, turns * MOUND_TURN_BYTES, UINT32_MAX, answers, sizeof answers);
    if (mound_run_refusal(done) != MOUND_DONE)
        report("  run", mound_run_refusal(done));
    for (turn = 0; turn < mound_run_turns(done); turn++)
        report_turn(1 + turn % THREADS, answers + turn * MOUND_ANSWER_BYTES);
    printf("  %u turns, %u accesses\n", (unsigned)mound_run_turns(done), (unsigned)mound_run_accesses(done));
}

/*
 * Converts a region that an earlier version of the library has laid out, for one item and one thread; its words, which a host has from then,
 * are written here one by one.
 */
static void convert_old_region(void)
{
    uint8_t old[MOUND_OLD_REGION_BYTES(1, 1, 1)] = {0};
    uint8_t converted[MOUND_REGION_BYTES(1, 1, 1)];
    size_t word;

    for (word = 0; word < 6; word++)
        mound_set_word(old, word, 1); /* the shape, the present depth, the first free cell */
    mound_set_word(old, 12, MOUND_MAY_PUT_AND_TAKE);
    report("check of a region of the old form", mound_check(old, sizeof old));
    report("its conversion to too few bytes", mound_convert(old, sizeof old, converted, sizeof converted - 4));
    report("its conversion", mound_convert(old, sizeof old, converted, sizeof converted));
    report("its thread puts", mound_put(converted, sizeof converted, 1, 5, 9));
}

/*
 * Checks what two threads say that they did: thread 1 put an item from time 1 to time 4, thread 2 took it from time 2 to time 3. The
 * positions say which came first.
 */
static void check_records(const char *what, uint32_t put_position, uint32_t take_position, size_t bytes)
{
    const uint32_t words[] = {
        MOUND_KIND_PUT, 1, 1, 4, put_position, 5, 9, /* kind, thread, begin, answer, position, key, tag */
        MOUND_KIND_TAKE, 2, 2, 3, take_position, 5, 9
    };
    uint8_t records[2 * MOUND_RECORD_BYTES];
    size_t word;
    uint32_t answer;

    for (word = 0; word < sizeof words / sizeof *words; word++)
        mound_set_word(records, word, words[word]);
    answer = mound_records(records, bytes);
    if (answer == MOUND_REJECTED)
        printf("%s: rejected\n", what);
    else
        report(what, answer);
}

/* Cuts a script down to the lines that a refusal needs, and prints these. */
static void cut_script(const char *what, uint32_t refusal)
{
    static const char script[] =
        "depth cells threads threshold permission\n"
        "2 2 2 1 3\n"
        "what thread a b\n"
        "put 1 5 9\n"
        "put 2 3 1\n"
        "turn 1 0 0\n"
        "take 1 0 0\n"
        "turn 2 0 0\n";
    uint8_t out[sizeof script];
    uint64_t cut = mound_cut((const uint8_t *)script, sizeof script - 1, refusal, out, sizeof out);

    report(what, mound_cut_refusal(cut));
    printf("%.*s", (int)mound_cut_length(cut), (const char *)out);
}

int main(void)
{
    static const uint8_t permissions[THREADS] = {MOUND_MAY_PUT_AND_TAKE, MOUND_MAY_PUT_AND_TAKE};
    uint32_t wake_up;

    printf("a region of %u bytes\n", (unsigned)sizeof region);
    report("layout", mound_layout(region, sizeof region, DEPTH, CELLS, THREADS, THRESHOLD, permissions, sizeof permissions));
    for (wake_up = 0; wake_up < 3; wake_up++) {
        report("thread 1 puts", mound_put(region, sizeof region, 1, 30 - 10 * wake_up, 1));
        report("thread 2 puts", mound_put(region, sizeof region, 2, 30 - 10 * wake_up, 2));
        run(MOST_TURNS);
    }
    report("thread 1 puts a key that is too great", mound_put(region, sizeof region, 1, UINT32_MAX, 1));

    report("thread 1 takes", mound_take(region, sizeof region, 1));
    report("thread 1 takes again", mound_take(region, sizeof region, 1));
    run(MOST_TURNS);
    report("thread 2 lists", mound_list(region, sizeof region, 2));
    run(MOST_TURNS);

    report("thread 1 puts", mound_put(region, sizeof region, 1, 5, 1));
    report("thread 1 may take alone", mound_permit(region, sizeof region, 1, MOUND_MAY_TAKE));
    run(4);
    report("thread 1 puts", mound_put(region, sizeof region, 1, 5, 1));

    report("check", mound_check(region, sizeof region));
    mound_set_word(region, 4, DEPTH + 1);
    report("check, with a present depth that is too great", mound_check(region, sizeof region));
    run(4);
    report("check of no bytes", mound_check(NULL, 0));

    convert_old_region();

    check_records("records, the put first", 1, 2, 2 * MOUND_RECORD_BYTES);
    check_records("records, the take first", 2, 1, 2 * MOUND_RECORD_BYTES);
    check_records("records, cut short", 1, 2, 2 * MOUND_RECORD_BYTES - 1);

    cut_script("a script cut down to where a thread is busy", MOUND_REFUSED_BUSY);
    cut_script("the same to where no cell is free", MOUND_REFUSED_NO_FREE_CELL);
    return 0;
}
