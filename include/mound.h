/*
 * The mound wake-up queue for C and C++: the calls of libmound.a. docs/REFERENCE.md explains the queue.
 *
 * A queue lives in a region: bytes that the host lends to each call, little-endian 32-bit words. The queue keeps nothing elsewhere, and
 * no call keeps a pointer. Each slice is a pointer and a length in bytes, for which the pointer is valid; with length 0 it is not looked
 * at. Slices of one call must not overlap, none needs an alignment, and a region is lent to one call at a time. Apart from that a call may
 * be given anything at all: it does its work, or answers the first refusal that applies, in the order in which its comment lists them,
 * and changes no byte.
 *
 * Threads, nodes and cells count from 1. An item is a key with a tag; items compare by key, then tag.
 */
#ifndef MOUND_H
#define MOUND_H

#include <stddef.h>
#include <stdint.h>

#ifdef __cplusplus
extern "C" {
#endif

/* What a call answers: done (of a check: yes), or why it is refused; mound_records has MOUND_REJECTED too. */
enum mound_refusal {
    MOUND_DONE = 0,
    MOUND_REFUSED_SHAPE = 1,          /* a number of the shape or a permission is out of range, or there is not one permission for each thread */
    MOUND_REFUSED_REGION_LENGTH = 2,  /* the slice does not have the exact length of the shape; of a cut: it is shorter than the script */
    MOUND_REFUSED_THREAD = 3,         /* there is no such thread */
    MOUND_REFUSED_ITEM = 4,           /* the key or the tag is out of range */
    MOUND_REFUSED_ANSWER_LENGTH = 5,  /* the answers have less than 12 bytes a turn */
    MOUND_REFUSED_SCHEDULE = 6,       /* the schedule is not whole turns of 8 bytes, or more than 4,096 */
    MOUND_REFUSED_UNREADABLE = 7,     /* the region is not readable (of a conversion: the old one); or a turn's step names what does not exist */
    MOUND_REFUSED_PERMISSION = 8,     /* the thread lacks the permission */
    MOUND_REFUSED_BUSY = 9,           /* the thread has an operation under way */
    MOUND_REFUSED_NO_FREE_CELL = 10,  /* no cell is free */
    MOUND_REFUSED_COUNTER_SPENT = 11, /* only of a turn: its update meets a counter of 2^64 - 1, which cannot grow */
    MOUND_REFUSED_RECORDS = 12,       /* a part of a record, more than 1,024, or a kind, thread, key or tag out of range (of an empty: not 0) */
    MOUND_REFUSED_NOT_SHOWN = 16      /* the script has a line that cannot be read, or does not show the refusal */
};

/* What a turn answers: the first of its three words. The other two are 0, but for took and refused. */
enum mound_answer {
    MOUND_MOVED = 0,    /* an access was made, and the operation goes on */
    MOUND_IDLE = 1,     /* the thread has no operation */
    MOUND_INSERTED = 2, /* the put has ended: its item is in the queue */
    MOUND_TOOK = 3,     /* an item was taken: its key, its tag */
    MOUND_EMPTY = 4,    /* the take or the list has ended: the queue was empty */
    MOUND_REFUSED = 5,  /* the turn was refused, and nothing changed: the refusal's number, 0 */
    MOUND_WITHDRAWN = 6 /* the operation has ended without effect, for lack of its permission */
};

/* What a thread may do; the permission to take is that to list too. */
enum mound_permission {
    MOUND_MAY_NOTHING = 0,
    MOUND_MAY_PUT = 1,
    MOUND_MAY_TAKE = 2,
    MOUND_MAY_PUT_AND_TAKE = 3
};

/* The first word of a record. */
enum mound_kind {
    MOUND_KIND_PUT = 1,
    MOUND_KIND_TAKE = 2, /* a take that was answered with its item */
    MOUND_KIND_EMPTY = 3 /* a take that was answered empty; its key and tag are 0 */
};

/* What a check of records answers for those that it rejects; no refusal has this number. */
#define MOUND_REJECTED 255u

/* The greatest numbers; each shape has 1 or more of everything, and 1 to 2^(depth - 1) cells. Keys and tags start at 0. */
#define MOUND_GREATEST_DEPTH 12u
#define MOUND_GREATEST_THREADS 64u
#define MOUND_GREATEST_THRESHOLD 16u
#define MOUND_GREATEST_KEY 4294967294u
#define MOUND_GREATEST_TAG 65535u
#define MOUND_MOST_TURNS 4096u
#define MOUND_MOST_RECORDS 1024u
#define MOUND_MOST_SCRIPT_BYTES 60000u

/*
 * The bytes of a region of that shape, of one in the old form, whose counters have 32 bits, of a turn in a schedule, of a turn's answer, and
 * of a record.
 */
#define MOUND_REGION_BYTES(depth, cells, threads) \
    (4 * (6 + 4 * (((size_t)1 << (depth)) - 1) + 3 * (size_t)(cells) + 36 * (size_t)(threads)))
#define MOUND_OLD_REGION_BYTES(depth, cells, threads) \
    (4 * (6 + 3 * (((size_t)1 << (depth)) - 1) + 3 * (size_t)(cells) + 33 * (size_t)(threads)))
#define MOUND_TURN_BYTES ((size_t)8)
#define MOUND_ANSWER_BYTES ((size_t)12)
#define MOUND_RECORD_BYTES ((size_t)28)

/*
 * Lays the region out for an empty queue: every byte of it is set. `depth` is the tree's greatest, `cells` are the most items that are
 * held, being put or in a list's hand, `threshold` the failed tries after which a put lets the tree grow; `permissions` has a byte for
 * each thread.
 * Refusals: 1, 2. Cost: a store for each word.
 */
uint32_t mound_layout(uint8_t *region, size_t region_length, uint32_t depth, uint32_t cells, uint32_t threads, uint32_t threshold,
                      const uint8_t *permissions, size_t permissions_length);

/*
 * Begins a put: the item has a cell from now on, and the thread's turns bring it into the queue.
 * Refusals: 7, 3, 4, 8, 9, 10. Cost: that of mound_check, then a thread's record and a cell.
 */
uint32_t mound_put(uint8_t *region, size_t region_length, uint32_t thread, uint32_t key, uint32_t tag);

/*
 * Begins a take of the least item: the thread's turns remove it, put the tree in order and answer it.
 * Refusals: 7, 3, 8, 9. Cost: that of mound_check, then a thread's record.
 */
uint32_t mound_take(uint8_t *region, size_t region_length, uint32_t thread);

/*
 * Begins a take of all items at the tree's root: the thread's turns remove them at once, put the tree in order, and then answer the
 * items one by one, the least of all first. Those behind it may be greater than items that stay.
 * Refusals: 7, 3, 8, 9. Cost: that of mound_check, then a thread's record.
 */
uint32_t mound_list(uint8_t *region, size_t region_length, uint32_t thread);

/*
 * Sets a thread's permission, be the thread busy or idle; no other byte changes. An operation that has not taken effect is withdrawn by
 * the thread's next turn at a place that looks at the permission and finds it lacking.
 * Refusals: 7, 3, 1. Cost: that of mound_check, then a word.
 */
uint32_t mound_permit(uint8_t *region, size_t region_length, uint32_t thread, uint32_t permission);

/*
 * Serves the turns of the schedule, two words each (thread, choice), in order until they end or the accesses made equal `limit`, and
 * writes three words (code, key, tag) to `answers` for each turn served; bytes behind these stay. The choice, modulo the number of
 * leaves, names the leaf that a put tries; at the greatest depth it counts once, and the put goes on from leaf to leaf. Answers three
 * numbers in one, which the functions below take apart; a refused run has served no turn and made no access.
 * Refusals: 7, 6, 5. A turn by itself may be refused 3 or 7, withdrawn, or refused 11, looked at in this order; the run goes on.
 * Cost: that of mound_check, then for each turn one access at most, whatever the size of the region.
 */
uint64_t mound_run(uint8_t *region, size_t region_length, const uint8_t *schedule, size_t schedule_length, uint32_t limit,
                   uint8_t *answers, size_t answers_length);

/*
 * Whether the region is readable: its length is that of its first words, and every field is in its range.
 * Refusal: 7. Cost: the words that have a range are read in order, up to the first that is out of it; the four words of the shape are
 * looked at together, and a thread's tries and waiting levels once more behind its record's last word.
 */
uint32_t mound_check(const uint8_t *region, size_t region_length);

/*
 * Carries a region of the old form over, as earlier versions of this library left it: every byte of `new_region` is set, to the same values,
 * and the high words of the counters to 0; operations under way go on where they stand. `old` is only read. Calls on the new region then
 * answer as those versions would on the old one, up to the first turn that they would refuse 11, which was at a counter of 2^32 - 1. The
 * first four words of either form are the shape, by which MOUND_REGION_BYTES gives the length that `new_region` has to have.
 * Refusals: 7 for `old`, 2 for the length of `new_region`. Cost: that of mound_check for `old`, then a store for each word.
 */
uint32_t mound_convert(const uint8_t *old, size_t old_length, uint8_t *new_region, size_t new_length);

/*
 * Whether what threads of a native build did was what a queue may do. A record is seven words: kind, thread (1 to 64), begin time,
 * answer time, claimed position, key, tag; key and tag are an item's, of an empty 0. Done exactly if each begins before its answer; of
 * two operations of a thread one is answered before the other begins; the positions are 1 to the number of records, each claimed once;
 * an operation that is answered before another begins has the smaller position; and a bag, played in the order of the positions, gives
 * every answer: a put adds its item, a take has the least one, which leaves, an empty finds none. Else MOUND_REJECTED. The records may
 * stand in any order; none at all are done.
 * Refusal: 12, before any comparison. Cost: each record is read at most four times; a put and a take go along a heap of at most 1,024
 * numbers; 12 kB of stack.
 */
uint32_t mound_records(const uint8_t *records, size_t records_length);

/*
 * Cuts a script down, as the script program runs scripts (docs/REFERENCE.md): writes to the start of `out` a script made of lines of this
 * one, in their order and with its three heading lines, that still shows refusal `number` and from which no other single line can be left
 * out without losing it. Lines are tried for removal from the last to the first, over and over until a whole pass removes none; what is
 * left is written as it stands, and bytes of `out` behind it stay. A layout that is refused shows that with no line at all. Answers two
 * numbers in one, which the functions below take apart; a refused call has written nothing.
 * Refusals: 2, 16. 16 also for a line behind a refused layout that cannot be read, though it would not be run, and for a script of more than
 * 60,000 bytes.
 * Cost: each line is read once; a pass over n lines that keeps k copies the script's region at most n times and carries out at most
 * n * (log2(n) + k) lines, none of which checks the region; 385 kB of stack.
 */
uint64_t mound_cut(const uint8_t *script, size_t script_length, uint32_t number, uint8_t *out, size_t out_length);

#ifdef __cplusplus
}
#endif

/* A run's answer: the refusal or 0, the turns served, and the accesses that they made. */
static inline uint32_t mound_run_refusal(uint64_t run) { return (uint32_t)(run & 65535u); }
static inline uint32_t mound_run_turns(uint64_t run) { return (uint32_t)(run >> 16 & 65535u); }
static inline uint32_t mound_run_accesses(uint64_t run) { return (uint32_t)(run >> 32); }

/* The answer of a cut: the refusal or 0, and the length of what was written. */
static inline uint32_t mound_cut_refusal(uint64_t cut) { return (uint32_t)(cut & 4294967295u); }
static inline uint32_t mound_cut_length(uint64_t cut) { return (uint32_t)(cut >> 32); }

/* The word of that index, counted from 0, in a region, a schedule, answers or records; and the word set. */
static inline uint32_t mound_word(const uint8_t *bytes, size_t index)
{
    const uint8_t *at = bytes + 4 * index;
    return (uint32_t)at[0] | (uint32_t)at[1] << 8 | (uint32_t)at[2] << 16 | (uint32_t)at[3] << 24;
}

static inline void mound_set_word(uint8_t *bytes, size_t index, uint32_t value)
{
    uint8_t *at = bytes + 4 * index;
    at[0] = (uint8_t)value;
    at[1] = (uint8_t)(value >> 8);
    at[2] = (uint8_t)(value >> 16);
    at[3] = (uint8_t)(value >> 24);
}

#endif
