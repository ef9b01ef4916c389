/*
 * Trunhoac for a host in C: the event kernel, the chart check and the
 * flattener, and frames for a trace that can still be read after damage.
 *
 * Every call is proved. For any bytes that it is handed it answers, never
 * traps, and writes what documents 01 and 02 say and nothing else. What the
 * proofs count on, and the host owes:
 *
 *   - behind each pointer are as many bytes as its length says (a pointer whose
 *     length is 0 is never followed and may be NULL), or as its type says;
 *   - no two things that one call is lent overlap, and nobody else writes to
 *     them during the call;
 *   - a kernel is first made by trunhoac_fresh, and after that only
 *     trunhoac_command writes to it; a reader is first made by
 *     trunhoac_reader_fresh, and after that only trunhoac_reader_feed does.
 *
 * Nothing is kept between calls but the kernel, the reader and the number of a
 * writer, and these have no pointer in them: they may be copied, stored and
 * moved, and there may be any number of them, each kernel with its own areas
 * and each called whenever its host likes.
 */
#ifndef TRUNHOAC_H
#define TRUNHOAC_H

#include <stddef.h>
#include <stdint.h>
#include <string.h>

#ifdef __cplusplus
extern "C" {
#endif

/* The kernel's memory, of this size and alignment. What it holds is the kernel's own. */
struct trunhoac_kernel {
    uint64_t memory[258];
};

/* The lengths of a record, of a reply and of the four areas that the host lends. */
enum {
    TRUNHOAC_HEAD_BYTES = 8, /* of a record: the command and its arguments; the payload follows */
    TRUNHOAC_RECORD_BYTES = 72,
    TRUNHOAC_REPLY_BYTES = 28,
    TRUNHOAC_PAYLOAD_AREA = 1536,
    TRUNHOAC_TABLE_AREA = 64608, /* the slots 0 to 3 */
    TRUNHOAC_GUARDED_AREA = 32280, /* slot 4 */
    TRUNHOAC_LOG_AREA = 7140
};

/*
 * The most bytes that a chart and a payload have, and the length of one of the slots 0 to 3, which takes the flat table
 * of one plain chart. That of a guarded chart is a whole area, TRUNHOAC_GUARDED_AREA.
 */
enum {
    TRUNHOAC_MOST_CHART_BYTES = 5576,
    TRUNHOAC_MOST_PAYLOAD_BYTES = 64,
    TRUNHOAC_SLOT_BYTES = 16152
};

/* How many of each there are. Objects, by priority, and flags count from 1; timers, slots and side queues from 0. */
enum {
    TRUNHOAC_OBJECTS = 16,
    TRUNHOAC_MOST_DEPTH = 16,
    TRUNHOAC_TIMERS = 16,
    TRUNHOAC_FIRST_TIMER = 128, /* how a NEXT tells timer 0, in the place of a block */
    TRUNHOAC_SLOTS = 5,
    TRUNHOAC_GUARDED_SLOT = 4, /* the one that takes guarded charts, and no other */
    TRUNHOAC_FLAGS = 8, /* of each object */
    TRUNHOAC_SIDE_QUEUES = 8,
    TRUNHOAC_MOST_ASIDE = 8, /* entries of one side queue */
    TRUNHOAC_FIRST_SIGNAL = 4,
    TRUNHOAC_LAST_SIGNAL = 31,
    TRUNHOAC_LAST_GENERATION = 16777215 /* of a block, from 0 on: one that is freed at it is retired */
};

/* The commands. */
enum {
    TRUNHOAC_LOAD = 1,
    TRUNHOAC_START = 2,
    TRUNHOAC_NEW = 3,
    TRUNHOAC_POST = 4,
    TRUNHOAC_POSTFRONT = 5,
    TRUNHOAC_PUBLISH = 6,
    TRUNHOAC_SUBSCRIBE = 7,
    TRUNHOAC_UNSUBSCRIBE = 8,
    TRUNHOAC_HOLD = 9,
    TRUNHOAC_RELEASE = 10,
    TRUNHOAC_DROP = 11,
    TRUNHOAC_NEXT = 12,
    TRUNHOAC_END = 13,
    TRUNHOAC_ARM = 14,
    TRUNHOAC_DISARM = 15,
    TRUNHOAC_TICK = 16,
    TRUNHOAC_READ = 17,
    TRUNHOAC_DRAIN = 18,
    TRUNHOAC_DEFER = 19,
    TRUNHOAC_RECALL = 20,
    TRUNHOAC_FLUSH = 21,
    TRUNHOAC_FLAG = 22
};

/* The first byte of a reply. After a refusal only the reply is written. */
enum {
    TRUNHOAC_DONE = 0,
    TRUNHOAC_FORM = 1,    /* not 72 bytes, unknown command, an unused byte that is not 0 */
    TRUNHOAC_AREA = 2,    /* an area that the command uses has another length */
    TRUNHOAC_RANGE = 3,   /* an argument out of range */
    TRUNHOAC_BUSY = 4,    /* a step is open */
    TRUNHOAC_NOSTEP = 5,  /* none is */
    TRUNHOAC_IDLE = 6,    /* nothing is queued */
    TRUNHOAC_STALE = 7,   /* the handle is stale, the event to be set aside is a timer's */
    TRUNHOAC_ABSENT = 8,  /* the object is not started, the slot is not loaded */
    TRUNHOAC_TAKEN = 9,   /* the object is started, the slot in use, the timer armed */
    TRUNHOAC_FULL = 10,   /* no place in the mailbox, in the side queue */
    TRUNHOAC_DRY = 11,    /* no free block in the pool */
    TRUNHOAC_HOLDS = 12,  /* HOLD at 15, RELEASE at 0 */
    TRUNHOAC_INUSE = 13,  /* DROP of an event that is counted */
    TRUNHOAC_CHART = 14,  /* the chart is refused: the first value is its class */
    TRUNHOAC_TABLE = 15   /* a row that is read is not sound */
};

/*
 * What the bytes of a reply are. The actions stand in the order in which they
 * are carried out. A transition's own action comes before every exit; then
 * come the exits, the entries, and the initial transitions.
 */
enum {
    TRUNHOAC_AT_NUMBER = 0,
    TRUNHOAC_AT_OBJECT = 1,
    TRUNHOAC_AT_OUTCOME = 2, /* outcome * 32 + signal: trunhoac_outcome, trunhoac_signal */
    TRUNHOAC_AT_COUNT = 3, /* of NEW: its pool's mark, trunhoac_least_free_in */
    TRUNHOAC_AT_VALUES = 4,
    TRUNHOAC_AT_ACTIONS = 6,
    TRUNHOAC_AT_HANDLE = 24 /* of NEW and NEXT, otherwise zeros: trunhoac_handle_in, trunhoac_timer_in */
};

/* Makes a fresh kernel, whatever the memory held. */
void trunhoac_fresh(struct trunhoac_kernel *kernel);

/*
 * Answers a record of any length. The chart is read by LOAD alone; the areas
 * may have any length, and a command that uses one of another length than its
 * own is refused. The guarded table is used by a LOAD or START of slot 4, by a
 * NEXT where the most urgent object with mail runs on that slot, and by every
 * DRAIN; each of them uses the other tables too.
 */
void trunhoac_command(struct trunhoac_kernel *kernel,
                      const uint8_t *record, size_t record_length,
                      const uint8_t *chart, size_t chart_length,
                      uint8_t *payloads, size_t payloads_length,
                      uint8_t *tables, size_t tables_length,
                      uint8_t *guarded, size_t guarded_length,
                      uint8_t *log, size_t log_length,
                      uint8_t reply[TRUNHOAC_REPLY_BYTES]);

/*
 * Writes where in the payload area the payload begins that a READ record hands
 * back, and how long it is: 0 and 0 when the READ is refused, and for any
 * other record. What it names lies within the area.
 */
void trunhoac_read(const struct trunhoac_kernel *kernel,
                   const uint8_t *record, size_t record_length,
                   const uint8_t *payloads, size_t payloads_length,
                   size_t *place, size_t *length);

/*
 * Charts have two editions. A plain chart has up to 24 states, and is loaded
 * into one of the slots 0 to 3. A guarded chart has up to 8, and is loaded into
 * slot 4; byte 6 of its rows is 0 or names a flag, 1 to 8. While that flag of
 * the object is down, the chart is read as if the row were not there. So a
 * plain chart of up to 8 states is a guarded one too, and does the same there.
 *
 * A slot has one flat row for each state and signal. The guarded table has six,
 * with the flag of each in its byte 21: for the chart's rows from the state
 * outward, as far as the first without a flag, and then zeros.
 *
 * The chart check and the flattener of each edition answer 0 for a good chart,
 * else the lowest class of its faults:
 *
 *   1  the length is 0, not a multiple of 8, or above 5,576
 *   2  an unknown record kind, kinds out of order, a filler byte that is not 0
 *      (byte 6 of a plain chart's row is one), no state or more than 24, in a
 *      guarded chart more than 8
 *   3  a fault of the states: parent, level, initial target or action, a parent
 *      without an initial target, top target
 *   4  a fault of the rows: state, signal, kind, target, a flag above 8, or
 *      their order
 *   5  only from the flattener: the chart is good, but the slot or the guarded
 *      table has another length
 *
 * The flattener writes the whole slot, or table, when it answers 0, and
 * otherwise nothing.
 */
uint32_t chart_check(const uint8_t *chart, size_t chart_length);

uint32_t chart_flatten(const uint8_t *chart, size_t chart_length,
                       uint8_t *slot, size_t slot_length);

uint32_t chart_check_guarded(const uint8_t *chart, size_t chart_length);

uint32_t chart_flatten_guarded(const uint8_t *chart, size_t chart_length,
                               uint8_t *table, size_t table_length);

/*
 * ---- Frames ----
 *
 * A frame is a number, a record number, data and a check byte, escaped, with
 * 0x7E behind them. After damage of any kind every intact frame behind the next
 * 0x7E is read again.
 */

enum {
    TRUNHOAC_FRAME_DATA = 93,  /* the most bytes of data */
    TRUNHOAC_FRAME_BYTES = 193 /* the longest frame as it is sent: an area of so many bytes has room for any */
};

/*
 * Writes a frame at the front of an area, with a record number of the host's
 * choice. Answers how many bytes it has, and the number is then that of the
 * next: one higher, 0 after 255. A trace begins with the number 0.
 *
 * With more than 93 bytes of data, or too little room, it is refused: it
 * answers 0, writes nothing, and the number stays.
 */
size_t trunhoac_frame_write(uint8_t *number, uint8_t kind,
                            const uint8_t *data, size_t data_length,
                            uint8_t *area, size_t area_length);

/* The reader's memory, of this size. What it holds is the reader's own. */
struct trunhoac_reader {
    uint8_t memory[100];
};

/* What a reader tells of a frame; all of it is 0 where none was completed. */
struct trunhoac_frame {
    uint8_t complete; /* 1 for a frame */
    uint8_t number;
    uint8_t kind; /* its record number */
    uint8_t gap;  /* 1 if the number does not follow that of the frame before it: something is missing */
    uint8_t size; /* how many bytes of data it has */
    uint8_t data[TRUNHOAC_FRAME_DATA];
};

/* Makes a reader that has read nothing, whatever the memory held. */
void trunhoac_reader_fresh(struct trunhoac_reader *reader);

/*
 * Reads a piece of the input, which may be cut anywhere: up to and with the
 * first byte that completes a frame, else all of it. `read` is then how many
 * bytes that were, one at least where there is one, and the host feeds the rest:
 *
 *     while (length > 0) {
 *         trunhoac_reader_feed(&reader, piece, length, &read, &frame);
 *         if (frame.complete)
 *             take(&frame);
 *         piece += read;
 *         length -= read;
 *     }
 *
 * What is no frame is passed over in silence, and the next frame tells the gap;
 * none is told at the first. A damaged frame whose check byte fits may pass.
 * What stands behind the last 0x7E is no frame yet.
 */
void trunhoac_reader_feed(struct trunhoac_reader *reader,
                          const uint8_t *piece, size_t piece_length,
                          size_t *read, struct trunhoac_frame *frame);

/*
 * A handle, as its four bytes stand in records and replies: an event's block,
 * and how often that block was freed before. NEW answers it, and NEXT too where
 * the event is no timer's.
 *
 * It goes stale when its event is freed, and every command that names it is
 * then refused for ever: no event of the kernel gets the same handle again. For
 * that a block which is freed at the last generation is retired. The answer
 * says freed as for any block, but the block is never handed out again, and
 * counts as taken when its pool runs dry and in its mark.
 */
struct trunhoac_handle {
    uint8_t block;
    uint8_t generation[3]; /* low byte first: trunhoac_generation_of */
};

static inline uint32_t trunhoac_generation_of(struct trunhoac_handle event)
{
    return event.generation[0] | (uint32_t)event.generation[1] << 8 | (uint32_t)event.generation[2] << 16;
}

/* ---- What a reply says ---- */

static inline struct trunhoac_handle trunhoac_handle_in(const uint8_t *reply)
{
    const uint8_t *bytes = reply + TRUNHOAC_AT_HANDLE;
    struct trunhoac_handle handle = {bytes[0], {bytes[1], bytes[2], bytes[3]}};
    return handle;
}

/*
 * Of NEW: its pool's mark. That is the least number of free blocks that the
 * pool has had since the fresh start; the block just taken counts as taken, and
 * so do those that are retired.
 */
static inline uint8_t trunhoac_least_free_in(const uint8_t *reply)
{
    return reply[TRUNHOAC_AT_COUNT];
}

/* Of NEXT: the timer whose event it is, or -1 where the event has a handle. */
static inline int trunhoac_timer_in(const uint8_t *reply)
{
    int block = reply[TRUNHOAC_AT_HANDLE];
    return block < TRUNHOAC_FIRST_TIMER ? -1 : block - TRUNHOAC_FIRST_TIMER;
}

/* 0 ignored, 1 internal, 2 a transition. */
static inline uint8_t trunhoac_outcome(const uint8_t *reply)
{
    return reply[TRUNHOAC_AT_OUTCOME] / 32;
}

static inline uint8_t trunhoac_signal(const uint8_t *reply)
{
    return reply[TRUNHOAC_AT_OUTCOME] % 32;
}

/* ---- Records: each function fills one with a command, and returns it; p is a priority, q a side queue ---- */

static inline const uint8_t *trunhoac_fill(uint8_t *record, uint8_t command,
                                           uint8_t first, uint8_t second, uint8_t third, uint8_t fourth)
{
    memset(record, 0, TRUNHOAC_RECORD_BYTES);
    record[0] = command;
    record[1] = first;
    record[2] = second;
    record[3] = third;
    record[4] = fourth;
    return record;
}

/* For the commands that name an event: its handle, and what stands behind that. */
static inline const uint8_t *trunhoac_fill_event(uint8_t *record, uint8_t command, struct trunhoac_handle event,
                                                 uint8_t p, uint8_t margin)
{
    trunhoac_fill(record, command, event.block, event.generation[0], event.generation[1], event.generation[2]);
    record[5] = p;
    record[6] = margin;
    return record;
}

static inline const uint8_t *trunhoac_fill_load(uint8_t *record, uint8_t slot)
{
    return trunhoac_fill(record, TRUNHOAC_LOAD, slot, 0, 0, 0);
}

static inline const uint8_t *trunhoac_fill_start(uint8_t *record, uint8_t p, uint8_t slot, uint8_t depth)
{
    return trunhoac_fill(record, TRUNHOAC_START, p, slot, depth, 0);
}

/* A size above 64 is refused by the kernel; the payload is then not read. */
static inline const uint8_t *trunhoac_fill_new(uint8_t *record, uint8_t signal, const uint8_t *payload, uint8_t size)
{
    trunhoac_fill(record, TRUNHOAC_NEW, signal, size, 0, 0);
    if (size > 0 && size <= TRUNHOAC_MOST_PAYLOAD_BYTES)
        memcpy(record + TRUNHOAC_HEAD_BYTES, payload, size);
    return record;
}

static inline const uint8_t *trunhoac_fill_post(uint8_t *record, struct trunhoac_handle event,
                                                uint8_t p, uint8_t margin)
{
    return trunhoac_fill_event(record, TRUNHOAC_POST, event, p, margin);
}

static inline const uint8_t *trunhoac_fill_postfront(uint8_t *record, struct trunhoac_handle event, uint8_t p)
{
    return trunhoac_fill_event(record, TRUNHOAC_POSTFRONT, event, p, 0);
}

static inline const uint8_t *trunhoac_fill_publish(uint8_t *record, struct trunhoac_handle event)
{
    return trunhoac_fill_event(record, TRUNHOAC_PUBLISH, event, 0, 0);
}

static inline const uint8_t *trunhoac_fill_subscribe(uint8_t *record, uint8_t p, uint8_t signal)
{
    return trunhoac_fill(record, TRUNHOAC_SUBSCRIBE, p, signal, 0, 0);
}

static inline const uint8_t *trunhoac_fill_unsubscribe(uint8_t *record, uint8_t p, uint8_t signal)
{
    return trunhoac_fill(record, TRUNHOAC_UNSUBSCRIBE, p, signal, 0, 0);
}

static inline const uint8_t *trunhoac_fill_hold(uint8_t *record, struct trunhoac_handle event)
{
    return trunhoac_fill_event(record, TRUNHOAC_HOLD, event, 0, 0);
}

static inline const uint8_t *trunhoac_fill_release(uint8_t *record, struct trunhoac_handle event)
{
    return trunhoac_fill_event(record, TRUNHOAC_RELEASE, event, 0, 0);
}

static inline const uint8_t *trunhoac_fill_drop(uint8_t *record, struct trunhoac_handle event)
{
    return trunhoac_fill_event(record, TRUNHOAC_DROP, event, 0, 0);
}

static inline const uint8_t *trunhoac_fill_next(uint8_t *record)
{
    return trunhoac_fill(record, TRUNHOAC_NEXT, 0, 0, 0, 0);
}

static inline const uint8_t *trunhoac_fill_end(uint8_t *record)
{
    return trunhoac_fill(record, TRUNHOAC_END, 0, 0, 0, 0);
}

static inline const uint8_t *trunhoac_fill_arm(uint8_t *record, uint8_t timer, uint8_t p, uint8_t signal,
                                               uint16_t ticks, uint16_t interval)
{
    trunhoac_fill(record, TRUNHOAC_ARM, timer, p, signal, (uint8_t)ticks);
    record[5] = (uint8_t)(ticks >> 8);
    record[6] = (uint8_t)interval;
    record[7] = (uint8_t)(interval >> 8);
    return record;
}

static inline const uint8_t *trunhoac_fill_disarm(uint8_t *record, uint8_t timer)
{
    return trunhoac_fill(record, TRUNHOAC_DISARM, timer, 0, 0, 0);
}

static inline const uint8_t *trunhoac_fill_tick(uint8_t *record)
{
    return trunhoac_fill(record, TRUNHOAC_TICK, 0, 0, 0, 0);
}

static inline const uint8_t *trunhoac_fill_read(uint8_t *record, struct trunhoac_handle event)
{
    return trunhoac_fill_event(record, TRUNHOAC_READ, event, 0, 0);
}

static inline const uint8_t *trunhoac_fill_drain(uint8_t *record, uint8_t budget)
{
    return trunhoac_fill(record, TRUNHOAC_DRAIN, budget, 0, 0, 0);
}

/* The event in hand is set aside, and the step stays open. END frees no event that is set aside. */
static inline const uint8_t *trunhoac_fill_defer(uint8_t *record, uint8_t q)
{
    return trunhoac_fill(record, TRUNHOAC_DEFER, q, 0, 0, 0);
}

/* The oldest entry goes to the front of p's mailbox. Where nothing is set aside, that is no refusal: the value is 0. */
static inline const uint8_t *trunhoac_fill_recall(uint8_t *record, uint8_t q, uint8_t p)
{
    return trunhoac_fill(record, TRUNHOAC_RECALL, q, p, 0, 0);
}

static inline const uint8_t *trunhoac_fill_flush(uint8_t *record, uint8_t q)
{
    return trunhoac_fill(record, TRUNHOAC_FLUSH, q, 0, 0, 0);
}

/*
 * A flag of p is put up by 1 and down by 0; the value is 1 if that changed it. An object, whatever its slot, starts
 * with its flags down, and they stay as they are while a step is open: FLAG is refused then.
 */
static inline const uint8_t *trunhoac_fill_flag(uint8_t *record, uint8_t p, uint8_t flag, uint8_t up)
{
    return trunhoac_fill(record, TRUNHOAC_FLAG, p, flag, up, 0);
}

#ifdef __cplusplus
}
#endif

#endif
