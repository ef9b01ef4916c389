/*
 * Layouts: the kernel's struct as crates/state, mail, tick and pool declare it, and the reader's as crates/frame does, held
 * against the header and the library.
 *
 * Values are looked for at the first and at the last element of each array.
 */
#include "test.h"

enum { BLOCKS = 56, POOLS = 3, OBJECTS = 16, PLACES = 16, SIDES = 8, SIGNAL_PLACES = 32, TIMERS = 16 };
enum { SLOTS = 5, FLAGS = 8 };
enum { RETIRED = 0xFFFF }; /* the count of a retired block, and of no live one */
enum { UNESCAPED = 96 }; /* the most bytes of a frame, unescaped */

struct pool {
    uint64_t free; /* the digit of each block that is free */
    uint32_t generations[BLOCKS];
    uint16_t counts[BLOCKS]; /* of a live block: its references */
    uint8_t marks[POOLS]; /* of each pool: the least number of its blocks that were free */
};

struct ring {
    uint16_t places[PLACES]; /* 1 + b is block b, 64 + 32 t + g timer t with signal g */
    uint8_t head;
    uint8_t count;
};

struct timer {
    uint8_t owner;
    uint8_t alarm;
    uint16_t counter;
    uint16_t interval;
};

struct kernel {
    struct ring mail[OBJECTS];
    struct ring sides[SIDES]; /* blocks alone */
    uint8_t wants[OBJECTS * SIGNAL_PLACES];
    uint64_t flags[FLAGS]; /* of each flag: the digit of each object whose flag is up, by its priority */
    uint8_t signals[BLOCKS];
    uint8_t sizes[BLOCKS];
    uint8_t holds[BLOCKS];
    uint8_t depths[OBJECTS];
    uint8_t seats[OBJECTS];
    uint8_t rests[OBJECTS];
    struct timer timers[TIMERS];
    uint16_t hand;
    uint8_t loaded[SLOTS];
    struct pool pool;
};

_Static_assert(sizeof(struct kernel) == sizeof(struct trunhoac_kernel), "the header gives the kernel its size");
_Static_assert(_Alignof(struct kernel) == _Alignof(struct trunhoac_kernel), "and its alignment");

struct reader {
    uint8_t bytes[UNESCAPED];
    uint8_t length;
    uint8_t escaped;
    uint8_t any; /* whether a frame was handed out, and the last one's number */
    uint8_t last;
};

_Static_assert(sizeof(struct reader) == sizeof(struct trunhoac_reader), "the header gives the reader its size");
_Static_assert(_Alignof(struct trunhoac_reader) == 1, "and no alignment");
_Static_assert(sizeof(struct trunhoac_frame) == 5 + TRUNHOAC_FRAME_DATA, "a frame is told without gaps");
_Static_assert(offsetof(struct trunhoac_frame, complete) == 0 && offsetof(struct trunhoac_frame, number) == 1
                   && offsetof(struct trunhoac_frame, kind) == 2 && offsetof(struct trunhoac_frame, gap) == 3
                   && offsetof(struct trunhoac_frame, size) == 4 && offsetof(struct trunhoac_frame, data) == 5,
               "and in this order");

static const struct trunhoac_handle first_block = {.block = 0};
static const struct trunhoac_handle second_block = {.block = 1};
static const struct trunhoac_handle last_block = {.block = BLOCKS - 1};

static uint8_t record[TRUNHOAC_RECORD_BYTES];
static struct kernel k; /* as the library left it */

/* Two stretches of fields that have no gap in them; what lies behind each is nobody's. */
enum {
    BEFORE_POOL = offsetof(struct kernel, loaded) + sizeof k.loaded,
    POOL = offsetof(struct kernel, pool),
    POOL_END = POOL + offsetof(struct pool, marks) + sizeof k.pool.marks
};

_Static_assert(POOL + sizeof k.pool == sizeof k, "no field behind the pool");

static void take_kernel(void)
{
    memcpy(&k, lent_kernel(), sizeof k);
}

void set_generation(size_t block, uint32_t generation)
{
    take_kernel();
    k.pool.generations[block] = generation;
    memcpy(lent_kernel(), &k, sizeof k);
}

static bool same_bytes(size_t from, size_t to)
{
    return memcmp((const uint8_t *)&k + from, (const uint8_t *)lent_kernel() + from, to - from) == 0;
}

static bool is_free(unsigned block)
{
    return k.pool.free >> block & 1;
}

static void done(const uint8_t *filled)
{
    expect(command(filled, TRUNHOAC_RECORD_BYTES, &two_states)[0] == TRUNHOAC_DONE, "the command is done");
    take_kernel();
}

/* A byte that a fresh start did not write would differ by the fill. */
static void test_fresh(void)
{
    lend_fresh(FILL);
    take_kernel();
    lend_fresh(FILL / 2);
    expect(same_bytes(0, BEFORE_POOL) && same_bytes(POOL, POOL_END), "a fresh start writes every byte");
    expect(k.pool.free == ((uint64_t)1 << BLOCKS) - 1, "every block is free");
}

/* The last block is handed out when its whole pool is. */
static void make_first_and_last(void)
{
    static const uint8_t payload[TRUNHOAC_MOST_PAYLOAD_BYTES] = {0};

    done(trunhoac_fill_new(record, 4, payload, 16));
    for (int block = 48; block < BLOCKS; block++)
        done(trunhoac_fill_new(record, 31, payload, sizeof payload));
}

static void test_blocks(void)
{
    lend_fresh(FILL);
    make_first_and_last();
    expect(k.signals[0] == 4 && k.signals[BLOCKS - 1] == 31, "signals");
    expect(k.sizes[0] == 16 && k.sizes[BLOCKS - 1] == 64, "sizes");
    expect(k.pool.counts[0] == 0 && k.pool.counts[BLOCKS - 1] == 0, "new blocks");
    expect(!is_free(0) && is_free(1) && is_free(47) && !is_free(48) && !is_free(BLOCKS - 1), "blocks that are no longer free");

    done(trunhoac_fill_hold(record, first_block));
    done(trunhoac_fill_hold(record, last_block));
    done(trunhoac_fill_hold(record, last_block));
    expect(k.holds[0] == 1 && k.holds[BLOCKS - 1] == 2, "holds");
    expect(k.pool.counts[0] == 1 && k.pool.counts[BLOCKS - 1] == 2, "references");

    done(trunhoac_fill_release(record, first_block));
    done(trunhoac_fill_release(record, last_block));
    expect(k.pool.generations[0] == 1 && k.pool.generations[BLOCKS - 1] == 0, "generations");
    expect(is_free(0) && !is_free(BLOCKS - 1) && k.pool.counts[BLOCKS - 1] == 1, "a block that is free, and one that is not");
}

/* A generation has the bytes that a handle has. A block that is let go at the last one is retired. */
static void test_generations(void)
{
    static const struct trunhoac_handle first = {0, {3, 2, 1}}, last = {BLOCKS - 1, {255, 255, 255}};

    lend_fresh(FILL);
    set_generation(0, 0x010203);
    set_generation(BLOCKS - 1, TRUNHOAC_LAST_GENERATION);
    make_first_and_last();
    done(trunhoac_fill_drop(record, first));
    done(trunhoac_fill_drop(record, last));
    expect(k.pool.generations[0] == 0x010204 && is_free(0), "a block that is freed is one generation on");
    expect(k.pool.generations[BLOCKS - 1] == TRUNHOAC_LAST_GENERATION, "the generation of a block that is retired stays");
    expect(!is_free(BLOCKS - 1) && k.pool.counts[BLOCKS - 1] == RETIRED, "and the block is not free");
}

static void expect_marks(uint8_t small, uint8_t middle, uint8_t large)
{
    expect(k.pool.marks[0] == small && k.pool.marks[1] == middle && k.pool.marks[2] == large, "the pools' marks");
}

/* Of each pool the least number of free blocks: a NEW moves the mark of one, and freeing none. */
static void test_marks(void)
{
    static const uint8_t payload[TRUNHOAC_MOST_PAYLOAD_BYTES] = {0};

    lend_fresh(FILL);
    take_kernel();
    expect_marks(32, 16, 8);
    done(trunhoac_fill_new(record, 4, payload, 16));
    done(trunhoac_fill_new(record, 4, payload, 16));
    expect_marks(30, 16, 8);
    done(trunhoac_fill_new(record, 4, payload, sizeof payload));
    expect_marks(30, 16, 7);
    done(trunhoac_fill_drop(record, first_block));
    done(trunhoac_fill_drop(record, second_block));
    expect_marks(30, 16, 7);
    done(trunhoac_fill_new(record, 4, payload, 16)); /* 31 are free */
    done(trunhoac_fill_new(record, 4, payload, 32));
    expect_marks(30, 15, 7);
}

/* A fresh kernel with the objects 1 and 16 on the charts of the slots 0 and 4. */
static void start_objects(void)
{
    lend_fresh(FILL);
    done(trunhoac_fill_load(record, 0));
    done(trunhoac_fill_load(record, SLOTS - 1));
    done(trunhoac_fill_start(record, 1, 0, 2));
    done(trunhoac_fill_start(record, OBJECTS, SLOTS - 1, PLACES));
}

static void test_objects(void)
{
    start_objects();
    expect(k.loaded[0] == 1 && k.loaded[1] == 0 && k.loaded[SLOTS - 1] == 1, "loaded slots");
    expect(k.depths[0] == 2 && k.depths[1] == 0 && k.depths[OBJECTS - 1] == PLACES, "depths");
    expect(k.rests[0] == 1 && k.rests[1] == 0 && k.rests[OBJECTS - 1] == 1, "states of rest");
    expect(k.seats[0] == 0 && k.seats[OBJECTS - 1] == SLOTS - 1, "the objects' slots");

    done(trunhoac_fill_subscribe(record, 1, 4));
    done(trunhoac_fill_subscribe(record, OBJECTS, 31));
    expect(k.wants[4] == 1 && k.wants[5] == 0, "the first subscription");
    expect(k.wants[OBJECTS * SIGNAL_PLACES - 1] == 1, "the last subscription");
}

static uint64_t digit_of(unsigned object)
{
    return (uint64_t)1 << object;
}

static void test_flags(void)
{
    start_objects();
    done(trunhoac_fill_flag(record, 1, 1, 1));
    done(trunhoac_fill_flag(record, OBJECTS, 1, 1));
    done(trunhoac_fill_flag(record, OBJECTS, FLAGS, 1));
    expect(k.flags[0] == (digit_of(1) | digit_of(OBJECTS)), "the first flag, up at the first object and at the last");
    expect(k.flags[1] == 0 && k.flags[FLAGS - 1] == digit_of(OBJECTS), "the last flag");
    done(trunhoac_fill_flag(record, 1, 1, 0));
    expect(k.flags[0] == digit_of(OBJECTS), "the first object's is down again");
}

/* The entries of a ring stand from its head on. */
static uint16_t entry(const struct ring *ring, size_t from_front)
{
    return ring->places[(ring->head + from_front) % PLACES];
}

/* The first block at both objects, and the second behind it at object 16. */
static void queue_blocks(void)
{
    start_objects();
    done(trunhoac_fill_new(record, 6, NULL, 0));
    done(trunhoac_fill_new(record, 7, NULL, 0));
    done(trunhoac_fill_post(record, first_block, 1, 0));
    done(trunhoac_fill_post(record, first_block, OBJECTS, 0));
    done(trunhoac_fill_post(record, second_block, OBJECTS, 0));
}

static void test_mail(void)
{
    queue_blocks();
    expect(k.mail[0].count == 1 && k.mail[1].count == 0 && k.mail[OBJECTS - 1].count == 2, "how many are queued");
    expect(entry(&k.mail[0], 0) == 1, "the first mailbox");
    expect(entry(&k.mail[OBJECTS - 1], 0) == 1 && entry(&k.mail[OBJECTS - 1], 1) == 2, "the last mailbox");
    uint8_t head = k.mail[OBJECTS - 1].head;

    done(trunhoac_fill_next(record));
    expect(k.hand == 1, "the block in hand");
    expect(k.mail[OBJECTS - 1].head == (head + 1) % PLACES && k.mail[OBJECTS - 1].count == 1, "the front entry has left");
    expect(k.rests[OBJECTS - 1] == 2 && k.rests[0] == 1, "the new state of rest");
    done(trunhoac_fill_end(record));
    expect(k.hand == 0, "nothing is in hand");
}

static void test_side_queues(void)
{
    queue_blocks();
    done(trunhoac_fill_next(record));
    done(trunhoac_fill_defer(record, 0));
    done(trunhoac_fill_defer(record, SIDES - 1));
    expect(k.hand == 1, "the block is still in hand");
    expect(k.pool.counts[0] == 4, "at object 1, in hand, and set aside twice");
    done(trunhoac_fill_end(record));
    done(trunhoac_fill_next(record));
    done(trunhoac_fill_defer(record, SIDES - 1));
    expect(k.sides[0].count == 1 && k.sides[1].count == 0 && k.sides[SIDES - 1].count == 2, "how many are set aside");
    expect(entry(&k.sides[0], 0) == 1, "the first side queue");
    expect(entry(&k.sides[SIDES - 1], 0) == 1 && entry(&k.sides[SIDES - 1], 1) == 2, "the last side queue");
    uint8_t head = k.sides[SIDES - 1].head;

    done(trunhoac_fill_recall(record, SIDES - 1, OBJECTS));
    expect(k.sides[SIDES - 1].head == (head + 1) % PLACES && k.sides[SIDES - 1].count == 1, "the oldest has left");
    expect(entry(&k.mail[OBJECTS - 1], 0) == 1, "and is at the front of the last mailbox");
    expect(k.pool.counts[0] == 3, "which changes no count");
    done(trunhoac_fill_flush(record, SIDES - 1));
    expect(k.sides[SIDES - 1].count == 0 && k.sides[0].count == 1, "one side queue is empty, the other is as it was");
    expect(k.pool.counts[1] == 1, "the second block is in hand alone");
}

static void test_timers(void)
{
    enum { LAST_ENTRY = 64 + 32 * (TIMERS - 1) + 31 };

    start_objects();
    done(trunhoac_fill_arm(record, 0, 1, 4, 0x1234, 0x5678));
    done(trunhoac_fill_arm(record, TIMERS - 1, OBJECTS, 31, 1, 0x9abc));
    expect(k.timers[0].owner == 1 && k.timers[TIMERS - 1].owner == OBJECTS, "the timers' objects");
    expect(k.timers[0].alarm == 4 && k.timers[TIMERS - 1].alarm == 31, "their signals");
    expect(k.timers[0].counter == 0x1234 && k.timers[TIMERS - 1].counter == 1, "their ticks");
    expect(k.timers[0].interval == 0x5678 && k.timers[TIMERS - 1].interval == 0x9abc, "their intervals");

    done(trunhoac_fill_tick(record));
    expect(k.timers[0].counter == 0x1233 && k.timers[TIMERS - 1].counter == 0x9abc, "the ticks that are left");
    expect(entry(&k.mail[OBJECTS - 1], 0) == LAST_ENTRY, "a timer's entry");
    done(trunhoac_fill_next(record));
    expect(k.hand == LAST_ENTRY, "the timer in hand");
}

/* The reader as the library left it after a piece; a byte that a fresh start did not write would differ by the fill. */
static struct reader reader_after(uint8_t fill, const uint8_t *piece, size_t length)
{
    struct reader r;
    size_t read;
    const struct trunhoac_reader *kept = lend_reader(fill);

    if (length > 0)
        feed(piece, length, &read);
    memcpy(&r, kept, sizeof r);
    return r;
}

static void test_reader(void)
{
    static const uint8_t frame[] = {9, 1, 245, 0x7E, 3, 4, 0x7D};
    uint8_t longest[UNESCAPED];
    struct reader r = reader_after(FILL, NULL, 0), other = reader_after(FILL / 2, NULL, 0);

    expect(memcmp(&r, &other, sizeof r) == 0, "a fresh start writes every byte of the reader");
    r = reader_after(FILL, frame, 3);
    expect(r.bytes[0] == 9 && r.bytes[1] == 1 && r.bytes[2] == 245 && r.length == 3 && r.escaped == 0, "what has come");
    expect(r.any == 0, "no frame was handed out");
    r = reader_after(FILL, frame, 4);
    expect(r.length == 0 && r.any == 1 && r.last == 9, "one was, and its number");
    r = reader_after(FILL, frame + 4, 3);
    expect(r.length == 2 && r.escaped == 1, "an escape");
    for (uint8_t i = 0; i < sizeof longest; i++)
        longest[i] = i + 1;
    r = reader_after(FILL, longest, sizeof longest);
    expect(r.bytes[0] == 1 && r.bytes[UNESCAPED - 1] == UNESCAPED && r.length == UNESCAPED, "the most that can come");
}

void test_layout(void)
{
    now_at("layout", 0);
    test_fresh();
    test_blocks();
    test_generations();
    test_marks();
    test_objects();
    test_flags();
    test_mail();
    test_side_queues();
    test_timers();
    test_reader();
}
