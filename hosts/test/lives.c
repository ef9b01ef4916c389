/*
 * The lives of a block: its handles of before are refused for ever, and it is retired when it is freed at its last
 * generation.
 *
 * To come near that, a generation is written into the kernel: commands would make the same kernel, but take long.
 */
#include "test.h"

enum { SMALL_BLOCKS = 32, FIRST_LARGE_BLOCK = 48, LAST_LARGE_BLOCK = 55 };

enum { LAST = TRUNHOAC_LAST_GENERATION, LIVES = 300, MOVES = 6, OBJECT = 1, DEPTH = 2 };

static const uint8_t payload[TRUNHOAC_MOST_PAYLOAD_BYTES] = {0};
static uint8_t record[TRUNHOAC_RECORD_BYTES];
static const uint8_t *reply; /* to the last record */

static bool is_answered(const uint8_t *filled, uint8_t number)
{
    reply = command(filled, TRUNHOAC_RECORD_BYTES, &two_states);
    return reply[TRUNHOAC_AT_NUMBER] == number;
}

static void done(const uint8_t *filled)
{
    expect(is_answered(filled, TRUNHOAC_DONE), "the command is done");
}

static void done_with(const uint8_t *filled, uint8_t first, uint8_t second, const char *what)
{
    done(filled);
    expect(reply[TRUNHOAC_AT_VALUES] == first && reply[TRUNHOAC_AT_VALUES + 1] == second, what);
}

static bool stale(const uint8_t *filled)
{
    return is_answered(filled, TRUNHOAC_STALE);
}

/* Every command that names the event is refused. */
static void expect_stale(struct trunhoac_handle event)
{
    expect(stale(trunhoac_fill_post(record, event, OBJECT, 0)), "POST of a stale handle");
    expect(stale(trunhoac_fill_postfront(record, event, OBJECT)), "POSTFRONT of a stale handle");
    expect(stale(trunhoac_fill_publish(record, event)), "PUBLISH of a stale handle");
    expect(stale(trunhoac_fill_hold(record, event)), "HOLD of a stale handle");
    expect(stale(trunhoac_fill_release(record, event)), "RELEASE of a stale handle");
    expect(stale(trunhoac_fill_drop(record, event)), "DROP of a stale handle");
    expect(stale(trunhoac_fill_read(record, event)), "READ of a stale handle");
}

/* A fresh kernel with an object, and with block 0 at this generation. */
static void begin_at(uint32_t generation)
{
    lend_fresh(FILL);
    set_generation(0, generation);
    done(trunhoac_fill_load(record, 0));
    done(trunhoac_fill_start(record, OBJECT, 0, DEPTH));
}

/* Makes an event, which must take this block at this generation, and answers its handle. */
static struct trunhoac_handle make(uint8_t size, uint8_t block, uint32_t generation)
{
    done(trunhoac_fill_new(record, MOVES, payload, size));
    struct trunhoac_handle event = trunhoac_handle_in(reply);
    expect(event.block == block && trunhoac_generation_of(event) == generation, "the handle of NEW");
    return event;
}

static void expect_least_free(int blocks)
{
    expect(trunhoac_least_free_in(reply) == blocks, "the mark");
}

/* In the end every handle of before is refused, that of 256 lives ago too. */
static void test_many_lives(void)
{
    struct trunhoac_handle events[LIVES];

    begin_at(0);
    events[0] = make(0, 0, 0);
    for (uint32_t life = 1; life < LIVES; life++) {
        done(trunhoac_fill_drop(record, events[life - 1]));
        events[life] = make(0, 0, life);
    }
    for (uint32_t life = 0; life < LIVES - 1; life++)
        expect_stale(events[life]);
    done(trunhoac_fill_read(record, events[LIVES - 1]));
}

/* Each byte of a generation counts. */
static void test_bytes(void)
{
    begin_at(0x030201);
    struct trunhoac_handle event = make(0, 0, 0x030201);
    for (size_t i = 0; i < sizeof event.generation; i++) {
        struct trunhoac_handle other = event;
        other.generation[i]++;
        expect_stale(other);
    }
    done(trunhoac_fill_read(record, event));
}

/* The next generation is one higher, whatever bytes that changes. */
static void test_next(uint32_t generation)
{
    begin_at(generation);
    struct trunhoac_handle event = make(0, 0, generation);
    done(trunhoac_fill_drop(record, event));
    expect_stale(event);
    make(0, 0, generation + 1);
    expect_stale(event);
}

/* The ways to free a new event, each with the answer that says so. */
static void free_by_end(struct trunhoac_handle event)
{
    done(trunhoac_fill_post(record, event, OBJECT, 0));
    done(trunhoac_fill_next(record));
    struct trunhoac_handle in_hand = trunhoac_handle_in(reply);
    expect(memcmp(&in_hand, &event, sizeof event) == 0, "the handle of NEXT");
    done_with(trunhoac_fill_end(record), 1, 0, "END frees it");
}

static void free_by_release(struct trunhoac_handle event)
{
    done(trunhoac_fill_hold(record, event));
    done(trunhoac_fill_hold(record, event));
    done_with(trunhoac_fill_release(record, event), 1, 0, "RELEASE does not free it while it is held");
    done_with(trunhoac_fill_release(record, event), 0, 1, "RELEASE frees it");
}

static void free_by_drop(struct trunhoac_handle event)
{
    done(trunhoac_fill_drop(record, event));
}

static void free_by_publish(struct trunhoac_handle event)
{
    done_with(trunhoac_fill_publish(record, event), 0, 1, "PUBLISH frees what nobody wants");
}

static void free_by_flush(struct trunhoac_handle event)
{
    done(trunhoac_fill_post(record, event, OBJECT, 0));
    done(trunhoac_fill_next(record));
    done(trunhoac_fill_defer(record, 0));
    done(trunhoac_fill_defer(record, 0));
    done_with(trunhoac_fill_end(record), 0, 0, "END does not free what is set aside");
    done_with(trunhoac_fill_flush(record, 0), 2, 0, "FLUSH lets go of both entries");
}

static void free_by_drain(struct trunhoac_handle event)
{
    done(trunhoac_fill_post(record, event, OBJECT, 0));
    done(trunhoac_fill_post(record, event, OBJECT, 0));
    done_with(trunhoac_fill_drain(record, UINT8_MAX), 2, 1, "DRAIN takes both entries");
}

static const struct {
    const char *name;
    void (*free)(struct trunhoac_handle event);
} ways[] = {
    {"retired by END", free_by_end},
    {"retired by RELEASE", free_by_release},
    {"retired by DROP", free_by_drop},
    {"retired by PUBLISH", free_by_publish},
    {"retired by FLUSH", free_by_flush},
    {"retired by DRAIN", free_by_drain},
};

/* The other small blocks are handed out, and the retired one is not: it counts as taken. */
static void expect_others_alone(void)
{
    for (uint8_t block = 1; block < SMALL_BLOCKS; block++) {
        make(0, block, 0);
        expect_least_free(SMALL_BLOCKS - 1 - block);
    }
    expect(is_answered(trunhoac_fill_new(record, MOVES, NULL, 0), TRUNHOAC_DRY), "the pool is dry");
}

static void test_way(size_t way)
{
    now_at(ways[way].name, 0);
    begin_at(LAST);
    struct trunhoac_handle event = make(0, 0, LAST);
    expect_least_free(SMALL_BLOCKS - 1);
    ways[way].free(event);
    expect_stale(event);
    expect_others_alone();
    expect_stale(event);
}

/* A pool all of whose blocks are retired is dry for ever, and the others are as they were. */
static void test_worn_out_pool(void)
{
    lend_fresh(FILL);
    for (size_t block = FIRST_LARGE_BLOCK; block <= LAST_LARGE_BLOCK; block++)
        set_generation(block, LAST);
    for (uint8_t block = FIRST_LARGE_BLOCK; block <= LAST_LARGE_BLOCK; block++) {
        struct trunhoac_handle event = make(sizeof payload, block, LAST);
        expect_least_free(LAST_LARGE_BLOCK - block);
        done(trunhoac_fill_drop(record, event));
    }
    expect(is_answered(trunhoac_fill_new(record, MOVES, payload, sizeof payload), TRUNHOAC_DRY), "the pool is dry");
    make(0, 0, 0);
}

void test_lives(void)
{
    now_at("lives", 0);
    test_many_lives();
    test_bytes();
    test_next(0xFF);
    test_next(0xFFFF);
    test_next(LAST - 1);
    for (size_t way = 0; way < sizeof ways / sizeof ways[0]; way++)
        test_way(way);
    now_at("a pool that is worn out", 0);
    test_worn_out_pool();
}
