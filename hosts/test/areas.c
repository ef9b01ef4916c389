/* Areas of other lengths, none at all among them: a command that uses one is refused, and writes to none. */
#include "test.h"

enum { EMPTY, SHORTER, LONGER };

enum { PLAIN_SLOT = 0, GUARDED_SLOT = TRUNHOAC_GUARDED_SLOT };

/* How many bytes of each area are lent. */
struct lengths {
    size_t payloads, tables, guarded, log;
};

static const struct lengths right = {
    TRUNHOAC_PAYLOAD_AREA, TRUNHOAC_TABLE_AREA, TRUNHOAC_GUARDED_AREA, TRUNHOAC_LOG_AREA
};

static struct trunhoac_kernel kernel;
static uint8_t record[TRUNHOAC_RECORD_BYTES];
static uint8_t payloads[TRUNHOAC_PAYLOAD_AREA + 1];
static uint8_t tables[TRUNHOAC_TABLE_AREA + 1];
static uint8_t guarded[TRUNHOAC_GUARDED_AREA + 1];
static uint8_t steps[TRUNHOAC_LOG_AREA + 1];

static size_t changed(size_t length, int change)
{
    return change == EMPTY ? 0 : change == SHORTER ? length - 1 : length + 1;
}

static bool still_filled(const uint8_t *area, size_t length)
{
    while (length > 0 && area[length - 1] == FILL)
        length--;
    return length == 0;
}

static void fill_areas(void)
{
    memset(payloads, FILL, sizeof payloads);
    memset(tables, FILL, sizeof tables);
    memset(guarded, FILL, sizeof guarded);
    memset(steps, FILL, sizeof steps);
}

static bool untouched(void)
{
    return still_filled(payloads, sizeof payloads) && still_filled(tables, sizeof tables)
        && still_filled(guarded, sizeof guarded) && still_filled(steps, sizeof steps);
}

/* Gives the kernel a record with areas of these lengths, and answers the reply. */
static const uint8_t *give(struct lengths lent, const uint8_t *filled)
{
    static uint8_t reply[TRUNHOAC_REPLY_BYTES];

    trunhoac_command(&kernel, filled, TRUNHOAC_RECORD_BYTES, two_states.bytes, two_states.length,
                     start_of(payloads, lent.payloads), lent.payloads, start_of(tables, lent.tables), lent.tables,
                     start_of(guarded, lent.guarded), lent.guarded, start_of(steps, lent.log), lent.log, reply);
    return reply;
}

static void expect_answer(uint8_t number, struct lengths lent, const uint8_t *filled, const char *what)
{
    expect(give(lent, filled)[TRUNHOAC_AT_NUMBER] == number, what);
}

static void expect_nothing_named(struct lengths lent, const uint8_t *filled)
{
    size_t place = 1, size = 1;
    trunhoac_read(&kernel, filled, TRUNHOAC_RECORD_BYTES, start_of(payloads, lent.payloads), lent.payloads, &place,
                  &size);
    expect(place == 0 && size == 0, "trunhoac_read names nothing in an area of another length");
}

/* All four areas have another length. */
static void test_all(int change)
{
    struct lengths lent = {changed(right.payloads, change), changed(right.tables, change),
                           changed(right.guarded, change), changed(right.log, change)};
    struct trunhoac_handle event = {0};

    fill_areas();
    trunhoac_fresh(&kernel);
    expect_answer(TRUNHOAC_AREA, lent, trunhoac_fill_load(record, PLAIN_SLOT), "LOAD");
    expect_answer(TRUNHOAC_AREA, lent, trunhoac_fill_start(record, 1, PLAIN_SLOT, 1), "START");
    expect_answer(TRUNHOAC_AREA, lent, trunhoac_fill_new(record, 4, NULL, 0), "NEW");
    expect_answer(TRUNHOAC_AREA, lent, trunhoac_fill_next(record), "NEXT");
    expect_answer(TRUNHOAC_AREA, lent, trunhoac_fill_drain(record, 1), "DRAIN");
    expect_answer(TRUNHOAC_AREA, lent, trunhoac_fill_read(record, event), "READ");
    expect_nothing_named(lent, record);
    expect_answer(TRUNHOAC_DONE, lent, trunhoac_fill_tick(record), "TICK, which uses no area");
    expect_answer(TRUNHOAC_DONE, lent, trunhoac_fill_flush(record, 0), "FLUSH, which uses none either");
    expect_answer(TRUNHOAC_ABSENT, lent, trunhoac_fill_flag(record, 1, 1, 1), "FLAG, which uses none either");
    expect(untouched(), "the areas are as they were");
}

static void done(const uint8_t *filled)
{
    expect_answer(TRUNHOAC_DONE, right, filled, "the command is done");
}

/* Object 1 runs on a plain slot, and object 2, which is more urgent, on the guarded one. Each has mail. */
static void begin_on_both(void)
{
    struct trunhoac_handle event = {0};

    trunhoac_fresh(&kernel);
    done(trunhoac_fill_load(record, PLAIN_SLOT));
    done(trunhoac_fill_load(record, GUARDED_SLOT));
    done(trunhoac_fill_start(record, 1, PLAIN_SLOT, 1));
    done(trunhoac_fill_start(record, 2, GUARDED_SLOT, 1));
    done(trunhoac_fill_new(record, 6, NULL, 0));
    done(trunhoac_fill_post(record, event, 1, 0));
    done(trunhoac_fill_post(record, event, 2, 0));
}

/* LOAD, START and NEXT use the guarded table where it is their slot's, and DRAIN does always. */
static void test_guarded_alone(int change)
{
    struct lengths lent = right;
    struct trunhoac_handle event = {0};

    lent.guarded = changed(right.guarded, change);
    begin_on_both();
    expect_answer(TRUNHOAC_AREA, lent, trunhoac_fill_load(record, GUARDED_SLOT), "LOAD, slot 4");
    expect_answer(TRUNHOAC_TAKEN, lent, trunhoac_fill_load(record, PLAIN_SLOT), "LOAD, another slot");
    expect_answer(TRUNHOAC_RANGE, lent, trunhoac_fill_load(record, TRUNHOAC_SLOTS), "LOAD, no slot");
    expect_answer(TRUNHOAC_AREA, lent, trunhoac_fill_start(record, 3, GUARDED_SLOT, 1), "START, slot 4");
    expect_answer(TRUNHOAC_DONE, lent, trunhoac_fill_start(record, 3, PLAIN_SLOT, 1), "START, another slot");
    expect_answer(TRUNHOAC_RANGE, lent, trunhoac_fill_start(record, 4, TRUNHOAC_SLOTS, 1), "START, no slot");
    expect_answer(TRUNHOAC_AREA, lent, trunhoac_fill_next(record), "NEXT of an object on slot 4");
    done(trunhoac_fill_next(record));
    expect_answer(TRUNHOAC_BUSY, lent, trunhoac_fill_next(record), "NEXT of an object on another slot");
    done(trunhoac_fill_post(record, event, 2, 0));
    expect_answer(TRUNHOAC_AREA, lent, trunhoac_fill_next(record), "NEXT of an object on slot 4 with a step open");
    done(trunhoac_fill_end(record));
    expect_answer(TRUNHOAC_AREA, lent, trunhoac_fill_drain(record, 0), "DRAIN");
    done(trunhoac_fill_drain(record, UINT8_MAX));
    expect_answer(TRUNHOAC_IDLE, lent, trunhoac_fill_next(record), "NEXT with nothing queued");
    expect_answer(TRUNHOAC_AREA, lent, trunhoac_fill_drain(record, 0), "DRAIN with nothing queued");
}

/* Slot 4 does not lie in the other tables, and its commands use them all the same. */
static void test_tables_alone(int change)
{
    struct lengths lent = right;

    lent.tables = changed(right.tables, change);
    begin_on_both();
    expect_answer(TRUNHOAC_AREA, lent, trunhoac_fill_load(record, GUARDED_SLOT), "LOAD, slot 4");
    expect_answer(TRUNHOAC_AREA, lent, trunhoac_fill_start(record, 3, GUARDED_SLOT, 1), "START, slot 4");
    expect_answer(TRUNHOAC_AREA, lent, trunhoac_fill_next(record), "NEXT of an object on slot 4");
    expect_answer(TRUNHOAC_AREA, lent, trunhoac_fill_drain(record, 1), "DRAIN");
}

/* A NEW that is refused does not move its pool's mark: one block, freed and taken again, leaves 31 as before. */
static void test_mark(void)
{
    struct trunhoac_handle event = {0};
    struct lengths shorter = right, none = {0};

    shorter.payloads--;
    trunhoac_fresh(&kernel);
    trunhoac_fill_new(record, 4, NULL, 0);
    expect(trunhoac_least_free_in(give(right, record)) == 31, "the first block leaves 31");
    expect_answer(TRUNHOAC_AREA, shorter, record, "NEW");
    expect_answer(TRUNHOAC_DONE, none, trunhoac_fill_drop(record, event), "DROP, which uses no area");
    trunhoac_fill_new(record, 4, NULL, 0);
    expect(trunhoac_least_free_in(give(right, record)) == 31, "the mark is as it was");
}

void test_areas(void)
{
    for (int change = EMPTY; change <= LONGER; change++) {
        now_at("areas of another length", (unsigned long)change);
        test_all(change);
        now_at("a guarded table of another length", (unsigned long)change);
        test_guarded_alone(change);
        now_at("tables of another length", (unsigned long)change);
        test_tables_alone(change);
    }
    now_at("the mark, after a payload area of another length", 0);
    test_mark();
}
