/* What the header brings along: its numbers, the records that it fills, and what it reads out of a reply. */
#include "test.h"

static const struct trunhoac_handle event = {55, {200, 100, 50}};

static uint8_t record[TRUNHOAC_RECORD_BYTES];

/* The bytes are written by hand from the documents. The record is then spoilt, so that the next is filled whole. */
static void expect_record(const uint8_t *filled, const char *bytes)
{
    char text[64];
    struct line line;
    snprintf(text, sizeof text, "%s = 0", bytes);
    expect(read_words(text, &line) && filled == record && memcmp(record, line.record, sizeof record) == 0, bytes);
    memset(record, FILL, sizeof record);
}

static void test_events(void)
{
    static const uint8_t payload[] = {7, 8, 9};

    expect_record(trunhoac_fill_new(record, 6, payload, 3), "3 6 3 0 0 0 0 0 7 8 9");
    expect_record(trunhoac_fill_new(record, 6, NULL, 0), "3 6");
    expect_record(trunhoac_fill_new(record, 6, NULL, 65), "3 6 65");
    expect_record(trunhoac_fill_post(record, event, 9, 2), "4 55 200 100 50 9 2");
    expect_record(trunhoac_fill_postfront(record, event, 9), "5 55 200 100 50 9");
    expect_record(trunhoac_fill_publish(record, event), "6 55 200 100 50");
    expect_record(trunhoac_fill_subscribe(record, 9, 6), "7 9 6");
    expect_record(trunhoac_fill_unsubscribe(record, 9, 6), "8 9 6");
    expect_record(trunhoac_fill_hold(record, event), "9 55 200 100 50");
    expect_record(trunhoac_fill_release(record, event), "10 55 200 100 50");
    expect_record(trunhoac_fill_drop(record, event), "11 55 200 100 50");
    expect_record(trunhoac_fill_read(record, event), "17 55 200 100 50");
}

static void test_other_commands(void)
{
    expect_record(trunhoac_fill_load(record, TRUNHOAC_GUARDED_SLOT), "1 4");
    expect_record(trunhoac_fill_start(record, 9, 3, 4), "2 9 3 4");
    expect_record(trunhoac_fill_next(record), "12");
    expect_record(trunhoac_fill_end(record), "13");
    expect_record(trunhoac_fill_arm(record, 15, 9, 6, 0x1234, 0x5678), "14 15 9 6 52 18 120 86");
    expect_record(trunhoac_fill_disarm(record, 15), "15 15");
    expect_record(trunhoac_fill_tick(record), "16");
    expect_record(trunhoac_fill_drain(record, 255), "18 255");
    expect_record(trunhoac_fill_defer(record, 7), "19 7");
    expect_record(trunhoac_fill_recall(record, 7, 9), "20 7 9");
    expect_record(trunhoac_fill_flush(record, 7), "21 7");
    expect_record(trunhoac_fill_flag(record, 9, 8, 1), "22 9 8 1");
    expect_record(trunhoac_fill_flag(record, 9, 8, 0), "FLAG 9 8");
}

/* The answers to a NEXT of signal 31, a transition: of an event with a block, and of the last timer's; and to a NEW. */
static void test_replies(void)
{
    static const uint8_t reply[28] = {0, 9, 95, 2, 0, 0, 10, 11, [24] = 55, 200, 100, 50};
    static const uint8_t of_timer[28] = {0, 9, 95, 0, [24] = 143};
    static const uint8_t of_new[28] = {0, 0, 0, 7, [24] = 55, 200, 100, 50};
    struct trunhoac_handle of_next = trunhoac_handle_in(reply), made = trunhoac_handle_in(of_new);

    expect(memcmp(&of_next, &event, sizeof event) == 0 && memcmp(&made, &event, sizeof event) == 0, "the handle");
    expect(trunhoac_least_free_in(of_new) == 7, "the mark");
    expect(trunhoac_timer_in(reply) == -1 && trunhoac_timer_in(of_timer) == 15, "the timer");
    expect(trunhoac_outcome(reply) == 2, "the outcome");
    expect(trunhoac_signal(reply) == 31, "the signal");
}

/* In words a generation is one number. */
static void test_generations(void)
{
    static const struct trunhoac_handle first = {0}, last = {55, {255, 255, 255}};

    expect(trunhoac_generation_of(first) == 0, "the first generation");
    expect(trunhoac_generation_of(event) == 200 + 256 * 100 + 65536 * 50, "a generation of three bytes");
    expect(trunhoac_generation_of(last) == TRUNHOAC_LAST_GENERATION, "the last generation");
    expect_record(trunhoac_fill_post(record, event, 9, 2), "POST 55 3302600 9 2");
    expect_record(trunhoac_fill_read(record, last), "READ 55 16777215");
}

static void test_lengths(void)
{
    expect(TRUNHOAC_RECORD_BYTES == 72 && TRUNHOAC_REPLY_BYTES == 28, "the lengths of a record and of a reply");
    expect(TRUNHOAC_PAYLOAD_AREA == 1536 && TRUNHOAC_TABLE_AREA == 64608 && TRUNHOAC_GUARDED_AREA == 32280
               && TRUNHOAC_LOG_AREA == 7140,
           "the lengths of the areas");
    expect(TRUNHOAC_TABLE_AREA == TRUNHOAC_GUARDED_SLOT * TRUNHOAC_SLOT_BYTES && TRUNHOAC_SLOTS == 5,
           "the slots before the guarded one fill the tables");
    expect(TRUNHOAC_FLAGS == 8, "the flags of an object");
}

static void test_numbers(void)
{
    static const int answers[16] = {
        TRUNHOAC_DONE, TRUNHOAC_FORM, TRUNHOAC_AREA, TRUNHOAC_RANGE, TRUNHOAC_BUSY, TRUNHOAC_NOSTEP,
        TRUNHOAC_IDLE, TRUNHOAC_STALE, TRUNHOAC_ABSENT, TRUNHOAC_TAKEN, TRUNHOAC_FULL, TRUNHOAC_DRY,
        TRUNHOAC_HOLDS, TRUNHOAC_INUSE, TRUNHOAC_CHART, TRUNHOAC_TABLE,
    };
    for (int i = 0; i < 16; i++)
        expect(answers[i] == i, "the number of an answer");
}

void test_records(void)
{
    now_at("header", 0);
    memset(record, FILL, sizeof record);
    test_events();
    test_other_commands();
    test_replies();
    test_generations();
    test_lengths();
    test_numbers();
}
