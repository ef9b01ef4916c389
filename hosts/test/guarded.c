/*
 * Steps on the guarded slot: which of the six flat rows is taken, and what a row does that somebody else wrote to.
 *
 * The answers are worked out by hand from the documents. All steps are those of one object, by the last signal.
 */
#include "test.h"

enum { ROW_BYTES = 24, FIRST_ROW = 32136 }; /* of the last state, 8, and the last signal: 24 + 24 * 6 * (28 * 7 + 27) */

enum { OBJECT = 9, OTHER = 5, DEPTH = 2, FLAG_PLACE = 21 };

enum { IGNORED = TRUNHOAC_LAST_SIGNAL, INTERNAL = 32 + IGNORED, TRANSITION = 64 + IGNORED };

static const struct trunhoac_handle event = {0};

static uint8_t record[TRUNHOAC_RECORD_BYTES];
static const uint8_t *reply; /* to the last record */

static bool is_answered(const uint8_t *filled, uint8_t number)
{
    reply = command(filled, TRUNHOAC_RECORD_BYTES, &six_levels);
    return reply[TRUNHOAC_AT_NUMBER] == number;
}

static void done(const uint8_t *filled)
{
    expect(is_answered(filled, TRUNHOAC_DONE), "the command is done");
}

static void done_with(const uint8_t *filled, uint8_t first, uint8_t second, const char *what)
{
    done(filled);
    expect(reply[TRUNHOAC_AT_VALUES] == first && reply[TRUNHOAC_AT_VALUES + 1] == second, what);
}

static void put_up(uint8_t flag)
{
    done_with(trunhoac_fill_flag(record, OBJECT, flag, 1), 1, 0, "the flag was down");
}

static void put_down(uint8_t flag)
{
    done_with(trunhoac_fill_flag(record, OBJECT, flag, 0), 1, 0, "the flag was up");
}

/* Two objects on the chart, and an event that is held. All flags of the one that takes no step are up. */
static void begin(void)
{
    lend_fresh(FILL);
    done_with(trunhoac_fill_load(record, TRUNHOAC_GUARDED_SLOT), 8, 0, "the chart has eight states");
    done(trunhoac_fill_start(record, OTHER, TRUNHOAC_GUARDED_SLOT, DEPTH));
    for (uint8_t flag = 1; flag <= TRUNHOAC_FLAGS; flag++)
        done_with(trunhoac_fill_flag(record, OTHER, flag, 1), 1, 0, "the flag was down");
    done(trunhoac_fill_start(record, OBJECT, TRUNHOAC_GUARDED_SLOT, DEPTH));
    done(trunhoac_fill_new(record, TRUNHOAC_LAST_SIGNAL, NULL, 0));
    done(trunhoac_fill_hold(record, event));
}

static void post(void)
{
    done_with(trunhoac_fill_post(record, event, OBJECT, 0), 1, 0, "one event is queued");
}

/* The step of what is queued, with the actions that it must have; those that are not given are 0. */
static void expect_next(uint8_t outcome, uint8_t count, const uint8_t actions[18], const char *what)
{
    uint8_t due[TRUNHOAC_REPLY_BYTES] = {TRUNHOAC_DONE, OBJECT, outcome, count};

    memcpy(due + TRUNHOAC_AT_ACTIONS, actions, 18);
    done(trunhoac_fill_next(record));
    expect(memcmp(reply, due, sizeof due) == 0, what);
    done(trunhoac_fill_end(record));
}

static void expect_step(uint8_t outcome, uint8_t count, const uint8_t actions[18], const char *what)
{
    post();
    expect_next(outcome, count, actions, what);
}

static void test_choice(void)
{
    static const uint8_t none[18] = {0}, innermost[18] = {89, 82, 81}, of_2[18] = {29}, outermost[18] = {19};
    static const uint8_t away[18] = {49, 82, 52, 42, 32, 22, 61};

    begin();
    expect_step(IGNORED, 0, none, "all six are passed over");
    put_up(8);
    expect_step(INTERNAL, 1, outermost, "the last is taken, the state's that has all others in it");
    put_up(7);
    expect_step(INTERNAL, 1, of_2, "the one before it is taken");
    put_up(2);
    expect_step(INTERNAL, 1, of_2, "no row has this flag");
    put_up(1);
    expect_step(TRANSITION, 3, innermost, "the first is taken, the state's own");
    put_down(1);
    put_up(5);
    expect_step(TRANSITION, 7, away, "the third is taken, which leads to state 6");
    expect_step(INTERNAL, 1, outermost, "there the first has the same flag as the last had");
    put_down(8);
    expect_step(IGNORED, 0, none, "and is passed over");
}

/* FLAG answers whether the flag changed. */
static void test_answers(void)
{
    begin();
    put_up(3);
    done_with(trunhoac_fill_flag(record, OBJECT, 3, 1), 0, 0, "the flag was up already");
    put_down(3);
    done_with(trunhoac_fill_flag(record, OBJECT, 3, 0), 0, 0, "the flag was down already");
    expect(is_answered(trunhoac_fill_flag(record, OBJECT, TRUNHOAC_FLAGS + 1, 1), TRUNHOAC_RANGE), "no flag 9");
    expect(is_answered(trunhoac_fill_flag(record, OBJECT, 3, 2), TRUNHOAC_RANGE), "a flag is up or down");
    expect(is_answered(trunhoac_fill_flag(record, 1, 3, 1), TRUNHOAC_ABSENT), "object 1 is not started");
    post();
    done(trunhoac_fill_next(record));
    expect(is_answered(trunhoac_fill_flag(record, OBJECT, 3, 1), TRUNHOAC_BUSY), "a step is open");
    done(trunhoac_fill_end(record));
    put_up(3);
}

static uint8_t *row(size_t i)
{
    return lent_guarded() + FIRST_ROW + i * ROW_BYTES;
}

/* With flag 4 up the second row is taken, and nobody asks what stands behind it. */
static void expect_second_row(void)
{
    static const uint8_t of_5[18] = {59};

    put_up(4);
    expect_next(INTERNAL, 1, of_5, "rows behind the one that is taken are not read");
}

/* A byte of the third row is overwritten. Its flag is down, and it is refused all the same. */
static void test_unsound(size_t place, uint8_t byte)
{
    begin();
    post();
    row(2)[place] = byte;
    expect(is_answered(trunhoac_fill_next(record), TRUNHOAC_TABLE), "NEXT reads a row that is not sound");
    done_with(trunhoac_fill_drain(record, 1), 0, 2, "DRAIN stops at it");
    expect_second_row();
}

static void test_zeros(void)
{
    static const uint8_t none[18] = {0};

    begin();
    put_up(8);
    memset(row(2), 0, ROW_BYTES);
    row(3)[0] = 0;
    expect_step(IGNORED, 0, none, "a row of zeros ends the search");
    post();
    expect_second_row();
}

static void test_start_row(void)
{
    begin();
    lent_guarded()[FLAG_PLACE] = 1;
    expect(is_answered(trunhoac_fill_start(record, 1, TRUNHOAC_GUARDED_SLOT, DEPTH), TRUNHOAC_TABLE),
           "a start row has no flag");
}

void test_guarded(void)
{
    static const struct {
        size_t place;
        uint8_t byte;
    } spoilt[] = {{0, 0}, {0, 9}, {1, 3}, {2, 19}, {20, 1}, {FLAG_PLACE, 9}, {22, 1}, {23, 1}};

    now_at("flags", 0);
    test_answers();
    now_at("guarded rows", 0);
    test_choice();
    for (size_t i = 0; i < sizeof spoilt / sizeof spoilt[0]; i++) {
        now_at("a guarded row with a byte overwritten", (unsigned long)spoilt[i].place);
        test_unsound(spoilt[i].place, spoilt[i].byte);
    }
    now_at("a guarded row of zeros", 0);
    test_zeros();
    now_at("the guarded start row", 0);
    test_start_row();
}
