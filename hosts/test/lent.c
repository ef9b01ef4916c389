/*
 * The memory that the calls are lent: each thing stands between guards, and every call is held to what it has to write.
 *
 * Before a record is answered, trunhoac_read is asked about it, and held against the reply.
 */
#include "test.h"

enum { MOST_SHOWN = TRUNHOAC_AT_HANDLE - TRUNHOAC_AT_ACTIONS };

/* Things of 8 bytes come first, and guards have a multiple of that: so no gap lies between a thing and its guards. */
struct memory {
    uint8_t before_place[GUARD_BYTES];
    size_t place;
    uint8_t before_length[GUARD_BYTES];
    size_t length;
    uint8_t before_kernel[GUARD_BYTES];
    struct trunhoac_kernel kernel;
    uint8_t before_record[GUARD_BYTES];
    uint8_t record[TRUNHOAC_RECORD_BYTES];
    uint8_t before_chart[GUARD_BYTES];
    uint8_t chart[TRUNHOAC_MOST_CHART_BYTES + 1];
    uint8_t before_payloads[GUARD_BYTES];
    uint8_t payloads[TRUNHOAC_PAYLOAD_AREA];
    uint8_t before_tables[GUARD_BYTES];
    uint8_t tables[TRUNHOAC_TABLE_AREA];
    uint8_t before_guarded[GUARD_BYTES];
    uint8_t guarded[TRUNHOAC_GUARDED_AREA];
    uint8_t before_log[GUARD_BYTES];
    uint8_t log[TRUNHOAC_LOG_AREA];
    uint8_t before_reply[GUARD_BYTES];
    uint8_t reply[TRUNHOAC_REPLY_BYTES];
    uint8_t behind_reply[GUARD_BYTES];
};

/* What is lent, and what it has to be after a call: a copy from before it, with what the call has to write. */
static struct memory lent;
static struct memory due;

static void before_call(void)
{
    memcpy(&due, &lent, sizeof lent);
}

static void expect_as_due(const char *what)
{
    expect(memcmp(&due, &lent, sizeof lent) == 0, what);
}

void lend_fresh(uint8_t fill)
{
    memset(&lent, fill, sizeof lent);
    memset(lent.payloads, 0, sizeof lent.payloads);
    memset(lent.tables, 0, sizeof lent.tables);
    memset(lent.guarded, 0, sizeof lent.guarded);
    memset(lent.log, 0, sizeof lent.log);
    before_call();
    trunhoac_fresh(&lent.kernel);
    due.kernel = lent.kernel;
    expect_as_due("a fresh start writes the kernel alone");
}

struct trunhoac_kernel *lent_kernel(void)
{
    return &lent.kernel;
}

uint8_t *lent_guarded(void)
{
    return lent.guarded;
}

static void ask_where(size_t record_length)
{
    lent.place = lent.length = TRUNHOAC_PAYLOAD_AREA + 1;
    before_call();
    trunhoac_read(&lent.kernel, lent.record, record_length, lent.payloads, sizeof lent.payloads,
                  &lent.place, &lent.length);
    due.place = lent.place;
    due.length = lent.length;
    expect_as_due("trunhoac_read writes place and length alone");
}

static bool shows_payload(void)
{
    size_t shown = lent.length < MOST_SHOWN ? lent.length : MOST_SHOWN;
    return lent.place == place_of(lent.record[1])
        && lent.length == lent.reply[TRUNHOAC_AT_VALUES]
        && lent.place + lent.length <= sizeof lent.payloads
        && shown == lent.reply[TRUNHOAC_AT_COUNT]
        && memcmp(lent.payloads + lent.place, lent.reply + TRUNHOAC_AT_ACTIONS, shown) == 0;
}

static void expect_where(size_t record_length)
{
    if (record_length == sizeof lent.record && lent.record[0] == TRUNHOAC_READ && lent.reply[0] == TRUNHOAC_DONE)
        expect(shows_payload(), "trunhoac_read names what READ shows");
    else
        expect(lent.place == 0 && lent.length == 0, "trunhoac_read names nothing");
}

/* After a refusal only the reply is written, and only three commands write to an area. */
static void expect_written(size_t chart_length)
{
    memcpy(due.reply, lent.reply, sizeof lent.reply);
    if (lent.reply[0] == TRUNHOAC_DONE) {
        if (lent.record[0] == TRUNHOAC_NEW)
            write_payload(due.payloads, lent.record, lent.reply);
        if (lent.record[0] == TRUNHOAC_LOAD)
            write_table(due.tables, due.guarded, lent.record, lent.chart, chart_length);
        if (lent.record[0] == TRUNHOAC_DRAIN)
            write_log(due.log, due.kernel, due.tables, due.guarded, lent.reply[TRUNHOAC_AT_VALUES]);
        if (lent.record[0] != TRUNHOAC_READ)
            due.kernel = lent.kernel;
    }
    expect_as_due("the command writes what it has to write, and nothing else");
}

const uint8_t *command(const uint8_t *record, size_t length, const struct chart *chart)
{
    memset(lent.record, FILL, sizeof lent.record);
    memcpy(lent.record, record, length);
    memset(lent.chart, FILL, sizeof lent.chart);
    memcpy(lent.chart, chart->bytes, chart->length);
    memset(lent.reply, FILL, sizeof lent.reply);
    ask_where(length);
    before_call();
    trunhoac_command(&lent.kernel, lent.record, length, chart->length == 0 ? NULL : lent.chart, chart->length,
                     lent.payloads, sizeof lent.payloads, lent.tables, sizeof lent.tables,
                     lent.guarded, sizeof lent.guarded, lent.log, sizeof lent.log, lent.reply);
    expect_written(chart->length);
    expect_where(length);
    return lent.reply;
}
