/*
 * Everything that is lent lies between pages that nobody may touch, flush with the one behind it and then with the one
 * before it: a read or a write outside a length ends the test.
 */
#define _DEFAULT_SOURCE /* for anonymous mappings */

#include "test.h"

#include <sys/mman.h>
#include <unistd.h>

enum side { AT_THE_END, AT_THE_START };

enum { FIRST_LARGE_BLOCK = 48, LAST_LARGE_BLOCK = 55 };

enum { LAST_OBJECT = TRUNHOAC_OBJECTS, LAST_SIDE = TRUNHOAC_SIDE_QUEUES - 1, MOVES = 6 };

enum { LAST_PLAIN_SLOT = TRUNHOAC_GUARDED_SLOT - 1 };

static struct {
    struct trunhoac_kernel *kernel;
    uint8_t *record, *chart, *guarded_chart, *payloads, *tables, *guarded, *log, *reply, *slot, *guarded_table;
    size_t *place, *length;
} lent;

static struct {
    uint8_t *number, *data, *area, *piece;
    struct trunhoac_reader *reader;
    struct trunhoac_frame *frame;
    size_t *read;
} framed;

static bool is_lent;

static void *lend(size_t length, enum side side)
{
    size_t page = (size_t)sysconf(_SC_PAGESIZE);
    size_t inner = (length + page - 1) / page * page;
    uint8_t *whole = mmap(NULL, inner + 2 * page, PROT_NONE, MAP_PRIVATE | MAP_ANONYMOUS, -1, 0);
    if (whole == MAP_FAILED || mprotect(whole + page, inner, PROT_READ | PROT_WRITE) != 0) {
        is_lent = false;
        return NULL;
    }
    return whole + page + (side == AT_THE_END ? inner - length : 0);
}

static void lend_all(enum side side)
{
    is_lent = true;
    lent.kernel = lend(sizeof *lent.kernel, side);
    lent.record = lend(TRUNHOAC_RECORD_BYTES, side);
    lent.chart = lend(two_states.length, side);
    lent.guarded_chart = lend(six_levels.length, side);
    lent.payloads = lend(TRUNHOAC_PAYLOAD_AREA, side);
    lent.tables = lend(TRUNHOAC_TABLE_AREA, side);
    lent.guarded = lend(TRUNHOAC_GUARDED_AREA, side);
    lent.log = lend(TRUNHOAC_LOG_AREA, side);
    lent.reply = lend(TRUNHOAC_REPLY_BYTES, side);
    lent.slot = lend(TRUNHOAC_SLOT_BYTES, side);
    lent.guarded_table = lend(TRUNHOAC_GUARDED_AREA, side);
    lent.place = lend(sizeof *lent.place, side);
    lent.length = lend(sizeof *lent.length, side);
    framed.number = lend(sizeof *framed.number, side);
    framed.data = lend(TRUNHOAC_FRAME_DATA, side);
    framed.area = lend(TRUNHOAC_FRAME_BYTES, side);
    framed.piece = lend(TRUNHOAC_FRAME_BYTES, side);
    framed.reader = lend(sizeof *framed.reader, side);
    framed.frame = lend(sizeof *framed.frame, side);
    framed.read = lend(sizeof *framed.read, side);
}

static void done_with(const uint8_t *filled, const uint8_t *chart, size_t chart_length)
{
    trunhoac_command(lent.kernel, filled, TRUNHOAC_RECORD_BYTES, chart, chart_length,
                     lent.payloads, TRUNHOAC_PAYLOAD_AREA, lent.tables, TRUNHOAC_TABLE_AREA,
                     lent.guarded, TRUNHOAC_GUARDED_AREA, lent.log, TRUNHOAC_LOG_AREA, lent.reply);
    expect(lent.reply[TRUNHOAC_AT_NUMBER] == TRUNHOAC_DONE, "the command is done");
}

static void done(const uint8_t *filled)
{
    done_with(filled, lent.chart, two_states.length);
}

/* The first block, and the pool of the last: that one runs empty, and each NEW tells how many are left. */
static void take_blocks(void)
{
    uint8_t *record = lent.record;
    uint8_t payload[TRUNHOAC_MOST_PAYLOAD_BYTES] = {0};

    done(trunhoac_fill_new(record, MOVES, payload, 16));
    expect(trunhoac_least_free_in(lent.reply) == 31, "31 blocks of 16 bytes are left");
    for (int block = FIRST_LARGE_BLOCK; block <= LAST_LARGE_BLOCK; block++) {
        done(trunhoac_fill_new(record, TRUNHOAC_LAST_SIGNAL, payload, sizeof payload));
        expect(trunhoac_least_free_in(lent.reply) == LAST_LARGE_BLOCK - block, "how many blocks of 64 bytes are left");
    }
}

/*
 * The first and the last place of the side queues' rings: each turn moves the front of the last one a place on, so that
 * the entries of the full side queue then end where its ring does. The mail is in the end as it was.
 */
static void use_side_queues(void)
{
    uint8_t *record = lent.record;

    for (int turn = 0; turn < TRUNHOAC_MOST_ASIDE; turn++) {
        done(trunhoac_fill_next(record));
        done(trunhoac_fill_defer(record, LAST_SIDE));
        done(trunhoac_fill_end(record));
        done(trunhoac_fill_recall(record, LAST_SIDE, LAST_OBJECT));
    }
    done(trunhoac_fill_next(record));
    for (int place = 0; place < TRUNHOAC_MOST_ASIDE; place++) {
        done(trunhoac_fill_defer(record, 0));
        done(trunhoac_fill_defer(record, LAST_SIDE));
    }
    done(trunhoac_fill_end(record));
    done(trunhoac_fill_recall(record, LAST_SIDE, LAST_OBJECT));
    done(trunhoac_fill_flush(record, 0));
    done(trunhoac_fill_flush(record, LAST_SIDE));
    expect(lent.reply[TRUNHOAC_AT_VALUES] == TRUNHOAC_MOST_ASIDE - 1, "all entries are let go but the one recalled");
}

/* The last plain slot and the guarded one get an object by turns, the first and the last object a flag. */
static void start_all(void)
{
    uint8_t *record = lent.record;

    trunhoac_fresh(lent.kernel);
    done(trunhoac_fill_load(record, 0));
    done(trunhoac_fill_load(record, LAST_PLAIN_SLOT));
    done_with(trunhoac_fill_load(record, TRUNHOAC_GUARDED_SLOT), lent.guarded_chart, six_levels.length);
    for (uint8_t p = 1; p <= LAST_OBJECT; p++)
        done(trunhoac_fill_start(record, p, p % 2 == 1 ? LAST_PLAIN_SLOT : TRUNHOAC_GUARDED_SLOT, TRUNHOAC_MOST_DEPTH));
    done(trunhoac_fill_flag(record, 1, 1, 1));
    done(trunhoac_fill_flag(record, LAST_OBJECT, TRUNHOAC_FLAGS, 1));
}

/* The first and the last of what there is: slots, blocks, objects, places of a mailbox, flat rows, lines of the log. */
static void use_edges(void)
{
    static const uint8_t by_last_row[] = {0, LAST_OBJECT, 32 + TRUNHOAC_LAST_SIGNAL, 1, 0, 0, 19};
    uint8_t *record = lent.record;
    struct trunhoac_handle first = {0}, last = {.block = LAST_LARGE_BLOCK};

    start_all();
    take_blocks();
    for (int place = 0; place < TRUNHOAC_MOST_DEPTH; place++)
        for (uint8_t p = 1; p <= LAST_OBJECT; p++)
            done(trunhoac_fill_post(record, place == 0 ? first : last, p, 0));
    use_side_queues();
    done(trunhoac_fill_next(record));
    done(trunhoac_fill_end(record));
    done(trunhoac_fill_read(record, last));
    trunhoac_read(lent.kernel, record, TRUNHOAC_RECORD_BYTES, lent.payloads, TRUNHOAC_PAYLOAD_AREA,
                  lent.place, lent.length);
    expect(*lent.place + *lent.length == TRUNHOAC_PAYLOAD_AREA, "the last block ends where its area does");
    done(trunhoac_fill_drain(record, UINT8_MAX));
    expect(lent.reply[TRUNHOAC_AT_VALUES] == UINT8_MAX, "the log is full");
    expect(memcmp(lent.log, by_last_row, sizeof by_last_row) == 0, "the last row of the guarded table is taken");
}

/* The longest frame, which fills its area: 30 times 0x7E and 65 times 0x7D. Then a stretch that is no frame's. */
static void use_frames(void)
{
    *framed.number = 0x7E;
    memset(framed.data, 0x7E, TRUNHOAC_FRAME_DATA);
    memset(framed.data, 0x7D, 65);
    size_t length = trunhoac_frame_write(framed.number, 0x7E, framed.data, TRUNHOAC_FRAME_DATA,
                                         framed.area, TRUNHOAC_FRAME_BYTES);
    expect(length == TRUNHOAC_FRAME_BYTES, "the frame ends where its area does");
    memcpy(framed.piece, framed.area, length);
    trunhoac_reader_fresh(framed.reader);
    trunhoac_reader_feed(framed.reader, framed.piece, length, framed.read, framed.frame);
    expect(*framed.read == length && framed.frame->complete == 1, "the frame ends where its piece does");
    expect(memcmp(framed.frame->data, framed.data, TRUNHOAC_FRAME_DATA) == 0, "all its data come back");
    memset(framed.piece, 0, length);
    trunhoac_reader_feed(framed.reader, framed.piece, length, framed.read, framed.frame);
    expect(*framed.read == length && framed.frame->complete == 0, "a piece is read to its end");
}

static void use_chart_calls(void)
{
    expect(chart_check(lent.chart, two_states.length) == 0, "the chart is good");
    expect(chart_flatten(lent.chart, two_states.length, lent.slot, TRUNHOAC_SLOT_BYTES) == 0, "and is flattened");
    expect(memcmp(lent.slot, lent.tables, TRUNHOAC_SLOT_BYTES) == 0, "as the kernel flattens it");
    expect(chart_check_guarded(lent.guarded_chart, six_levels.length) == 0, "the guarded chart is good");
    expect(chart_flatten_guarded(lent.guarded_chart, six_levels.length, lent.guarded_table, TRUNHOAC_GUARDED_AREA) == 0,
           "and is flattened");
    expect(memcmp(lent.guarded_table, lent.guarded, TRUNHOAC_GUARDED_AREA) == 0, "as the kernel flattens it");
}

static void test_side(enum side side)
{
    lend_all(side);
    expect(is_lent, "the memory is there");
    if (!is_lent)
        return;
    memcpy(lent.chart, two_states.bytes, two_states.length);
    memcpy(lent.guarded_chart, six_levels.bytes, six_levels.length);
    use_edges();
    use_chart_calls();
    use_frames();
}

void test_edges(void)
{
    now_at("edges, flush with the page behind", 0);
    test_side(AT_THE_END);
    now_at("edges, flush with the page before", 0);
    test_side(AT_THE_START);
}
