/* Frames, as request 10 of document 02 has them. */
#include "test.h"

enum { BARE = 4, MOST_DATA = TRUNHOAC_FRAME_DATA }; /* the bytes of a frame without data or escapes; the most data */

static const uint8_t plain[MOST_FRAMED] = {1, 2, 3}; /* and zeros: nothing to escape */

/* Writes a frame where there is room for any, and answers its length. */
static size_t write_anywhere(uint8_t number, uint8_t kind, const uint8_t *data, size_t size)
{
    return write_frame(&number, kind, data, size, TRUNHOAC_FRAME_BYTES);
}

/* Feeds a frame as it was written, and expects it back. */
static void expect_back(size_t length, uint8_t number, uint8_t kind, bool gap, const uint8_t *data, size_t size)
{
    uint8_t sent[TRUNHOAC_FRAME_BYTES];
    size_t read;

    memcpy(sent, framed_area(), length);
    const struct trunhoac_frame *frame = feed(sent, length, &read);
    expect(read == length && frame->complete == 1, "a frame is read with its last byte");
    expect(frame->number == number && frame->kind == kind && frame->gap == gap, "number, record number and gap");
    expect(frame->size == size && (size == 0 || memcmp(frame->data, data, size) == 0), "the data");
}

/* The example of the book: number 0x7E, record 0x7D, data 7D 08 01. */
static void test_book(void)
{
    static const uint8_t data[] = {0x7D, 0x08, 0x01};
    static const uint8_t sent[] = {0x7D, 0x5E, 0x7D, 0x5D, 0x7D, 0x5D, 0x08, 0x01, 0x7D, 0x5E, 0x7E};
    uint8_t number = 0x7E;
    size_t length = write_frame(&number, 0x7D, data, sizeof data, sizeof sent);

    expect(length == sizeof sent && memcmp(framed_area(), sent, sizeof sent) == 0, "the bytes of the book");
    expect(number == 0x7F, "the number of the next");
    lend_reader(FILL);
    expect_back(length, 0x7E, 0x7D, false, data, sizeof data);
}

static void expect_refused(const uint8_t *data, size_t size, size_t room)
{
    uint8_t number = 255;
    expect(write_frame(&number, 0, data, size, room) == 0 && number == 255, "the frame is refused");
}

/* Room to the byte for a frame without escapes: its data, three bytes and 0x7E. */
static void test_room(void)
{
    for (size_t size = 0; size <= MOST_DATA; size++) {
        uint8_t number = 255;
        expect(write_frame(&number, 0, plain, size, size + BARE) == size + BARE, "exact room");
        expect(number == 0, "0 after 255");
        expect_refused(plain, size, size + BARE - 1);
    }
    expect_refused(NULL, 0, 0);
    expect_refused(plain, MOST_DATA + 1, TRUNHOAC_FRAME_BYTES);
    expect_refused(plain, MOST_DATA + 1, MOST_FRAMED);
    expect_refused(plain, MOST_FRAMED, MOST_FRAMED);
}

/* Every byte is escaped, the check byte too: 30 times 0x7E and 65 times 0x7D, number and record number counted. */
static void test_longest(void)
{
    uint8_t data[MOST_DATA], number = 0x7E;

    memset(data, 0x7E, 28);
    memset(data + 28, 0x7D, sizeof data - 28);
    expect(write_frame(&number, 0x7E, data, sizeof data, TRUNHOAC_FRAME_BYTES - 1) == 0, "a byte too little");
    size_t length = write_frame(&number, 0x7E, data, sizeof data, TRUNHOAC_FRAME_BYTES);
    expect(length == TRUNHOAC_FRAME_BYTES, "the longest frame");
    lend_reader(FILL);
    expect_back(length, 0x7E, 0x7E, false, data, sizeof data);
}

/* No gap at the first, nor where the number follows the last, 0 after 255; but where it is the same again. */
static void test_gaps(void)
{
    static const struct {
        uint8_t number;
        bool gap;
    } frames[] = {{254, false}, {255, false}, {0, false}, {0, true}, {2, true}, {3, false}};

    lend_reader(FILL);
    for (size_t i = 0; i < sizeof frames / sizeof frames[0]; i++) {
        size_t length = write_anywhere(frames[i].number, 9, plain, i);
        expect_back(length, frames[i].number, 9, frames[i].gap, plain, i);
    }
}

/* Each byte of a frame is damaged in turn: it is then no frame, and the one behind it tells a gap. */
static void test_damage(void)
{
    size_t read, length = write_anywhere(1, 9, plain, 3);
    uint8_t sent[TRUNHOAC_FRAME_BYTES];

    for (size_t place = 0; place + 1 < length; place++) {
        lend_reader(FILL);
        expect_back(write_anywhere(0, 9, plain, 0), 0, 9, false, plain, 0);
        write_anywhere(1, 9, plain, 3);
        memcpy(sent, framed_area(), length);
        sent[place]++;
        expect(feed(sent, length, &read)->complete == 0 && read == length, "a damaged frame is passed over");
        expect_back(write_anywhere(2, 9, plain, 1), 2, 9, true, plain, 1);
    }
}

/* A piece without bytes changes nothing, wherever it comes; nor does 0x7E where a frame starts. */
static void test_nothing(void)
{
    static const uint8_t end = 0x7E;
    size_t read, length = write_anywhere(7, 9, plain, 3);
    uint8_t sent[TRUNHOAC_FRAME_BYTES];

    memcpy(sent, framed_area(), length);
    lend_reader(FILL);
    expect(feed(&end, 1, &read)->complete == 0 && read == 1, "an empty stretch is no frame");
    for (size_t i = 0; i < length; i++) {
        expect(feed(NULL, 0, &read)->complete == 0 && read == 0, "an empty piece completes nothing");
        expect(feed(sent + i, 1, &read)->complete == (i + 1 == length), "the last byte alone completes the frame");
    }
}

void test_frames(void)
{
    now_at("frames", 0);
    test_book();
    test_room();
    test_longest();
    test_gaps();
    test_damage();
    test_nothing();
}
