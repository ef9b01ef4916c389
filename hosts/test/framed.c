/*
 * The memory that the calls for frames are lent: each thing stands between guards, and every call is held to what it
 * has to write.
 */
#include "test.h"

/* The thing of 8 bytes comes first, and guards have a multiple of that: so no gap lies between things and guards. */
struct memory {
    uint8_t before_read[GUARD_BYTES];
    size_t read;
    uint8_t before_number[GUARD_BYTES];
    uint8_t number;
    uint8_t before_data[GUARD_BYTES];
    uint8_t data[MOST_FRAMED];
    uint8_t before_area[GUARD_BYTES];
    uint8_t area[MOST_FRAMED];
    uint8_t before_reader[GUARD_BYTES];
    struct trunhoac_reader reader;
    uint8_t before_piece[GUARD_BYTES];
    uint8_t piece[MOST_STREAM];
    uint8_t before_frame[GUARD_BYTES];
    struct trunhoac_frame frame;
    uint8_t behind_frame[GUARD_BYTES];
};

/* What is lent, and what it has to be after a call: a copy from before it, with what the call has to write. */
static struct memory lent;
static struct memory due;

static void before_call(void)
{
    memcpy(&due, &lent, sizeof lent);
}

static void expect_as_due(const char *what)
{
    expect(memcmp(&due, &lent, sizeof lent) == 0, what);
}

const uint8_t *framed_area(void)
{
    return lent.area;
}

size_t write_frame(uint8_t *number, uint8_t kind, const uint8_t *data, size_t size, size_t room)
{
    memset(lent.area, FILL, sizeof lent.area);
    lent.number = *number;
    if (size > 0)
        memcpy(lent.data, data, size);
    before_call();
    size_t length = trunhoac_frame_write(&lent.number, kind, start_of(lent.data, size), size,
                                         start_of(lent.area, room), room);
    expect(length <= room, "a frame lies within its area");
    if (0 < length && length <= room) {
        due.number++;
        memcpy(due.area, lent.area, length);
    }
    expect_as_due("the frame is written and the number moves by one, or nothing at all is written");
    *number = lent.number;
    return length;
}

const struct trunhoac_reader *lend_reader(uint8_t fill)
{
    memset(&lent.reader, fill, sizeof lent.reader);
    before_call();
    trunhoac_reader_fresh(&lent.reader);
    due.reader = lent.reader;
    expect_as_due("a fresh reader is written to its memory alone");
    return &lent.reader;
}

static bool all_zeros(const uint8_t *bytes, size_t length)
{
    while (length > 0 && bytes[length - 1] == 0)
        length--;
    return length == 0;
}

/* Zeros stand behind the data, and all is zeros where there is no frame. */
static bool is_well_told(const struct trunhoac_frame *frame)
{
    if (frame->complete == 0)
        return all_zeros((const uint8_t *)frame, sizeof *frame);
    return frame->complete == 1 && frame->gap <= 1 && frame->size <= sizeof frame->data
        && all_zeros(frame->data + frame->size, sizeof frame->data - frame->size);
}

const struct trunhoac_frame *feed(const uint8_t *piece, size_t length, size_t *read)
{
    memset(&lent.frame, FILL, sizeof lent.frame);
    lent.read = SIZE_MAX;
    if (length > 0)
        memcpy(lent.piece, piece, length);
    before_call();
    trunhoac_reader_feed(&lent.reader, start_of(lent.piece, length), length, &lent.read, &lent.frame);
    due.reader = lent.reader;
    due.read = lent.read;
    due.frame = lent.frame;
    expect_as_due("feeding writes the reader, how much was read, and the frame alone");
    expect(lent.read <= length && (lent.read > 0 || length == 0), "something is read, and no more than there is");
    expect(is_well_told(&lent.frame), "a frame is told, or nothing");
    *read = lent.read;
    return &lent.frame;
}
