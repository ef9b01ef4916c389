/*
 * Times frames: writing them, and reading streams of them in pieces.
 *
 * Each frame is told to a place of its own, and all of them are compared after
 * the timing.
 */
#include "../include/trunhoac.h"
#include "fail.h"
#include "timing.h"

#include <stdbool.h>

enum {
    FRAMES = 1000,
    ROUNDS = 1001,
    DATA = TRUNHOAC_REPLY_BYTES,
    MOST_SENT = 2 * (DATA + 3) + 1, /* of a frame: every byte escaped, and 0x7E */
    /* No frame is told with this in each byte: one that has it was not written. */
    FILL = 170
};

struct stream {
    size_t frames;
    size_t length;
    uint8_t data[FRAMES][DATA];
    uint8_t bytes[FRAMES * MOST_SENT];
};

static struct stream replies, escapes, noise;
static struct stream written;
static struct trunhoac_frame told[FRAMES + 1]; /* what completes no frame is told behind the last one */
static size_t told_count;

static void do_copy(const struct stream *stream, size_t piece)
{
    (void)piece;
    memcpy(written.bytes, stream->bytes, stream->length);
    written.length = stream->length;
    taken_as_used(&written);
}

/* A piece is here the room that is lent for a frame. */
static void do_write(const struct stream *stream, size_t piece)
{
    uint8_t number = 0;

    written.length = 0;
    for (size_t i = 0; i < stream->frames; i++)
        written.length += trunhoac_frame_write(&number, TRUNHOAC_NEXT, stream->data[i], DATA,
                                               written.bytes + written.length, piece);
}

static void do_read(const struct stream *stream, size_t piece)
{
    struct trunhoac_reader reader;
    size_t read;

    trunhoac_reader_fresh(&reader);
    told_count = 0;
    for (size_t start = 0; start < stream->length; start += piece) {
        size_t end = start + piece < stream->length ? start + piece : stream->length;
        for (size_t at = start; at < end; at += read) {
            trunhoac_reader_feed(&reader, stream->bytes + at, end - at, &read, &told[told_count]);
            told_count += told[told_count].complete;
        }
    }
}

/* Frame by frame: its number, which begins with 0 and goes on without a gap, and its data. */
static bool are_told(const struct stream *stream)
{
    for (size_t i = 0; i < stream->frames; i++) {
        const struct trunhoac_frame *frame = &told[i];
        if (frame->number != i % 256 || frame->kind != TRUNHOAC_NEXT || frame->gap != 0 || frame->size != DATA
            || memcmp(frame->data, stream->data[i], DATA) != 0)
            return false;
    }
    return told_count == stream->frames;
}

static bool is_written(const struct stream *stream)
{
    return written.length == stream->length && memcmp(written.bytes, stream->bytes, stream->length) == 0;
}

/* The first is no call of the library: it is timed in the same way to hold the others against. */
static const struct bench_case {
    const char *name;
    const struct stream *stream;
    void (*run)(const struct stream *stream, size_t piece);
    size_t piece;
    bool (*is_done)(const struct stream *stream);
} cases[] = {
    {"copy of the stream", &replies, do_copy, 0, is_written},
    {"write, 28 bytes of data", &replies, do_write, MOST_SENT, is_written},
    {"read, pieces of 4,096 bytes", &replies, do_read, 4096, are_told},
    {"read, pieces of 4 bytes", &replies, do_read, 4, are_told},
    {"read, byte by byte", &replies, do_read, 1, are_told},
    {"read, all data 0x7E", &escapes, do_read, 4096, are_told},
    {"read, noise", &noise, do_read, 4096, are_told},
};

enum { CASES = sizeof cases / sizeof cases[0] };

static double times[CASES][ROUNDS];

static double time_case(size_t c)
{
    const struct bench_case *timed = &cases[c];

    memset(&written, FILL, sizeof written);
    memset(told, FILL, sizeof told);
    double start = processor_time();
    timed->run(timed->stream, timed->piece);
    double end = processor_time();
    if (!timed->is_done(timed->stream))
        fail("not what was written", timed->name);
    return end - start;
}

/* Bytes that repeat after a long time, the same in every run. */
static uint8_t next_byte(void)
{
    static uint32_t state = 1;
    state = state * 1664525 + 1013904223;
    return (uint8_t)(state >> 24);
}

static void write_stream(struct stream *stream)
{
    stream->frames = FRAMES;
    do_write(stream, MOST_SENT);
    stream->length = written.length;
    memcpy(stream->bytes, written.bytes, written.length);
}

/* Answers to a NEXT with four actions; data of which each byte is escaped; bytes that are no frame. */
static void prepare_all(void)
{
    for (size_t i = 0; i < FRAMES; i++) {
        const uint8_t reply[DATA] = {0, 9, 70, 4, 0, 0, 26, 22, 31, 41, [TRUNHOAC_AT_HANDLE] = (uint8_t)(i % 56)};
        memcpy(replies.data[i], reply, DATA);
        memset(escapes.data[i], 0x7E, DATA);
    }
    write_stream(&replies);
    write_stream(&escapes);
    noise.length = replies.length;
    for (size_t i = 0; i < noise.length; i++)
        noise.bytes[i] = next_byte();
}

static void print_row(const struct bench_case *timed, struct spread ns)
{
    double bytes = (double)timed->stream->length;

    printf("| %s | %.2f | ", timed->name, ns.median / bytes);
    if (timed->stream->frames > 0)
        printf("%.1f", ns.median / (double)timed->stream->frames);
    printf(" | %.2f to %.2f |\n", ns.lower / bytes, ns.upper / bytes);
}

int main(void)
{
    prepare_all();
    time_in_rounds(time_case, CASES, ROUNDS, times);
    printf("%d rounds of %d frames with %d bytes of data: %zu bytes, and %zu where all data are 0x7E\n\n",
           ROUNDS, FRAMES, DATA, replies.length, escapes.length);
    puts("| Frames | ns a byte | ns a frame | Quartiles, ns a byte |\n|---|---:|---:|---:|");
    for (size_t c = 0; c < CASES; c++)
        print_row(&cases[c], spread_of(times[c], ROUNDS));
    return EXIT_SUCCESS;
}
