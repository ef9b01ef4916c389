/*
 * Runs the cases of crates/frame_cases, and compares what each gives with the lines that the model wrote for it.
 *
 * A case begins with its letter; of two bytes for a number the low one comes first:
 *     w    the frame's number, its record number, the area's room in two bytes, the data's size in two bytes, the data
 *     r    the stream's length in two bytes, the stream
 */
#include "test.h"

#include <stdarg.h>

enum { MOST_TEXT = 1 << 15 };

struct text {
    size_t length;
    char bytes[MOST_TEXT];
};

static void say(struct text *text, const char *format, ...)
{
    va_list words;
    size_t room = sizeof text->bytes - text->length;

    va_start(words, format);
    int length = vsnprintf(text->bytes + text->length, room, format, words);
    va_end(words);
    text->length += 0 < length && (size_t)length < room ? (size_t)length : 0;
}

static void say_bytes(struct text *text, const uint8_t *bytes, size_t length)
{
    say(text, ":");
    for (size_t i = 0; i < length; i++)
        say(text, " %d", bytes[i]);
    say(text, "\n");
}

static size_t next_number(FILE *cases)
{
    int low = getc(cases), high = getc(cases);
    return low == EOF || high == EOF ? SIZE_MAX : (size_t)low + 256u * (size_t)high;
}

static bool next_bytes(FILE *cases, uint8_t *bytes, size_t length, size_t most)
{
    return length <= most && fread(bytes, 1, length, cases) == length;
}

/* Each byte of the area, times its place counted from 1: what the frame is not, must be as it was. */
static uint32_t sum_of(const uint8_t *area, size_t room)
{
    uint32_t sum = 0;
    for (size_t i = 0; i < room; i++)
        sum += area[i] * (uint32_t)(i + 1);
    return sum;
}

static bool run_writer(FILE *cases, struct text *text)
{
    uint8_t data[MOST_FRAMED];
    int number = getc(cases), kind = getc(cases);
    size_t room = next_number(cases), size = next_number(cases);

    if (number == EOF || kind == EOF || room > MOST_FRAMED || !next_bytes(cases, data, size, sizeof data))
        return false;
    uint8_t next = (uint8_t)number;
    size_t length = write_frame(&next, (uint8_t)kind, data, size, room);
    const uint8_t *area = framed_area();
    if (length == 0) {
        say(text, "refused next %d sum %lu\n", next, (unsigned long)sum_of(area, room));
    } else {
        say(text, "written %zu next %d sum %lu", length, next, (unsigned long)sum_of(area, room));
        say_bytes(text, area, length);
    }
    return true;
}

static void read_piece(struct text *text, const uint8_t *piece, size_t length)
{
    size_t read;
    for (size_t at = 0; at < length; at += read) {
        const struct trunhoac_frame *frame = feed(piece + at, length - at, &read);
        if (frame->complete == 1) {
            say(text, "frame %d record %d%s", frame->number, frame->kind, frame->gap == 1 ? " gap" : "");
            say_bytes(text, frame->data, frame->size);
        }
        if (read == 0)
            return;
    }
}

/* In two pieces; with a cut behind the end, byte by byte. */
static void read_cut(struct text *text, const uint8_t *stream, size_t length, size_t cut)
{
    text->length = 0;
    text->bytes[0] = '\0';
    lend_reader(FILL);
    if (cut <= length) {
        read_piece(text, stream, cut);
        read_piece(text, stream + cut, length - cut);
    } else {
        for (size_t i = 0; i < length; i++)
            read_piece(text, stream + i, 1);
    }
}

static bool run_reader(FILE *cases, struct text *text)
{
    static struct text other;
    uint8_t stream[MOST_STREAM];
    size_t length = next_number(cases), alike = 0;

    if (!next_bytes(cases, stream, length, sizeof stream))
        return false;
    read_cut(text, stream, length, 0);
    for (size_t cut = 0; cut <= length + 1; cut++) {
        read_cut(&other, stream, length, cut);
        if (strcmp(text->bytes, other.bytes) == 0)
            alike++;
    }
    say(text, "cuts %zu\n", alike);
    return true;
}

/* The lines of a case: one of a writer, and of a reader those up to and with the cuts. */
static bool is_next(FILE *lines, const struct text *text)
{
    static char due[MOST_TEXT];
    size_t length = fread(due, 1, text->length, lines);
    return length == text->length && memcmp(due, text->bytes, length) == 0;
}

static unsigned long run_cases(FILE *cases, FILE *lines)
{
    static struct text text;
    unsigned long number = 0;
    bool alike = true;
    int letter;

    while (alike && (letter = getc(cases)) != EOF) {
        now_at("frame case", ++number);
        text.length = 0;
        bool is_whole = letter == 'w' ? run_writer(cases, &text) : letter == 'r' && run_reader(cases, &text);
        expect(is_whole, "the case can be read");
        alike = is_whole && is_next(lines, &text);
        expect(alike, "the lines of the model");
    }
    expect(!alike || getc(lines) == EOF, "nothing stands behind the last line");
    return number;
}

unsigned long test_frame_cases(const char *folder)
{
    FILE *cases = open_in(folder, "stdin"), *lines = open_in(folder, "stdout");
    unsigned long run = 0;

    now_at(folder, 0);
    expect(cases != NULL && lines != NULL, "the cases and their lines are there");
    if (cases != NULL && lines != NULL)
        run = run_cases(cases, lines);
    if (cases != NULL)
        fclose(cases);
    if (lines != NULL)
        fclose(lines);
    return run;
}
