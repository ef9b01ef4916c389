/*
 * Plays the random traces of crates/vectors, and compares every reply with the one that the model gave.
 *
 * A trace is the letter of its folder of charts, its length in two bytes, low byte first, and its bytes.
 */
#include "test.h"

enum { HEADER_BYTES = 3, MOST_FOLDER = 1024 };

struct files {
    const char *folder;
    FILE *traces;
    FILE *replies;
};

static bool is_next_reply(FILE *replies, const uint8_t *reply)
{
    uint8_t due[TRUNHOAC_REPLY_BYTES];
    return fread(due, 1, sizeof due, replies) == sizeof due && memcmp(due, reply, sizeof due) == 0;
}

/* The last piece of a trace may be shorter than a record. */
static unsigned long play_trace(const struct files *files, const uint8_t *header)
{
    char charts[MOST_FOLDER];
    uint8_t record[TRUNHOAC_RECORD_BYTES];
    size_t left = header[1] + 256u * header[2];
    unsigned long number = 0;

    snprintf(charts, sizeof charts, "%s/data/%c", files->folder, header[0]);
    now_at(charts, 0);
    lend_fresh(FILL);
    while (left > 0) {
        size_t length = left < sizeof record ? left : sizeof record;
        number++;
        now_at(charts, number);
        if (fread(record, 1, length, files->traces) != length) {
            expect(false, "the trace is as long as it says");
            return number;
        }
        expect(is_next_reply(files->replies, answer(charts, record, length)), "the reply");
        left -= length;
    }
    return number;
}

static unsigned long play_traces(const struct files *files)
{
    uint8_t header[HEADER_BYTES];
    unsigned long compared = 0;
    size_t read;

    while ((read = fread(header, 1, sizeof header, files->traces)) == sizeof header)
        compared += play_trace(files, header);
    now_at(files->folder, compared);
    expect(read == 0, "nothing stands behind the last trace");
    expect(getc(files->replies) == EOF, "nor behind the last reply");
    return compared;
}

unsigned long test_vectors(const char *folder)
{
    struct files files = {folder, open_in(folder, "stdin"), open_in(folder, "stdout")};
    unsigned long compared = 0;

    now_at(folder, 0);
    expect(files.traces != NULL && files.replies != NULL, "the traces and their replies are there");
    if (files.traces != NULL && files.replies != NULL)
        compared = play_traces(&files);
    if (files.traces != NULL)
        fclose(files.traces);
    if (files.replies != NULL)
        fclose(files.replies);
    return compared;
}
