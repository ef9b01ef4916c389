/* What the files of the test offer each other. */
#ifndef TEST_H
#define TEST_H

#include "trunhoac.h"

#include <stdbool.h>
#include <stdio.h>

/* check.c: counts what holds, and tells what does not and where. */
struct score {
    unsigned long passed;
    unsigned long failed;
};

extern struct score score;

void now_at(const char *what, unsigned long number);
void expect(bool holds, const char *what);

/* lent.c: the memory that the calls are lent, between guards. */
struct chart {
    size_t length;
    uint8_t bytes[TRUNHOAC_MOST_CHART_BYTES + 1]; /* so that a file that is too long is a chart that is too long */
};

enum { FILL = 170, GUARD_BYTES = 64 };

/* A thing of no bytes is lent as NULL. */
static inline uint8_t *start_of(uint8_t *bytes, size_t length)
{
    return length == 0 ? NULL : bytes;
}

void lend_fresh(uint8_t fill);
const uint8_t *command(const uint8_t *record, size_t length, const struct chart *chart);
struct trunhoac_kernel *lent_kernel(void);
uint8_t *lent_guarded(void); /* the guarded table, for a test that writes to it as somebody else might */

/* layout.c: makes the block of the lent kernel as if it had been freed so often. */
void set_generation(size_t block, uint32_t generation);

/* framed.c: the memory that the calls for frames are lent, between guards. */
enum { MOST_FRAMED = 512, MOST_STREAM = 2048 }; /* of data and room, and of a stream */

size_t write_frame(uint8_t *number, uint8_t kind, const uint8_t *data, size_t size, size_t room);
const uint8_t *framed_area(void); /* the room that the last frame was written to */
const struct trunhoac_reader *lend_reader(uint8_t fill);
const struct trunhoac_frame *feed(const uint8_t *piece, size_t length, size_t *read);

/* written.c: what a command that is done has to write to an area, and where a block stands. */
size_t place_of(size_t block);
void write_payload(uint8_t *payloads, const uint8_t *record, const uint8_t *reply);
void write_table(uint8_t *tables, uint8_t *guarded, const uint8_t *record, const uint8_t *chart, size_t chart_length);
void write_log(uint8_t *log, struct trunhoac_kernel kernel, uint8_t *tables, uint8_t *guarded, size_t steps);

/* charts.c: charts that need no file. */
extern const struct chart two_states; /* of both editions: signal 6 leads from the first to the second */
extern const struct chart six_levels; /* guarded: each level has a row for the last signal, and each row a flag */

/* player.c: has a record answered, with the chart of a LOAD from a folder. */
const uint8_t *answer(const char *folder, const uint8_t *record, size_t length);
FILE *open_in(const char *folder, const char *name);

/* words.c: a record written in words, and the reply behind it. */
struct line {
    bool is_fresh;
    bool is_chart; /* the record is one of a chart, and has no reply */
    size_t length; /* 0 where the line has no record */
    uint8_t record[TRUNHOAC_RECORD_BYTES];
    uint8_t reply[TRUNHOAC_REPLY_BYTES];
};

bool read_words(char *text, struct line *line);

/* The tests. The first two answer how many replies they compared, the third how many cases. */
unsigned long test_vectors(const char *folder);
unsigned long test_doc_cases(const char *folder);
unsigned long test_frame_cases(const char *folder);
void test_layout(void);
void test_lives(void);
void test_areas(void);
void test_guarded(void);
void test_edges(void);
void test_records(void);
void test_frames(void);

#endif
