/*
 * Plays the cases of crates/doc_cases, and compares every reply with the one written by hand from documents 01 and 02.
 *
 * The records of a chart between two commands are lent with the second; a LOAD with none before it has its slot's file.
 */
#include "test.h"

enum { MOST_LINE = 1024 };

/* Only as far as there is room: a chart that is cut off there is still too long. */
static void put_record(struct chart *chart, const struct line *line)
{
    size_t room = sizeof chart->bytes - chart->length;
    size_t size = line->length < room ? line->length : room;
    memcpy(chart->bytes + chart->length, line->record, size);
    chart->length += size;
}

static const uint8_t *answer_line(const char *charts, const struct line *line, const struct chart *chart)
{
    if (chart->length == 0)
        return answer(charts, line->record, line->length);
    return command(line->record, line->length, chart);
}

/* Answers whether the line had a reply to compare. */
static bool play_line(const char *charts, char *text, struct chart *chart)
{
    struct line line;
    if (!read_words(text, &line)) {
        expect(false, "the line can be read");
        return false;
    }
    if (line.is_fresh) {
        lend_fresh(FILL);
        chart->length = 0;
    }
    if (line.is_chart)
        put_record(chart, &line);
    if (line.is_chart || line.length == 0)
        return false;
    const uint8_t *reply = answer_line(charts, &line, chart);
    expect(memcmp(reply, line.reply, sizeof line.reply) == 0, "the reply");
    chart->length = 0;
    return true;
}

unsigned long test_doc_cases(const char *folder)
{
    char charts[MOST_LINE], text[MOST_LINE];
    struct chart chart = {0};
    unsigned long number = 0, compared = 0;
    FILE *cases = open_in(folder, "stdin");

    snprintf(charts, sizeof charts, "%s/data", folder);
    now_at(folder, 0);
    expect(cases != NULL, "the cases are there");
    if (cases == NULL)
        return 0;
    lend_fresh(FILL);
    while (fgets(text, sizeof text, cases) != NULL) {
        now_at("case in line", ++number);
        if (play_line(charts, text, &chart))
            compared++;
    }
    fclose(cases);
    return compared;
}
