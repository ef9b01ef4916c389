/*
 * Reads a record written in words, and the bytes of its reply behind `=`, a handle's behind `@`:
 *     POST 0 0 9 2 = 0 0 0 0 1
 *     NEW 6 20 = 0 0 0 15 @ 32 1
 * A number for a name is the first byte of a record, PIECE a record of just the bytes that follow, FRESH a mark.
 * TOP, STATE and ROW are the records of a chart, which have no reply; a flag is the last number of a ROW.
 */
#include "test.h"

#include <stdlib.h>

#define BLANKS " \t\r\n"

enum { GENERATION = 2, ARM_TICKS = 4, NEW_UNUSED = 3, PAYLOAD = 8, CHART_RECORD_BYTES = 8 };

enum { STATE = 1, ROW, TOP };

enum { LAST_COMMAND = TRUNHOAC_FLAG };

static const char *const names[] = {
    [TRUNHOAC_LOAD] = "LOAD",           [TRUNHOAC_START] = "START",
    [TRUNHOAC_NEW] = "NEW",             [TRUNHOAC_POST] = "POST",
    [TRUNHOAC_POSTFRONT] = "POSTFRONT", [TRUNHOAC_PUBLISH] = "PUBLISH",
    [TRUNHOAC_SUBSCRIBE] = "SUBSCRIBE", [TRUNHOAC_UNSUBSCRIBE] = "UNSUBSCRIBE",
    [TRUNHOAC_HOLD] = "HOLD",           [TRUNHOAC_RELEASE] = "RELEASE",
    [TRUNHOAC_DROP] = "DROP",           [TRUNHOAC_NEXT] = "NEXT",
    [TRUNHOAC_END] = "END",             [TRUNHOAC_ARM] = "ARM",
    [TRUNHOAC_DISARM] = "DISARM",       [TRUNHOAC_TICK] = "TICK",
    [TRUNHOAC_READ] = "READ",           [TRUNHOAC_DRAIN] = "DRAIN",
    [TRUNHOAC_DEFER] = "DEFER",         [TRUNHOAC_RECALL] = "RECALL",
    [TRUNHOAC_FLUSH] = "FLUSH",         [TRUNHOAC_FLAG] = "FLAG",
};

/* The commands whose first two numbers are a handle. */
static const bool names_event[LAST_COMMAND + 1] = {
    [TRUNHOAC_POST] = true,    [TRUNHOAC_POSTFRONT] = true, [TRUNHOAC_PUBLISH] = true, [TRUNHOAC_HOLD] = true,
    [TRUNHOAC_RELEASE] = true, [TRUNHOAC_DROP] = true,      [TRUNHOAC_READ] = true,
};

static const char *const kinds[] = {[STATE] = "STATE", [ROW] = "ROW", [TOP] = "TOP"};

/* 0 if the word is none of those, which are numbered from 1. */
static uint8_t number_of(const char *word, const char *const *those, uint8_t last)
{
    for (uint8_t i = 1; i <= last; i++)
        if (strcmp(word, those[i]) == 0)
            return i;
    return 0;
}

static bool read_number(const char *word, unsigned long most, unsigned long *number)
{
    char *end;
    if (*word < '0' || '9' < *word)
        return false;
    *number = strtoul(word, &end, 10);
    return *end == '\0' && *number <= most;
}

/* How many bytes a number takes: a generation three, each of the last two numbers of ARM two, any other one. */
static size_t width_at(uint8_t name, size_t at)
{
    if (names_event[name] && at == GENERATION)
        return 3;
    return name == TRUNHOAC_ARM && at >= ARM_TICKS ? 2 : 1;
}

/* A payload begins behind the arguments. The low byte of a number comes first. */
static bool put(struct line *line, uint8_t name, size_t *at, const char *word)
{
    unsigned long number;
    if (name == TRUNHOAC_NEW && *at == NEW_UNUSED)
        *at = PAYLOAD;
    size_t width = width_at(name, *at);
    if (*at + width > line->length || !read_number(word, (1ul << 8 * width) - 1, &number))
        return false;
    for (size_t i = 0; i < width; i++)
        line->record[(*at)++] = (uint8_t)(number >> 8 * i);
    return true;
}

/* Reads the words that strtok still has. */
static bool read_record(struct line *line, const char *first)
{
    bool is_piece = strcmp(first, "PIECE") == 0;
    uint8_t name = number_of(first, names, LAST_COMMAND);
    uint8_t kind = number_of(first, kinds, TOP);
    size_t at = 0;

    line->is_chart = kind != 0;
    line->length = line->is_chart ? CHART_RECORD_BYTES : sizeof line->record;
    if (name != 0)
        line->record[at++] = name;
    else if (line->is_chart)
        line->record[at++] = kind;
    else if (!is_piece && !put(line, name, &at, first))
        return false;
    for (const char *word = strtok(NULL, BLANKS); word != NULL; word = strtok(NULL, BLANKS))
        if (!put(line, name, &at, word))
            return false;
    if (is_piece)
        line->length = at;
    return line->length > 0;
}

/* At least one; the zeros at their end are not written. */
static bool read_bytes(uint8_t *bytes, size_t room, char *text)
{
    size_t at = 0;
    for (const char *word = strtok(text, BLANKS); word != NULL; word = strtok(NULL, BLANKS)) {
        unsigned long number;
        if (at == room || !read_number(word, UINT8_MAX, &number))
            return false;
        bytes[at++] = (uint8_t)number;
    }
    return at > 0;
}

/* A handle that is all zeros is not written. */
static bool read_reply(struct line *line, char *text)
{
    char *handle = strchr(text, '@');
    if (handle != NULL)
        *handle++ = '\0';
    return read_bytes(line->reply, TRUNHOAC_AT_HANDLE, text)
        && (handle == NULL || read_bytes(line->reply + TRUNHOAC_AT_HANDLE, sizeof(struct trunhoac_handle), handle));
}

bool read_words(char *text, struct line *line)
{
    char *end = text + strcspn(text, "#=");
    bool is_answered = *end == '=';

    memset(line, 0, sizeof *line);
    *end = '\0';
    const char *first = strtok(text, BLANKS);
    line->is_fresh = first != NULL && strcmp(first, "FRESH") == 0;
    if (first == NULL || line->is_fresh)
        return !is_answered;
    if (!read_record(line, first))
        return false;
    return line->is_chart ? !is_answered : is_answered && read_reply(line, end + 1);
}
