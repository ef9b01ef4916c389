/*
 * The sample night as a host: two devices on the shift chart, and an alarm on a chart with a condition. This host
 * carries an action out by printing its name. The commands are those of samples/night/commands.txt; what is printed of
 * them comes from the replies.
 */
#include "trunhoac.h"

#include <stdio.h>
#include <stdlib.h>

enum { INFUSION_PUMP = 5, VENTILATOR = 9, ALARM = 12 };                        /* objects */
enum { RECORD_LOADED = 5, NOTE = 6, READ_BACK = 8, READING = 9, SIGNED = 11 }; /* signals of the shift chart */
enum { SILENCE = 14 };                                                         /* and one of the alarm chart */
enum { SHIFT_SLOT = 0, ALARM_SLOT = TRUNHOAC_GUARDED_SLOT };                   /* slots */
enum { REMINDER = 0, EARLY_NOTES = 0, NOTE_OPEN = 1 };                         /* a timer, a side queue and a flag */
enum { SMALL_BLOCKS = 32 };                                                    /* of 16 bytes: all events here fit */

static const char *const devices[TRUNHOAC_OBJECTS + 1] = {
    [INFUSION_PUMP] = "infusion pump", [VENTILATOR] = "ventilator", [ALARM] = "ventilator's alarm"};
static const char *const actions[UINT8_MAX + 1] = {
    [10] = "switch on",              [11] = "open the shift log",    [12] = "close the shift log",
    [13] = "show the ward",          [15] = "begin the shift again", [21] = "light the ready lamp",
    [22] = "put out the ready lamp", [26] = "take up the fault",     [31] = "open a note",
    [32] = "save the note",          [33] = "begin a line",          [37] = "date the note",
    [38] = "read the note back",     [40] = "strike the line out",   [41] = "show the keyboard",
    [42] = "hide the keyboard",      [49] = "write down a reading",  [51] = "ask for a signature",
    [52] = "put the pen away",       [59] = "sign the note",         [60] = "switch the alarm on",
    [61] = "watch the pressure",     [62] = "stop the watch",        [63] = "begin with a test",
    [64] = "ask for a note",         [71] = "sound the alarm",       [72] = "stop the sound",
    [74] = "write it into the note", [81] = "light the watch lamp",  [82] = "put out the watch lamp",
    [83] = "name the fault",
};

/* That of samples/night/chart4.txt. A host may have a chart in its code, as this one, or in a file, as the other. */
static const uint8_t alarm_chart[] = {
    3, 1, 60, 0,  0, 0,  0, 0, /* top */
    1, 0, 61, 62, 2, 63, 0, 0, /* state 1 */
    1, 1, 71, 72, 0, 0,  0, 0, /* state 2, sounding */
    1, 1, 81, 82, 0, 0,  0, 0, /* state 3, silent */
    2, 1, 14, 0,  0, 64, 0, 0, /* the first row */
    2, 2, 14, 1,  3, 74, 1, 0, /* this one counts while flag 1 is up */
    2, 3, 13, 1,  2, 83, 0, 0,
};

static const char *const answers[] = {"DONE", "FORM", "AREA", "RANGE", "BUSY", "NOSTEP", "IDLE", "STALE", "ABSENT",
                                      "TAKEN", "FULL", "DRY", "HOLDS", "INUSE", "CHART", "TABLE"};

static struct trunhoac_kernel kernel;
static const uint8_t *chart; /* for the next LOAD */
static size_t chart_length;
static uint8_t payloads[TRUNHOAC_PAYLOAD_AREA], tables[TRUNHOAC_TABLE_AREA], guarded[TRUNHOAC_GUARDED_AREA];
static uint8_t steps[TRUNHOAC_LOG_AREA];
static uint8_t record[TRUNHOAC_RECORD_BYTES], reply[TRUNHOAC_REPLY_BYTES];
static const uint8_t *const values = reply + TRUNHOAC_AT_VALUES;
static uint8_t least_free; /* of the small blocks, as the last NEW told */

/* Has a record answered, and names the answer. */
static const char *ask(const uint8_t *filled)
{
    trunhoac_command(&kernel, filled, TRUNHOAC_RECORD_BYTES, chart, chart_length, payloads, sizeof payloads,
                     tables, sizeof tables, guarded, sizeof guarded, steps, sizeof steps, reply);
    return answers[reply[TRUNHOAC_AT_NUMBER]];
}

/* The same, for a command that is not to be refused. */
static void demand(const char *command, const uint8_t *filled)
{
    const char *answer = ask(filled);
    if (reply[TRUNHOAC_AT_NUMBER] != TRUNHOAC_DONE) {
        fprintf(stderr, "%s is refused: %s\n", command, answer);
        exit(EXIT_FAILURE);
    }
}

static const char *plural(uint8_t count)
{
    return count == 1 ? "" : "s";
}

/* The reply to START or NEXT, or a line of DRAIN's log, says who has to do what. A start has no signal. */
static void carry_out(const uint8_t *step)
{
    const uint8_t *todo = step + TRUNHOAC_AT_ACTIONS;
    printf("%s", devices[step[TRUNHOAC_AT_OBJECT]]);
    if (trunhoac_signal(step) != 0)
        printf(", signal %u", trunhoac_signal(step));
    for (size_t i = 0; i < step[TRUNHOAC_AT_COUNT]; i++)
        printf("%s %s", i == 0 ? ":" : ";", actions[todo[i]] != NULL ? actions[todo[i]] : "an unknown action");
    printf("%s\n", step[TRUNHOAC_AT_COUNT] == 0 ? ": nothing to do" : "");
}

static void load(const char *name, uint8_t slot, const uint8_t *bytes, size_t length)
{
    chart = bytes;
    chart_length = length;
    demand("LOAD", trunhoac_fill_load(record, slot));
    printf("The %s chart is loaded: %u states\n", name, values[0]);
}

static void start(uint8_t device, uint8_t slot, uint8_t depth)
{
    demand("START", trunhoac_fill_start(record, device, slot, depth));
    carry_out(reply);
}

static void begin(const char *chart_path)
{
    static uint8_t bytes[TRUNHOAC_MOST_CHART_BYTES + 1]; /* so that a file that is too long is refused, not cut off */
    size_t length = 0;
    FILE *file = fopen(chart_path, "rb");
    if (file != NULL) { /* a chart that is not there is refused as an empty one */
        length = fread(bytes, 1, sizeof bytes, file);
        fclose(file);
    }
    trunhoac_fresh(&kernel);
    load("shift", SHIFT_SLOT, bytes, length);
    start(VENTILATOR, SHIFT_SLOT, 4);
    start(INFUSION_PUMP, SHIFT_SLOT, 1);
}

static struct trunhoac_handle make_event(uint8_t signal, const uint8_t *bytes, uint8_t size)
{
    demand("NEW", trunhoac_fill_new(record, signal, bytes, size));
    least_free = trunhoac_least_free_in(reply);
    return trunhoac_handle_in(reply);
}

static struct trunhoac_handle publish_note(void)
{
    static const uint8_t bytes[] = {7, 8, 9};
    demand("SUBSCRIBE", trunhoac_fill_subscribe(record, VENTILATOR, NOTE));
    demand("SUBSCRIBE", trunhoac_fill_subscribe(record, INFUSION_PUMP, NOTE));
    struct trunhoac_handle note = make_event(NOTE, bytes, sizeof bytes);
    demand("PUBLISH", trunhoac_fill_publish(record, note));
    printf("A note of three bytes, signal %u, is published: %u receivers\n", NOTE, values[0]);
    return note;
}

static void post_reading(void)
{
    struct trunhoac_handle reading = make_event(READING, NULL, 0);
    printf("A second note for the infusion pump is refused: %s\n",
           ask(trunhoac_fill_post(record, reading, INFUSION_PUMP, 0)));
    demand("POST", trunhoac_fill_post(record, reading, VENTILATOR, 0));
    printf("The ventilator takes it: %u queued\n", values[0]);
}

/* Answers the event's handle. */
static struct trunhoac_handle open_step(void)
{
    demand("NEXT", trunhoac_fill_next(record));
    carry_out(reply);
    return trunhoac_handle_in(reply);
}

static void close_step(void)
{
    demand("END", trunhoac_fill_end(record));
    printf("The event %s\n", values[0] == 1 ? "is freed" : "stays");
}

static void take_step(void)
{
    open_step();
    close_step();
}

static void drain(void)
{
    demand("DRAIN", trunhoac_fill_drain(record, 10));
    printf("Drained in %u steps, and %s is queued\n", values[0], values[1] == 1 ? "nothing" : "something");
    for (size_t i = 0; i < values[0]; i++)
        carry_out(steps + i * TRUNHOAC_REPLY_BYTES);
}

static void post_new(uint8_t signal, const uint8_t *bytes, uint8_t size, uint8_t device)
{
    struct trunhoac_handle event = make_event(signal, bytes, size);
    demand("POST", trunhoac_fill_post(record, event, device, 0));
}

static void set_note_aside(void)
{
    static const uint8_t bytes[] = {4, 5, 6};
    printf("A note for the infusion pump comes before its device record has loaded\n");
    post_new(NOTE, bytes, sizeof bytes, INFUSION_PUMP);
    open_step();
    demand("DEFER", trunhoac_fill_defer(record, EARLY_NOTES));
    printf("Set aside: %u note%s\n", values[0], plural(values[0]));
    close_step();
}

static void sign_note(void)
{
    printf("The technician signs the ventilator's note, and only then is it saved\n");
    post_new(SIGNED, NULL, 0, VENTILATOR);
    take_step();
}

static void show_bytes(const char *what, struct trunhoac_handle event)
{
    size_t place, length;
    demand("READ", trunhoac_fill_read(record, event));
    trunhoac_read(&kernel, record, sizeof record, payloads, sizeof payloads, &place, &length);
    printf("%s:", what);
    for (size_t i = 0; i < length; i++)
        printf(" %u", payloads[place + i]);
    printf("\n");
}

static void recall_note(void)
{
    printf("The infusion pump's device record has loaded\n");
    post_new(RECORD_LOADED, NULL, 0, INFUSION_PUMP);
    open_step();
    demand("RECALL", trunhoac_fill_recall(record, EARLY_NOTES, INFUSION_PUMP));
    printf("Recalled: %u note%s\n", values[0], plural(values[0]));
    close_step();
    show_bytes("The note that was set aside", open_step());
    close_step();
}

static void read_and_release(struct trunhoac_handle note)
{
    show_bytes("The note that was kept", note);
    demand("RELEASE", trunhoac_fill_release(record, note));
    printf("Released: %u hold%s, the event %s\n", values[0], plural(values[0]), values[1] == 1 ? "is freed" : "stays");
    printf("Read again: %s\n", ask(trunhoac_fill_read(record, note)));
}

/* The first time the button finds no note open, and asks for one; the second time it silences the alarm. */
static void test_alarm(void)
{
    load("alarm", ALARM_SLOT, alarm_chart, sizeof alarm_chart);
    start(ALARM, ALARM_SLOT, 2);
    struct trunhoac_handle pressed = make_event(SILENCE, NULL, 0);
    for (int i = 0; i < 2; i++)
        demand("POST", trunhoac_fill_post(record, pressed, ALARM, 0));
    printf("The button that silences the alarm is pressed twice: %u queued\n", values[0]);
    take_step();
    demand("FLAG", trunhoac_fill_flag(record, ALARM, NOTE_OPEN, 1));
    printf("A note is open: flag %u %s\n", NOTE_OPEN, values[0] == 1 ? "goes up" : "was up before");
    take_step();
}

int main(int argc, char **argv)
{
    begin(argc == 2 ? argv[1] : "");
    struct trunhoac_handle note = publish_note();
    post_reading();
    demand("HOLD", trunhoac_fill_hold(record, note));
    printf("The technician keeps the first note: %u hold%s\n", values[0], plural(values[0]));
    for (int i = 0; i < 2; i++)
        take_step();
    demand("ARM", trunhoac_fill_arm(record, REMINDER, VENTILATOR, READ_BACK, 2, 0));
    printf("A reminder is armed\n");
    for (int i = 0; i < 2; i++) {
        demand("TICK", trunhoac_fill_tick(record));
        printf("Tick: %u fired, %u late\n", values[0], values[1]);
    }
    drain();
    printf("Next: %s\n", ask(trunhoac_fill_next(record)));
    set_note_aside();
    sign_note();
    recall_note();
    read_and_release(note);
    test_alarm();
    printf("The least number of free small blocks tonight: %u of %u\n", least_free, SMALL_BLOCKS);
    return EXIT_SUCCESS;
}
