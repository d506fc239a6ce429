/* border: what only the border can break, tried from C: the answer's layout, lengths and pointers as they cross, and the memory around what
 * is lent, by one call for each kind of answer, and the stack that a call takes. Which number is due is left to the proofs and to the trials in
 * rust/. Prints a line for each trial that failed; its exit status is 0 only if none did. */
#include <inttypes.h>
#include <stdio.h>
#include <string.h>

#include "lent.h"
#include "stack.h"
#include "station.h"

/* Three bytes; and, by the writer's durations, when DATA is let go and taken for each. */
enum { COUNT = 3, LENGTH = 80 * COUNT + 36, STEPS = 20 * COUNT + 5 };
static const uint8_t string[COUNT] = {0x41, 0x00, 0xFF};
static const uint32_t ledger_due[2 * COUNT] = {1350, 1380, 2730, 2760, 4390, 4420};

/* The same of the commands that as_commands makes of them. */
static const uint32_t command_ledger_due[2 * COUNT] = {1350, 1380, 2730, 2760, 4110, 4140};

/* A judge of the library, and what its ledger is to begin with. */
struct judge {
    struct station_answer (*judge)(const uint8_t *, size_t, uint8_t *, size_t, uint32_t *, size_t);
    const uint32_t *ledger_due;
};
static const struct judge of_data = {station_judge, ledger_due}, of_commands = {station_judge_command, command_ledger_due};

static int failed;

static void holds(const char *what, const char *part, int is_so) {
    if (!is_so) {
        failed = 1;
        printf("FAILED %s: %s\n", what, part);
    }
}

static struct station_answer answer(uint32_t number, uint32_t tick, uint32_t step, uint32_t count) {
    struct station_answer made = {number, tick, step, count};
    return made;
}

static void is_answer(const char *what, struct station_answer due, struct station_answer got) {
    int is_same = due.number == got.number && due.tick == got.tick && due.step == got.step && due.count == got.count;
    holds(what, "answer", is_same);
    if (!is_same) {
        printf("  wanted: %" PRIu32 " %" PRIu32 " %" PRIu32 " %" PRIu32 "\n", due.number, due.tick, due.step, due.count);
        printf("  got:    %" PRIu32 " %" PRIu32 " %" PRIu32 " %" PRIu32 "\n", got.number, got.tick, got.step, got.count);
    }
}

/* The answer comes back in registers, and not by this header. */
static void try_layout(void) {
    holds("an answer", "16 bytes", sizeof(struct station_answer) == 16);
    holds("an answer", "number first", offsetof(struct station_answer, number) == 0);
    holds("an answer", "tick second", offsetof(struct station_answer, tick) == 4);
    holds("an answer", "step third", offsetof(struct station_answer, step) == 8);
    holds("an answer", "count fourth", offsetof(struct station_answer, count) == 12);
    holds("a word", "32 bytes", sizeof(struct station_word) == 32);
    holds("the longest recording", "its length", STATION_LONGEST_RECORDING == 16 + 4 * STATION_MOST_STEPS);
}

/* Judges a recording with buffers of so many places, and tries the answer and every place of them: what is counted is the string. */
static void judges(const char *what, struct judge by, const uint8_t *recording, size_t byte_room, size_t ledger_room,
                   struct station_answer due) {
    size_t ticks_length = 2 * due.count * sizeof(uint32_t);
    for (int filling = 0; filling < FILLINGS; filling++) {
        struct shut file = shut(recording, LENGTH, 0);
        struct lent bytes = lend(byte_room, filling);
        struct lent ledger = lend(ledger_room * sizeof(uint32_t), filling);
        uint32_t *ticks = (uint32_t *)(void *)ledger.places;
        is_answer(what, due, by.judge(file.bytes, LENGTH, bytes.places, byte_room, ticks, ledger_room));
        holds(what, "bytes", memcmp(bytes.places, string, due.count) == 0);
        holds(what, "ledger", memcmp(ticks, by.ledger_due, ticks_length) == 0);
        holds(what, "further bytes are kept", is_kept_from(bytes, due.count));
        holds(what, "further ledger places are kept", is_kept_from(ledger, ticks_length));
        take_back(ledger);
        take_back(bytes);
        open_up(file);
    }
}

/* Writes bytes to a destination so long, and tries the answer and the places that are to be kept. */
static void writes(const char *what, const uint8_t *bytes, size_t length, size_t room, struct station_answer due) {
    for (int filling = 0; filling < FILLINGS; filling++) {
        struct shut given = shut(bytes, length, 0);
        struct lent destination = lend(room, filling);
        is_answer(what, due, station_write(given.bytes, length, destination.places, room));
        holds(what, "further places are kept", is_kept_from(destination, due.count));
        take_back(destination);
        open_up(given);
    }
}

/* A pass, as it is and with more room, and a place of either buffer too few. */
static void try_rooms(struct judge by, const uint8_t *recording, struct station_answer pass) {
    struct station_answer short_buffers = answer(STATION_SHORT_BUFFERS, 0, 0, 0);
    judges("a pass", by, recording, STATION_BYTE_ROOM, STATION_LEDGER_ROOM, pass);
    judges("a pass with more room", by, recording, STATION_BYTE_ROOM + 1, STATION_LEDGER_ROOM + 1, pass);
    judges("a byte place too few", by, recording, STATION_BYTE_ROOM - 1, STATION_LEDGER_ROOM, short_buffers);
    judges("a ledger place too few", by, recording, STATION_BYTE_ROOM, STATION_LEDGER_ROOM - 1, short_buffers);
}

static void try_judge(const uint8_t *recording) {
    uint8_t changed[LENGTH];
    try_rooms(of_data, recording, answer(STATION_COMPLETE, 4670, STEPS - 1, COUNT));
    memcpy(changed, recording, LENGTH);
    changed[LENGTH - 2] = 4;
    judges("DATA held at the end", of_data, changed, STATION_BYTE_ROOM, STATION_LEDGER_ROOM, answer(STATION_CUT, 4770, STEPS, COUNT));
    changed[16 + 4 * 42 + 3] = 1;
    judges("a mark on step 42", of_data, changed, STATION_BYTE_ROOM, STATION_LEDGER_ROOM, answer(STATION_OVERRUN, 3010, 42, COUNT - 1));
    changed[16 + 4 * 12 + 3] = 2;
    judges("a last byte of 2", of_data, changed, STATION_BYTE_ROOM, STATION_LEDGER_ROOM, answer(STATION_STRAY_BITS, 0, 12, 0));
}

/* Makes a command recording of the one that was written of so many bytes: ATN is pulled in all steps but the last two, of which the first
 * shows (1,1), and the last byte's gap of 220 ticks, the acknowledgement and the 40 ticks after it become a gap of 60. */
static void as_commands(uint8_t *recording, size_t count) {
    size_t last_gap = 20 * (count - 1) + 2, finish = 20 * count + 3;
    for (size_t step = 0; step < finish; step++) {
        recording[16 + 4 * step + 2] |= 1;
    }
    for (size_t step = last_gap; step < last_gap + 3; step++) {
        recording[16 + 4 * step] = 20;
        recording[16 + 4 * step + 2] = 1;
    }
    recording[16 + 4 * finish + 2] = 6;
    uint32_t total = 0;
    for (size_t step = 0; step < finish + 2; step++) {
        total += recording[16 + 4 * step];
    }
    for (size_t place = 0; place < 4; place++) {
        recording[8 + place] = (uint8_t)(total >> 8 * place);
    }
}

static void try_judge_command(const uint8_t *recording) {
    uint8_t commands[LENGTH];
    memcpy(commands, recording, LENGTH);
    as_commands(commands, COUNT);
    try_rooms(of_commands, commands, answer(STATION_COMPLETE, 4340, STEPS - 2, COUNT));
    judges("commands as data", of_data, commands, STATION_BYTE_ROOM, STATION_LEDGER_ROOM, answer(STATION_ATTENTION, 0, 0, 0));
    judges("data as commands", of_commands, recording, STATION_BYTE_ROOM, STATION_LEDGER_ROOM, answer(STATION_ATTENTION_RELEASED, 0, 0, 0));
    commands[16 + 4 * (STEPS - 2) + 3] = 1;
    judges("a mark on the finish", of_commands, commands, STATION_BYTE_ROOM, STATION_LEDGER_ROOM,
           answer(STATION_OVERRUN, 4340, STEPS - 2, COUNT - 1));
    commands[16 + 4 * (STEPS - 3) + 2] = 6;
    judges("ATN released with the take", of_commands, commands, STATION_BYTE_ROOM, STATION_LEDGER_ROOM,
           answer(STATION_ATTENTION_RELEASED, 4140, STEPS - 3, COUNT - 1));
    commands[16 + 4 * 12 + 3] = 2;
    judges("a last byte of 2 in commands", of_commands, commands, STATION_BYTE_ROOM, STATION_LEDGER_ROOM,
           answer(STATION_STRAY_BITS, 0, 12, 0));
}

static void try_writer(void) {
    static const uint8_t too_many[STATION_MOST_BYTES + 1];
    writes("written", string, COUNT, LENGTH + 1, answer(STATION_WRITTEN, 0, 0, LENGTH));
    writes("a destination that is a byte short", string, COUNT, LENGTH - 1, answer(STATION_SHORT_DESTINATION, 0, 0, 0));
    writes("800 bytes", too_many, sizeof too_many, 65536, answer(STATION_TOO_MANY_BYTES, 0, 0, 0));
}

/* A null with a length of 0. */
static void try_null(const uint8_t *recording) {
    uint8_t none[STATION_WRITTEN_LENGTH(0)];
    is_answer("nothing to judge", answer(STATION_SHORT_FILE, 0, 0, 0), station_judge(NULL, 0, NULL, 0, NULL, 0));
    is_answer("no commands to judge", answer(STATION_SHORT_FILE, 0, 0, 0), station_judge_command(NULL, 0, NULL, 0, NULL, 0));
    is_answer("no buffers", answer(STATION_SHORT_BUFFERS, 0, 0, 0), station_judge(recording, LENGTH, NULL, 0, NULL, 0));
    is_answer("nothing to write", answer(STATION_WRITTEN, 0, 0, sizeof none), station_write(NULL, 0, none, sizeof none));
    is_answer("nowhere to write", answer(STATION_SHORT_DESTINATION, 0, 0, 0), station_write(NULL, 0, NULL, 0));
}

/* Lengths cross whole: the low half of this one is the recording's, and with 4 GiB behind it it is none. */
static void try_long_file(const uint8_t *recording) {
    size_t zeros = (size_t)1 << 32;
    struct shut file = shut(recording, LENGTH, zeros);
    struct station_answer got = station_judge(file.bytes, LENGTH + zeros, NULL, 0, NULL, 0);
    is_answer("a recording and 4 GiB", answer(STATION_WRONG_LENGTH, 0, 0, 0), got);
    open_up(file);
}

/* The longest string, written and judged. */
static uint8_t longest[STATION_LONGEST_RECORDING];
static uint8_t longest_bytes[STATION_BYTE_ROOM];
static uint32_t longest_ledger[STATION_LEDGER_ROOM];
static struct station_answer kept;
static struct station_word kept_word;

static void call_nothing(void) {}

static void call_write(void) {
    kept = station_write(longest_bytes, STATION_MOST_BYTES, longest, sizeof longest);
}

static void call_judge(void) {
    size_t length = STATION_WRITTEN_LENGTH(STATION_MOST_BYTES);
    kept = station_judge(longest, length, longest_bytes, STATION_BYTE_ROOM, longest_ledger, STATION_LEDGER_ROOM);
}

static void call_judge_command(void) {
    size_t length = STATION_WRITTEN_LENGTH(STATION_MOST_BYTES);
    kept = station_judge_command(longest, length, longest_bytes, STATION_BYTE_ROOM, longest_ledger, STATION_LEDGER_ROOM);
}

static void call_command_name(void) {
    kept_word = station_command_name(0x28);
}

static void call_name(void) {
    kept_word = station_name(STATION_COMPLETE);
}

static void try_stack(void) {
    size_t nothing = stack_of(call_nothing);
    holds("the writer", "stack", stack_of(call_write) < nothing + STATION_STACK && kept.number == STATION_WRITTEN);
    holds("the judge", "stack", stack_of(call_judge) < nothing + STATION_STACK && kept.number == STATION_COMPLETE);
    holds("a name", "stack", stack_of(call_name) < nothing + STATION_STACK && strcmp(kept_word.text, "complete") == 0);
    holds("a class's name", "stack", stack_of(call_command_name) < nothing + STATION_STACK && strcmp(kept_word.text, "listen") == 0);
    as_commands(longest, STATION_MOST_BYTES);
    holds("the judge of commands", "stack", stack_of(call_judge_command) < nothing + STATION_STACK && kept.number == STATION_COMPLETE);
}

int main(void) {
    uint8_t recording[LENGTH];
    try_layout();
    is_answer("a string", answer(STATION_WRITTEN, 0, 0, LENGTH), station_write(string, COUNT, recording, LENGTH));
    try_judge(recording);
    try_judge_command(recording);
    try_writer();
    try_null(recording);
    try_long_file(recording);
    try_stack();
    return failed;
}
