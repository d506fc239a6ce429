/* The station's judges and writer, for programs in C and C++, in libstation.a, which needs no other library. It is for Linux on x86-64. The
 * exact rules are in docs/RULES.md, installed as share/doc/station/RULES.md.
 *
 * ONLY THE NUMBER 20 IS A PASS. 0 is not: it is the writer's answer where it wrote. No other number is, small or large, and no count of
 * bytes makes one: a stream that broke off after 100 bytes has the count 100. Compare with STATION_COMPLETE and with nothing else.
 */
#ifndef STATION_H
#define STATION_H

#include <stddef.h>
#include <stdint.h>

/* The version of the whole: header, library, commands and Rust crate. */
#define STATION_VERSION "0.5.0"

#ifdef __cplusplus
extern "C" {
#endif

/* An answer's numbers. */
enum station_number {
    /* the one pass: the transfer was finished, and some sender and receiver that keep the rules could have made the recording */
    STATION_COMPLETE = 20,

    /* verdicts of the judges that are no pass */
    STATION_EMPTY_STREAM = 21,              /* the sender did not go on within 512 ticks, and no byte was handed over: a time-out */
    STATION_CUT = 22,                       /* the recording ended before the transfer was finished */
    STATION_ATTENTION = 23,                 /* ATN was pulled */
    STATION_NO_RECEIVER = 24,               /* nobody took DATA in the first 256 ticks */
    STATION_BAD_START = 25,                 /* CLK was not pulled at the first tick */
    STATION_OUT_OF_TURN = 26,               /* a line moved when it was not its turn */
    STATION_END_MARK_NOT_ACKNOWLEDGED = 27, /* the receiver did not answer the end mark in time */
    STATION_ACKNOWLEDGEMENT_SHORT = 28,     /* it held its answer for fewer than 60 ticks */
    STATION_ACKNOWLEDGEMENT_LONG = 29,      /* it held its answer for more than 150 ticks */
    STATION_LATE_CLOCK = 30,                /* after that answer the sender pulled CLK later than 60 ticks */
    STATION_SENDER_TIME_OUT = 31,           /* the sender did not go on within 512 ticks, after bytes were handed over */
    STATION_VALID_TIME_SHORT = 32,          /* a bit was valid for fewer than 20 ticks */
    STATION_DATA_MOVED = 33,                /* DATA moved with a bit's CLK release, or while the bit was valid */
    STATION_CLOCK_STALL = 34,               /* a bit's set-up or valid time was longer than 200 ticks */
    STATION_RECEIVER_TIME_OUT = 35,         /* a byte was not taken within 1,000 ticks */
    STATION_HURRIED = 36,                   /* the sender went on fewer than 100 ticks after the take */
    STATION_MOVED_AFTER_THE_END = 37,       /* a line moved after the transfer was finished */
    STATION_END_MARK_UNDER_ATTENTION = 38,  /* the sender stayed silent for 200 ticks, an end mark, while ATN was pulled */
    STATION_ATTENTION_RELEASED = 39,        /* ATN was released before the commands were finished */
    STATION_OVERRUN = 40,                   /* the recorder lost ticks before this step: nothing can be said of the transfer;
                                             * record it again */

    /* refusals of the judges: they are about the file or the memory lent, not about a drive */
    STATION_SHORT_FILE = 1,     /* fewer than 16 bytes */
    STATION_WRONG_VERSION = 2,  /* the version is not 1 */
    STATION_TOO_MANY_STEPS = 3, /* more than 16,000 steps */
    STATION_WRONG_OFFSET = 4,   /* the steps do not begin at 16 */
    STATION_WRONG_LENGTH = 5,   /* the length, by the header or truly, is not that of its steps */
    STATION_ZERO_DURATION = 6,  /* a step of no ticks */
    STATION_STRAY_BITS = 7,     /* a step with line bits beyond the four, or a last byte above 1 */
    STATION_WRONG_TOTAL = 8,    /* the total is not the sum of the steps */
    STATION_SHORT_BUFFERS = 9,  /* fewer than STATION_BYTE_ROOM bytes or STATION_LEDGER_ROOM ledger places were lent */

    /* the writer's answers; none of them says anything about a transfer */
    STATION_WRITTEN = 0,            /* the recording was written */
    STATION_TOO_MANY_BYTES = 10,    /* refused: more than STATION_MOST_BYTES bytes */
    STATION_SHORT_DESTINATION = 11, /* refused: a destination shorter than STATION_WRITTEN_LENGTH of the bytes given */

    /* refusals of the tray: what the command tray prints. No function of this library answers them; station_name names them */
    STATION_NO_SUCH_SEAT = 13,   /* seat 40 or above */
    STATION_VACANT_SEAT = 14,    /* posting to or removing from a vacant seat */
    STATION_SEAT_IN_USE = 15,    /* loading a seat in use */
    STATION_NOT_FORTY_SEATS = 16 /* the tray is not forty seats long */
};

/* The room that the judge must be lent: places of the byte buffer and of the ledger. */
#define STATION_BYTE_ROOM 1000
#define STATION_LEDGER_ROOM 2000

/* The most steps of a recording, and the length in bytes of a recording with so many. */
#define STATION_MOST_STEPS 16000
#define STATION_LONGEST_RECORDING 64016

/* The most bytes that the writer takes, and the length in bytes of the recording that it writes of n bytes. */
#define STATION_MOST_BYTES 799
#define STATION_WRITTEN_LENGTH(n) (80 * (size_t)(n) + 36)

/* An answer: one of the numbers above; the deciding tick, one tick being 1 us and the first one 0; the step of the recording that holds
 * that tick, the first one 0; and a count, of which each function says what it counts. */
struct station_answer {
    uint32_t number;
    uint32_t tick;
    uint32_t step;
    uint32_t count;
};

/* The stack that a call may need, in bytes. Measured were fewer than 600 for the judges, the writer and a class's name, and 1,400 for a number's
 * name. */
#define STATION_STACK 2048

/* All functions:
 * - may be called by many threads at once: they keep nothing between calls, allocate nothing, call nothing and print nothing. The memory
 *   lent to one call must not be lent to another, nor changed by anybody, while the call lasts; memory that is only read may be shared.
 * - must be lent as many places as the lengths say. A pointer whose length is 0 is not followed and may be null.
 * - take any bytes and any number at all, and always return. */

/* Judges one data transfer: ATN is released throughout.
 *
 * Lent by the caller:
 * - recording: recording_length bytes, any. They are only read. A file that is longer than STATION_LONGEST_RECORDING is always refused.
 *   Not all of it need be handed over: STATION_LONGEST_RECORDING + 1 bytes or more of its beginning are answered as the whole file is.
 *   Fewer may not be: they could pass for a recording that the file is not.
 * - bytes: at least STATION_BYTE_ROOM places, for the bytes that were handed over.
 * - ledger: at least STATION_LEDGER_ROOM places, aligned as uint32_t is, for two ticks of each of these bytes.
 * What they hold at the call does not matter. None of the three may overlap another.
 *
 * Comes back:
 * - A verdict, of which ONLY 20 IS A PASS: the deciding tick, the step that holds it, and as count how many bytes were handed over,
 *   always fewer than STATION_BYTE_ROOM. For 20 the tick is the one at which the transfer was finished; for 22 tick and step are the
 *   recording's total ticks and its number of steps. bytes begins with the count bytes; ledger begins with two ticks for each: when the
 *   sender let go of DATA and when the receiver took it. All further places keep what they held.
 * - A refusal of the judge: tick and count are 0; step is the offending one for 6 and 7 and otherwise 0. No place of bytes or ledger changes.
 *   The first that is due is given, in this order: 1, 2, 3, 4, 5; the steps first to last, 6 before 7 in each; 8; 9. A verdict is given only
 *   where none is due.
 */
struct station_answer station_judge(const uint8_t *recording, size_t recording_length, uint8_t *bytes, size_t bytes_length,
                                    uint32_t *ledger, size_t ledger_length);

/* Judges one command transfer: bytes that are sent while ATN is pulled, from the recording's first tick until the commands are finished,
 * and that say who is to listen or to talk. The finish is the first tick with ATN released.
 *
 * What is lent and what comes back is as for station_judge, refusals and their order too, and ONLY 20 IS A PASS. No recording passes both: one of
 * a data transfer gets STATION_ATTENTION_RELEASED here, and one of a command transfer STATION_ATTENTION there. An end mark has no place among
 * commands (STATION_END_MARK_UNDER_ATTENTION). station_command_class says what a byte means that was handed over.
 */
struct station_answer station_judge_command(const uint8_t *recording, size_t recording_length, uint8_t *bytes, size_t bytes_length,
                                            uint32_t *ledger, size_t ledger_length);

/* What a command byte means. Every byte has one class; no verdict depends on it. */
enum station_class {
    STATION_CLASS_OTHER = 0,     /* all others */
    STATION_CLASS_LISTEN = 1,    /* 0x20 to 0x3E: the device of this number, 0 to 30, is to listen */
    STATION_CLASS_UNLISTEN = 2,  /* 0x3F: nobody is to listen any more */
    STATION_CLASS_TALK = 3,      /* 0x40 to 0x5E: the device of this number, 0 to 30, is to talk */
    STATION_CLASS_UNTALK = 4,    /* 0x5F: nobody is to talk any more */
    STATION_CLASS_SECONDARY = 5, /* 0x60 to 0x6F: a channel, 0 to 15, of the device addressed */
    STATION_CLASS_CLOSE = 6,     /* 0xE0 to 0xEF: close this channel, 0 to 15 */
    STATION_CLASS_OPEN = 7       /* 0xF0 to 0xFF: open this channel, 0 to 15 */
};

/* The class of a command byte: one of station_class. */
uint32_t station_command_class(uint8_t byte);

/* Writes the sample recording of a string of bytes.
 *
 * Lent by the caller:
 * - bytes: bytes_length of them, 0 to STATION_MOST_BYTES. They are only read.
 * - destination: at least STATION_WRITTEN_LENGTH(bytes_length) bytes.
 * What the destination holds at the call does not matter. The two may not overlap.
 *
 * Comes back:
 * - STATION_WRITTEN, 0: tick and step are 0, and the count is the recording's length, STATION_WRITTEN_LENGTH(bytes_length). The
 *   destination begins with the recording; all further places keep what they held. The judge answers 20 with these very bytes of it, or
 *   21, which is no pass, where there were none.
 * - A refusal of the writer, 10 before 11: tick, step and count are 0. No place of the destination changes.
 */
struct station_answer station_write(const uint8_t *bytes, size_t bytes_length, uint8_t *destination, size_t destination_length);

/* The word that the commands print for a number or a class, ended by a zero; all places after it are zero too. */
struct station_word {
    char text[32];
};

/* The word of any number: "complete" for 20 alone, "no-such-number" for one that is none of station_number's. Keep it while its text is used:
 *
 *     struct station_word word = station_name(answer.number);
 *     printf("%s\n", word.text);
 */
struct station_word station_name(uint32_t number);

/* The word of a command byte's class: "listen", "unlisten", "talk", "untalk", "secondary", "close", "open" or "other". */
struct station_word station_command_name(uint8_t byte);

#ifdef __cplusplus
}
#endif

#endif
