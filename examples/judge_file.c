/* judge_file FILE: judges one recording and prints what bin/judge prints for it.
 *
 *     NUMBER TICK STEP COUNT NAME FILE   the answer; 20 complete is a pass, and nothing else is
 *     bytes 41 ..                        where COUNT is above 0: the bytes handed over, in hexadecimal
 *     ledger 1630 1660 ..                and for each the ticks at which DATA was let go and taken
 *
 * Exit status: 0 only for 20; 1 for another number; 2 for usage, a file that cannot be read or an answer that could not be printed.
 *
 * Built from the repository's root, once `scripts/build` has made the library:
 *
 *     cc -std=c99 -Wall -Wextra -Werror -pedantic -Iinclude examples/judge_file.c target/staticlib/libstation.a -o judge_file
 */
#include <errno.h>
#include <inttypes.h>
#include <stdio.h>
#include <string.h>

#include "station.h"

/* The exit statuses. */
enum { PASS = 0, NO_PASS = 1, NO_ANSWER = 2 };

/* More than any recording has. A longer file is judged by its beginning, and the judge says the same of that as of the whole file. */
enum { FILE_ROOM = 65536 };

/* Prints a file's name with its control characters hidden, so that no name can print a line that reads as an answer. */
static void print_file_name(FILE *out, const char *name) {
    for (; *name != '\0'; name++) {
        unsigned char character = (unsigned char)*name;
        putc(character < 32 || character == 127 ? '?' : character, out);
    }
}

static void print_answer(struct station_answer answer, const uint8_t *bytes, const uint32_t *ledger, const char *name) {
    struct station_word word = station_name(answer.number);
    printf("%" PRIu32 " %" PRIu32 " %" PRIu32 " %" PRIu32 " %s ", answer.number, answer.tick, answer.step, answer.count, word.text);
    print_file_name(stdout, name);
    printf("\n");
    if (answer.count == 0) {
        return;
    }
    printf("bytes");
    for (uint32_t place = 0; place < answer.count; place++) {
        printf(" %02x", (unsigned)bytes[place]);
    }
    printf("\nledger");
    for (uint32_t place = 0; place < answer.count; place++) {
        printf(" %" PRIu32 " %" PRIu32, ledger[2 * place], ledger[2 * place + 1]);
    }
    printf("\n");
}

/* Judges the bytes of a file and prints the answer. Returns the exit status. */
static int judge(const uint8_t *file, size_t length, const char *name) {
    uint8_t bytes[STATION_BYTE_ROOM];
    uint32_t ledger[STATION_LEDGER_ROOM];
    struct station_answer answer = station_judge(file, length, bytes, STATION_BYTE_ROOM, ledger, STATION_LEDGER_ROOM);
    print_answer(answer, bytes, ledger, name);
    return answer.number == STATION_COMPLETE ? PASS : NO_PASS;
}

/* Reads a file into the room, as much as there is room for. Returns 0, or the reason why not all of that could be read. */
static int read_file(const char *name, uint8_t *room, size_t *length) {
    FILE *file = fopen(name, "rb");
    if (file == NULL) {
        return errno;
    }
    errno = 0;
    *length = fread(room, 1, FILE_ROOM, file);
    int reason = ferror(file) ? (errno != 0 ? errno : EIO) : 0;
    fclose(file);
    return reason;
}

static void print_unreadable(const char *name, int reason) {
    print_file_name(stderr, name);
    fprintf(stderr, ": %s\n", strerror(reason));
    printf("- - - - unreadable ");
    print_file_name(stdout, name);
    printf("\n");
}

int main(int argc, char **argv) {
    if (argc != 2) {
        fprintf(stderr, "usage: judge_file FILE\n");
        return NO_ANSWER;
    }
    uint8_t room[FILE_ROOM];
    size_t length = 0;
    int status = NO_ANSWER;
    int reason = read_file(argv[1], room, &length);
    if (reason == 0) {
        status = judge(room, length, argv[1]);
    } else {
        print_unreadable(argv[1], reason);
    }
    /* an answer that was not printed whole is none; closing tells of what the last write met */
    int is_broken = ferror(stdout);
    if (fclose(stdout) != 0 || is_broken) {
        fprintf(stderr, "judge_file: the answer could not be printed\n");
        return NO_ANSWER;
    }
    return status;
}
