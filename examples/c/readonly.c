/*
 * A read-only board: port 1 may ask for the settings and change nothing. First what port 1 is answered. Then the same
 * calls on port 0, once with nothing on port 1 and once with commands, numbered ones, saves and silences there: what port 0 sees
 * after each of its calls is the same. On a full board it is not. The exit status is 0 only where all of this holds.
 */
#include "ketphiroj.h"

#include <stdio.h>
#include <string.h>

static uint8_t page[KETPHIROJ_PAGE_SIZE];
static uint8_t room[KETPHIROJ_REPLY_ROOM];
static ketphiroj_board board;
static int wrong;

static void expect(bool holds, const char *what) {
    if (!holds) {
        printf("NOT SO: %s\n", what);
        wrong++;
    }
}

/* Starts a board on a blank page. Its driver keeps no page here: no power is cut. */
static void start(bool profile) {
    memset(page, 0xFF, sizeof page);
    uint8_t number = ketphiroj_start_board(&board, profile, page, sizeof page);
    expect(number == KETPHIROJ_DONE && board.readonly == profile, "a blank page is accepted, and the board has its profile");
}

/* The rows of the reply in the room. */
static void print_rows(void) {
    size_t length = 6u + room[3];
    ketphiroj_reply reply;
    for (size_t row = 0; (reply = ketphiroj_read_reply(room, length, row)).number == KETPHIROJ_DONE; row++) {
        printf(" %02X error %u", reply.echo, reply.error);
        if (reply.has_value) {
            printf(" value %u", reply.value);
        }
    }
}

static ketphiroj_stepped feed(uint8_t port, const uint8_t *chunk, size_t length) {
    return ketphiroj_feed_board(port, &board, chunk, length, room, sizeof room, page, sizeof page);
}

/* One whole message, and its reply. */
static void answer(uint8_t port, const char *what, const uint8_t *message, size_t length) {
    ketphiroj_stepped fed = feed(port, message, length);
    expect(fed.number == KETPHIROJ_DONE && fed.taken == length, "a whole message is answered");
    printf("  port %u, %s:", port, what);
    print_rows();
    printf("%s\n", fed.saved ? ", page written" : "");
}

/* A command of one field. */
static void command(uint8_t port, const char *what, uint8_t code, uint8_t function, uint32_t value) {
    uint8_t message[16];
    ketphiroj_written written = ketphiroj_write_command(code, function, value, message, sizeof message);
    expect(written.number == KETPHIROJ_DONE, "a command is written");
    answer(port, what, message, written.length);
}

static void numbered(uint8_t port, const char *what, uint32_t number, uint8_t code, uint8_t function, uint32_t value) {
    uint8_t message[24];
    ketphiroj_written written = ketphiroj_write_numbered(number, code, function, value, message, sizeof message);
    expect(written.number == KETPHIROJ_DONE, "a numbered command is written");
    answer(port, what, message, written.length);
}

/* What port 1 is answered, and port 0 of the same board. */
static void answers(void) {
    start(KETPHIROJ_READONLY);
    command(1, "Ping", KETPHIROJ_CODE_PING, 0, 0);
    command(1, "asks for the gyroscope's range", KETPHIROJ_CODE_GYROSCOPE, KETPHIROJ_FUNCTION_REPORT, 0);
    command(1, "sets it", KETPHIROJ_CODE_GYROSCOPE, KETPHIROJ_FUNCTION_USE, 5);
    command(1, "saves it", KETPHIROJ_CODE_GYROSCOPE, KETPHIROJ_FUNCTION_SAVE, 0);
    command(1, "loads it", KETPHIROJ_CODE_GYROSCOPE, KETPHIROJ_FUNCTION_LOAD, 0);
    command(1, "takes the factory's", KETPHIROJ_CODE_GYROSCOPE, KETPHIROJ_FUNCTION_FACTORY, 0);
    numbered(1, "number 1", 1, KETPHIROJ_CODE_GYROSCOPE, KETPHIROJ_FUNCTION_USE, 5);
    numbered(1, "number 1, Ping", 1, KETPHIROJ_CODE_PING, 0, 0);
    expect(board.settings.gyroscope == 3 && page[0] == 0xFF, "port 1 changes nothing");
    numbered(0, "number 1", 1, KETPHIROJ_CODE_GYROSCOPE, KETPHIROJ_FUNCTION_USE, 5);
    command(1, "asks again", KETPHIROJ_CODE_GYROSCOPE, KETPHIROJ_FUNCTION_REPORT, 0);
}

/* What port 0 sees after a call of its own. */
typedef struct {
    ketphiroj_stepped answer;
    uint8_t room[KETPHIROJ_REPLY_ROOM];
    uint8_t held[KETPHIROJ_PORT_ROOM];
    uint8_t page[KETPHIROJ_PAGE_SIZE];
} seen;

enum { CALLS = 6 };

/* Field by field: what stands between the fields of a struct is nobody's. */
static bool same(const seen *a, const seen *b) {
    ketphiroj_settings one = a->answer.settings, other = b->answer.settings;
    return a->answer.number == b->answer.number && a->answer.taken == b->answer.taken && a->answer.skipped == b->answer.skipped
        && a->answer.held == b->answer.held && a->answer.saved == b->answer.saved && one.baud == other.baud
        && one.accelerometer == other.accelerometer && one.gyroscope == other.gyroscope
        && memcmp(a->room, b->room, sizeof a->room) == 0 && memcmp(a->held, b->held, sizeof a->held) == 0
        && memcmp(a->page, b->page, sizeof a->page) == 0;
}

/* Something on port 1 that would change something on another board: a use and a save, a number, and a save behind a false header. */
static void disturb(void) {
    static const uint8_t use_and_save[] = {KETPHIROJ_CODE_BAUD, 5, KETPHIROJ_FUNCTION_USE, 0x00, 0x00, 0x25, 0x80,
        KETPHIROJ_CODE_GYROSCOPE, 2, KETPHIROJ_FUNCTION_USE, 1, KETPHIROJ_CODE_GYROSCOPE, 1, KETPHIROJ_FUNCTION_SAVE};
    static const uint8_t false_header[] = {0xA5, 0xA5, 0x02, 0xFF};
    uint8_t message[KETPHIROJ_LONGEST_MESSAGE];
    ketphiroj_written written =
        ketphiroj_write_message(KETPHIROJ_TYPE_CONFIGURATION, use_and_save, sizeof use_and_save, message, sizeof message);
    feed(1, message, written.length);
    written = ketphiroj_write_numbered(
        4294967295, KETPHIROJ_CODE_ACCELEROMETER, KETPHIROJ_FUNCTION_USE, 1, message, sizeof message);
    feed(1, message, written.length);
    feed(1, false_header, sizeof false_header);
    written = ketphiroj_write_command(KETPHIROJ_CODE_BAUD, KETPHIROJ_FUNCTION_SAVE, 0, message, sizeof message);
    feed(1, message, written.length);
    while (ketphiroj_silence_board(1, &board, room, sizeof room, page, sizeof page).number == KETPHIROJ_DONE) {
    }
}

/* The calls of port 0: a false header and a numbered save behind it, a silence to its end, a load without a number, and a report. */
static void run(bool profile, bool disturbed, seen calls[CALLS]) {
    static const uint8_t false_header[] = {0xA5, 0xA5, 0x01, 0xFF};
    uint8_t save[24], load[16], ask[16];
    const uint8_t code = KETPHIROJ_CODE_GYROSCOPE;
    size_t save_length = ketphiroj_write_numbered(7, code, KETPHIROJ_FUNCTION_SAVE, 0, save, sizeof save).length;
    size_t load_length = ketphiroj_write_command(code, KETPHIROJ_FUNCTION_LOAD, 0, load, sizeof load).length;
    size_t ask_length = ketphiroj_write_command(code, KETPHIROJ_FUNCTION_REPORT, 0, ask, sizeof ask).length;
    start(profile);
    for (int i = 0; i < CALLS; i++) {
        if (disturbed) {
            disturb();
        }
        memset(room, 0, sizeof room);
        switch (i) {
        case 0: calls[i].answer = feed(0, false_header, sizeof false_header); break;
        case 1: calls[i].answer = feed(0, save, save_length); break;
        case 4: calls[i].answer = feed(0, load, load_length); break;
        case 5: calls[i].answer = feed(0, ask, ask_length); break;
        default: calls[i].answer = ketphiroj_silence_board(0, &board, room, sizeof room, page, sizeof page); break;
        }
        memcpy(calls[i].room, room, sizeof room);
        memcpy(calls[i].held, board.first.bytes, sizeof board.first.bytes);
        memcpy(calls[i].page, page, sizeof page);
    }
}

int main(void) {
    printf("a read-only board\n");
    answers();

    static seen alone[CALLS], disturbed[CALLS], full[CALLS];
    run(KETPHIROJ_READONLY, false, alone);
    run(KETPHIROJ_READONLY, true, disturbed);
    run(KETPHIROJ_FULL, true, full);
    int differ = 0;
    printf("what port 0 sees, with nothing on port 1 and with much\n");
    for (int i = 0; i < CALLS; i++) {
        const ketphiroj_stepped *a = &alone[i].answer;
        bool equal = same(&alone[i], &disturbed[i]);
        expect(equal, "port 0 sees nothing of port 1");
        printf("  number %u, taken %zu, skipped %zu, holds %zu%s: %s\n", a->number, a->taken, a->skipped, a->held,
            a->saved ? ", page written" : "", equal ? "the same" : "not the same");
        differ += !same(&alone[i], &full[i]);
    }
    printf("on a full board %d of %d are not\n", differ, CALLS);
    expect(differ == CALLS, "on a full board port 0 sees all of it");
    return wrong != 0;
}
