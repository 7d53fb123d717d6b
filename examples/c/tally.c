/*
 * Service asks how bad a line is. A recording of each port of a read-only board is fed in odd pieces, with noise, damaged messages and
 * commands that are refused among the good ones; one call is refused as a whole, and at the end each line is silent. The driver keeps a
 * record of its own for each port beside the board's totals. After each call the two agree, and the bytes taken are the good ones, the
 * skipped ones and those held. Beside them goes a record that is told one thing wrong: it does not agree. The exit status is 0 only where
 * all of this holds.
 */
#include "ketphiroj.h"

#include <inttypes.h>
#include <stdio.h>
#include <stdlib.h>
#include <string.h>

enum { PORTS = 2, MOST = 512 };

static uint8_t page[KETPHIROJ_PAGE_SIZE];
static uint8_t room[KETPHIROJ_REPLY_ROOM];
static ketphiroj_board board;

/* The driver's records, and for the counter-check those that are never told what a port held before. */
static ketphiroj_tally own[PORTS], forgetful[PORTS];

/* What came on each line. */
static uint8_t line[PORTS][MOST];
static size_t received[PORTS];

/* Ends the program where something does not hold: what comes after it would be told of a board that is not known any more. */
static void expect(bool holds, const char *what) {
    if (!holds) {
        printf("NOT SO: %s\n", what);
        exit(EXIT_FAILURE);
    }
}

static const ketphiroj_port *port_of(uint8_t port) {
    return port == 0 ? &board.first : &board.second;
}

static const ketphiroj_tally *totals_of(uint8_t port) {
    return port == 0 ? &board.tally0 : &board.tally1;
}

/* Nothing stands between the members of a tally. */
static bool same(const ketphiroj_tally *a, const ketphiroj_tally *b) {
    return memcmp(a, b, sizeof *a) == 0;
}

/* The board starts, and with it the driver's records. Its driver keeps no page here: no power is cut. */
static void start(void) {
    static const ketphiroj_tally zero;
    memset(page, 0xFF, sizeof page);
    expect(ketphiroj_start_board(&board, KETPHIROJ_READONLY, page, sizeof page) == KETPHIROJ_DONE, "a blank page is accepted");
    for (uint8_t port = 0; port < PORTS; port++) {
        own[port] = forgetful[port] = zero;
        expect(same(totals_of(port), &zero), "a start gives totals of zero");
    }
}

/* What must hold after each call, of both ports. */
static void check(void) {
    for (uint8_t port = 0; port < PORTS; port++) {
        const ketphiroj_tally *totals = totals_of(port);
        expect(same(&own[port], totals), "the driver's record and the board's totals agree");
        expect(totals->taken == totals->good + totals->skipped + port_of(port)->held, "taken is good, skipped and held");
    }
}

/* The driver's part after a feed or a silence of a port that held `before` bytes. A refused call may be passed, too. */
static void count(uint8_t port, ketphiroj_stepped answer, size_t before) {
    ketphiroj_count(&own[port], answer.number, answer.taken, answer.skipped, answer.error, before, answer.held);
    ketphiroj_count(&forgetful[port], answer.number, answer.taken, answer.skipped, answer.error, 0, answer.held);
    check();
}

/* Feeds a piece until it is used up; the replies are nobody's here. */
static void feed(uint8_t port, const uint8_t *piece, size_t length) {
    ketphiroj_stepped answer;
    do {
        size_t before = port_of(port)->held;
        answer = ketphiroj_feed_board(port, &board, piece, length, room, sizeof room, page, sizeof page);
        expect(answer.number <= KETPHIROJ_CHUNK_USED_UP, "a feed is accepted");
        count(port, answer, before);
        piece += answer.taken;
        length -= answer.taken;
    } while (answer.number == KETPHIROJ_DONE);
}

/* A feed without room enough, which is refused: it counts nothing, here or there. */
static void feed_without_room(uint8_t port, const uint8_t *piece, size_t length) {
    size_t before = port_of(port)->held;
    ketphiroj_tally kept = *totals_of(port);
    ketphiroj_stepped answer = ketphiroj_feed_board(port, &board, piece, length, room, sizeof room - 1, page, sizeof page);
    expect(answer.number == KETPHIROJ_SHORT_ROOM, "a feed without room is refused");
    count(port, answer, before);
    expect(same(totals_of(port), &kept), "a refused feed counts nothing");
}

/* A silent line: what is held is read to its end. */
static void line_is_silent(uint8_t port) {
    ketphiroj_stepped answer;
    do {
        size_t before = port_of(port)->held;
        answer = ketphiroj_silence_board(port, &board, room, sizeof room, page, sizeof page);
        expect(answer.number <= KETPHIROJ_CHUNK_USED_UP, "a silence is accepted");
        count(port, answer, before);
    } while (answer.number == KETPHIROJ_DONE);
}

/* ---- the recordings */

static void add(uint8_t port, const void *bytes, size_t length) {
    memcpy(line[port] + received[port], bytes, length);
    received[port] += length;
}

static void add_message(uint8_t port, uint8_t kind, const void *payload, size_t length) {
    uint8_t message[KETPHIROJ_LONGEST_MESSAGE];
    ketphiroj_written written = ketphiroj_write_message(kind, payload, length, message, sizeof message);
    expect(written.number == KETPHIROJ_DONE, "a message is written");
    add(port, message, written.length);
}

static void add_command(uint8_t port, uint8_t code, uint8_t function, uint32_t value) {
    uint8_t message[16];
    ketphiroj_written written = ketphiroj_write_command(code, function, value, message, sizeof message);
    expect(written.number == KETPHIROJ_DONE, "a command is written");
    add(port, message, written.length);
}

static void add_numbered(uint8_t port, uint32_t number, uint8_t code, uint8_t function, uint32_t value) {
    uint8_t message[24];
    ketphiroj_written written = ketphiroj_write_numbered(number, code, function, value, message, sizeof message);
    expect(written.number == KETPHIROJ_DONE, "a numbered command is written");
    add(port, message, written.length);
}

static const uint8_t false_header[] = {0xA5, 0xA5, 0x01, 0xFF};

/* A message of each of the errors 0 to 6, noise, and a Ping that waits behind a false header until the line is silent. */
static void record_port_0(void) {
    const uint8_t type = KETPHIROJ_TYPE_CONFIGURATION, range = KETPHIROJ_CODE_GYROSCOPE;
    add(0, "\xA5", 1); /* a plug */
    add_command(0, KETPHIROJ_CODE_PING, 0, 0);
    add(0, "crackle", 7);
    add_command(0, range, KETPHIROJ_FUNCTION_REPORT, 0);
    add_command(0, KETPHIROJ_CODE_PING, 0, 0);
    line[0][received[0] - 1] ^= 0x10; /* damaged on the line */
    add_message(0, 0x03, "\x02\x00", 2);
    add_message(0, type, "", 0);
    add_message(0, type, "\x63\x00" "\x08\x01\x02", 5); /* two fields, of which the first is unknown: it counts */
    add_message(0, type, "\x08\x02\x01\x08", 4);
    add_message(0, type, "\x08\x02\x01\x06", 4);
    add_numbered(0, 1, range, KETPHIROJ_FUNCTION_USE, 5);
    add_numbered(0, 1, range, KETPHIROJ_FUNCTION_USE, 5); /* replayed */
    add_command(0, range, KETPHIROJ_FUNCTION_SAVE, 0);    /* no number, which port 0 needs now */
    add(0, false_header, sizeof false_header);
    add_command(0, KETPHIROJ_CODE_PING, 0, 0);
}

/* Port 1 may look and not touch. Its line breaks off in a message. */
static void record_port_1(void) {
    add_command(1, KETPHIROJ_CODE_GYROSCOPE, KETPHIROJ_FUNCTION_REPORT, 0);
    add_command(1, KETPHIROJ_CODE_GYROSCOPE, KETPHIROJ_FUNCTION_SAVE, 0);
    add_numbered(1, 2, KETPHIROJ_CODE_PING, 0, 0);
    add(1, "\x00\x00\x00", 3);
    add_command(1, KETPHIROJ_CODE_PING, 0, 0);
    add_command(1, KETPHIROJ_CODE_BAUD, KETPHIROJ_FUNCTION_REPORT, 0);
    received[1] -= 4;
}

/* Both lines in turns, in pieces of 1 to 22 bytes. In the middle a feed is refused, and what it was given is fed again. */
static void play(void) {
    size_t place[PORTS] = {0, 0}, piece = 1;
    for (int turn = 0; place[0] < received[0] || place[1] < received[1]; turn++) {
        uint8_t port = turn % PORTS;
        size_t left = received[port] - place[port], length = piece < left ? piece : left;
        if (turn == 6) {
            feed_without_room(port, line[port] + place[port], length);
        }
        feed(port, line[port] + place[port], length);
        place[port] += length;
        piece = piece * 5 % 23;
    }
}

/* ---- what service reads */

static void print_bytes(uint8_t port) {
    const ketphiroj_tally *totals = totals_of(port);
    printf("port %u: %" PRIu64 " bytes taken, %" PRIu64 " of good messages, %" PRIu64 " skipped, %zu held\n", port, totals->taken,
        totals->good, totals->skipped, port_of(port)->held);
}

static void print_messages(uint8_t port) {
    static const char *const meanings[8] = {
        [KETPHIROJ_ERROR_NONE] = "understood, and done",
        [KETPHIROJ_ERROR_CHECKSUM] = "damaged on the line, or noise that looked like a message",
        [KETPHIROJ_ERROR_MESSAGE_TYPE] = "a kind of message that this board does not know",
        [KETPHIROJ_ERROR_MESSAGE_CODE] = "a code that it does not know, or no field",
        [KETPHIROJ_ERROR_PARAMETER] = "not well made, by a fault of the sender",
        [KETPHIROJ_ERROR_NUMBER] = "sent again, or without the number that is needed",
        [KETPHIROJ_ERROR_UNSUPPORTED] = "for an older board, which has more ranges",
        [KETPHIROJ_ERROR_NOT_ALLOWED] = "not allowed on this port",
    };
    for (unsigned error = 0; error < 8; error++) {
        printf("  error %u: %2" PRIu64 "  %s\n", error, totals_of(port)->errors[error], meanings[error]);
    }
}

/* The counter-check: what the driver does is not idle. A record that is told one thing wrong differs from the board's totals. */
static void print_forgetful(uint8_t port) {
    const ketphiroj_tally *totals = totals_of(port);
    expect(!same(&forgetful[port], totals), "a record that is told 0 for what the port held before differs");
    printf("port %u: %" PRIu64 " of good messages, and %" PRIu64 " where the driver forgets what was held before\n", port, totals->good,
        forgetful[port].good);
    ketphiroj_tally damaged = own[port];
    ketphiroj_count(&damaged, KETPHIROJ_DONE, 0, 0, KETPHIROJ_ERROR_CHECKSUM, 0, 0);
    expect(!same(&damaged, totals), "a message more is seen");
}

int main(void) {
    record_port_0();
    record_port_1();
    start();
    play();
    printf("all is fed\n");
    for (uint8_t port = 0; port < PORTS; port++) {
        expect(totals_of(port)->taken == received[port], "all that was received was taken");
        print_bytes(port);
    }
    printf("the lines are silent\n");
    for (uint8_t port = 0; port < PORTS; port++) {
        line_is_silent(port);
        expect(port_of(port)->held == 0, "nothing is held after a silence");
        print_bytes(port);
        print_messages(port);
    }
    printf("a wrong record\n");
    for (uint8_t port = 0; port < PORTS; port++) {
        print_forgetful(port);
    }
    printf("started anew\n");
    start();
    for (uint8_t port = 0; port < PORTS; port++) {
        print_bytes(port);
    }
    return EXIT_SUCCESS;
}
