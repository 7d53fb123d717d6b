/*
 * A board on a blank page. On port 0 comes a stray A5, as when a cable is plugged in, and then a Ping in two parts. Then port 1 is
 * told to use 921600 baud and asked for the rate, and then given three settings in one command. The replies are read row by row,
 * as the controller reads them. At the end port 0 gets noise that looks as a header of 255 bytes, and a Ping and a save wait behind it
 * until the line is silent.
 */
#include "ketphiroj.h"

#include <stdio.h>
#include <string.h>

/* The memory that outlives a power cut. */
static uint8_t stored[KETPHIROJ_PAGE_SIZE];

static uint8_t page[KETPHIROJ_PAGE_SIZE];
static uint8_t room[KETPHIROJ_REPLY_ROOM];
static ketphiroj_board board;

/* Byte 3 of a message is the length of its payload. */
static size_t reply_length(void) {
    return 6u + room[3];
}

/* Stores the page where it was written, and only then sends the reply: here, prints it. */
static void store_and_send(uint8_t port, ketphiroj_stepped answer) {
    if (answer.saved) {
        memcpy(stored, page, sizeof stored);
    }
    printf("port %u: number %u, taken %zu, skipped %zu", port, answer.number, answer.taken, answer.skipped);
    if (answer.number == KETPHIROJ_DONE) {
        printf(", reply");
        for (size_t i = 0; i < reply_length(); i++) {
            printf(" %02X", room[i]);
        }
    }
    printf("%s\n", answer.saved ? ", page stored" : "");
}

static void feed(uint8_t port, const uint8_t *chunk, size_t length) {
    store_and_send(port, ketphiroj_feed_board(port, &board, chunk, length, room, sizeof room, page, sizeof page));
}

/* A command of one field, fed whole. */
static void command(uint8_t port, uint8_t code, uint8_t function, uint32_t value) {
    uint8_t message[KETPHIROJ_LONGEST_MESSAGE];
    ketphiroj_written written = ketphiroj_write_command(code, function, value, message, sizeof message);
    feed(port, message, written.length);
}

/* A silent line, all bytes of which have been fed: what is held is read to its end, the answer 1. Only then is the port fed again. */
static void line_is_silent(uint8_t port) {
    ketphiroj_stepped answer;
    do {
        answer = ketphiroj_silence_board(port, &board, room, sizeof room, page, sizeof page);
        store_and_send(port, answer);
    } while (answer.number == KETPHIROJ_DONE);
}

/* A reply has a row for each field of the command; behind the last one the number is 27. */
static void print_rows(void) {
    ketphiroj_reply reply;
    size_t row = 0;
    while ((reply = ketphiroj_read_reply(room, reply_length(), row)).number == KETPHIROJ_DONE) {
        printf("row %zu: echo %02X, error %u", row, reply.echo, reply.error);
        if (reply.has_value) {
            printf(", value %u", reply.value);
        }
        printf("\n");
        row++;
    }
    printf("row %zu: number %u\n", row, reply.number);
}

/* Three settings in one command: the payload is built field by field. */
static void use_three_settings(void) {
    static const struct {
        uint8_t code;
        uint32_t value;
    } settings[] = {{KETPHIROJ_CODE_BAUD, 460800}, {KETPHIROJ_CODE_ACCELEROMETER, 3}, {KETPHIROJ_CODE_GYROSCOPE, 5}};
    uint8_t payload[KETPHIROJ_LONGEST_PAYLOAD], message[KETPHIROJ_LONGEST_MESSAGE];
    size_t length = 0;
    for (size_t i = 0; i < sizeof settings / sizeof settings[0]; i++) {
        ketphiroj_written field = ketphiroj_append_field(
            KETPHIROJ_TYPE_CONFIGURATION, settings[i].code, KETPHIROJ_FUNCTION_USE, settings[i].value, length, payload, sizeof payload);
        if (field.number != KETPHIROJ_DONE) { /* the length would be 0, and what stands there lost */
            printf("field %zu: number %u\n", i, field.number);
            return;
        }
        length = field.length;
    }
    ketphiroj_written use = ketphiroj_write_message(KETPHIROJ_TYPE_CONFIGURATION, payload, length, message, sizeof message);
    feed(1, message, use.length);
    print_rows();
}

int main(void) {
    memset(stored, 0xFF, sizeof stored);
    memcpy(page, stored, sizeof page);
    uint8_t number = ketphiroj_start_board(&board, KETPHIROJ_FULL, page, sizeof page);
    printf("start: number %u, %u baud\n", number, board.settings.baud);
    if (number != KETPHIROJ_DONE) { /* the page is refused: so would be every feed */
        return 1;
    }

    uint8_t message[KETPHIROJ_LONGEST_MESSAGE];
    ketphiroj_written ping = ketphiroj_write_command(KETPHIROJ_CODE_PING, 0, 0, message, sizeof message);
    static const uint8_t stray[] = {0xA5};
    feed(0, stray, sizeof stray);
    feed(0, message, 3);
    feed(0, message + 3, ping.length - 3);
    print_rows();

    command(1, KETPHIROJ_CODE_BAUD, KETPHIROJ_FUNCTION_USE, 921600);
    print_rows();
    command(1, KETPHIROJ_CODE_BAUD, KETPHIROJ_FUNCTION_REPORT, 0);
    print_rows();

    use_three_settings();
    ketphiroj_settings now = board.settings;
    printf("board: %u baud, ranges %u and %u\n", now.baud, now.accelerometer, now.gyroscope);

    static const uint8_t noise[] = {0xA5, 0xA5, 0x01, 0xFF};
    feed(0, noise, sizeof noise);
    command(0, KETPHIROJ_CODE_PING, 0, 0);
    command(0, KETPHIROJ_CODE_BAUD, KETPHIROJ_FUNCTION_SAVE, 0);
    feed(0, noise, sizeof noise);
    printf("port 0 holds %zu bytes, and is silent\n", board.first.held);
    line_is_silent(0);
    ketphiroj_values kept = ketphiroj_read_page(stored, sizeof stored).values;
    printf("port 0 holds %zu bytes, and the stored page %u baud\n", board.first.held, kept.baud);
    return 0;
}
