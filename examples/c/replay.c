/*
 * Yesterday's commands, sent again after a power cut, are not taken as new. A day of numbered commands on port 0, among them one
 * that fails; then the power is cut, and the board starts on the page that its driver stored. The day's bytes come again, on each
 * port: each is refused with error 5, and settings and page are as they were. Larger numbers are taken. Then yesterday's commands
 * without their numbers: on port 0 what would change something is refused, on port 1 it is done. The exit status is 0 only where
 * all of this holds.
 */
#include "ketphiroj.h"

#include <stdio.h>
#include <string.h>

/* The memory that outlives a power cut; what else the driver has is lost. */
static uint8_t stored[KETPHIROJ_PAGE_SIZE];

static uint8_t page[KETPHIROJ_PAGE_SIZE];
static uint8_t room[KETPHIROJ_REPLY_ROOM];
static ketphiroj_board board;
static int wrong;

static void expect(bool holds, const char *what) {
    if (!holds) {
        printf("NOT SO: %s\n", what);
        wrong++;
    }
}

/* Power on: the board starts on the stored page, and of what it held nothing is left. */
static void power_on(void) {
    memcpy(page, stored, sizeof page);
    uint8_t number = ketphiroj_start_board(&board, KETPHIROJ_FULL, page, sizeof page);
    expect(number == KETPHIROJ_DONE, "the stored page is blank or sound");
}

/* The settings and the number that the page keeps. */
static void print_board(void) {
    ketphiroj_values values = ketphiroj_read_page(page, sizeof page).values;
    ketphiroj_settings now = board.settings;
    printf("  board: %u baud, ranges %u and %u; last number ", now.baud, now.accelerometer, now.gyroscope);
    if (values.has_last_number) {
        printf("%u\n", values.last_number);
    } else {
        printf("none\n");
    }
}

/* Sending: here, printing the rows of the reply. Gives the error of the first one. */
static uint8_t send_reply(void) {
    size_t length = 6u + room[3];
    ketphiroj_reply reply, first = ketphiroj_read_reply(room, length, 0);
    for (size_t row = 0; (reply = ketphiroj_read_reply(room, length, row)).number == KETPHIROJ_DONE; row++) {
        printf(" %02X error %u", reply.echo, reply.error);
        if (reply.has_value) {
            printf(" value %u", reply.value);
        }
    }
    return first.error;
}

/* One whole message: the page is stored where it was written, and only then the reply is sent. Gives the first error. */
static uint8_t receive(uint8_t port, const uint8_t *message, size_t length) {
    ketphiroj_stepped fed = ketphiroj_feed_board(port, &board, message, length, room, sizeof room, page, sizeof page);
    expect(fed.number == KETPHIROJ_DONE && fed.taken == length, "a whole message is answered");
    if (fed.saved) {
        memcpy(stored, page, sizeof stored);
    }
    printf("  port %u, type %02X:", port, message[2]);
    uint8_t error = send_reply();
    printf("%s\n", fed.saved ? ", page stored" : "");
    return error;
}

enum { COMMANDS = 9, MOST = 64 };

static uint8_t day[COMMANDS][MOST];
static size_t lengths[COMMANDS];
static size_t commands;

/* Adds a command of one field. */
static void add(uint8_t code, uint8_t function, uint32_t value) {
    uint32_t number = (uint32_t) commands + 1;
    ketphiroj_written written = ketphiroj_write_numbered(number, code, function, value, day[commands], MOST);
    expect(written.number == KETPHIROJ_DONE, "a command is written");
    lengths[commands++] = written.length;
}

/* Adds a command of any payload behind the number: its type, then its fields. */
static void add_payload(const uint8_t *inner, size_t length) {
    uint8_t payload[MOST] = {0, 0, 0, (uint8_t) (commands + 1)};
    memcpy(payload + 4, inner, length);
    ketphiroj_written written = ketphiroj_write_message(KETPHIROJ_NUMBERED, payload, 4 + length, day[commands], MOST);
    expect(written.number == KETPHIROJ_DONE, "a message is written");
    lengths[commands++] = written.length;
}

/* The day's commands, numbered from 1 on. */
static void write_day(void) {
    const uint8_t type = KETPHIROJ_TYPE_CONFIGURATION, range = KETPHIROJ_CODE_GYROSCOPE;
    uint8_t three[MOST] = {type};
    size_t length = 1;
    length = ketphiroj_append_field(type, KETPHIROJ_CODE_BAUD, KETPHIROJ_FUNCTION_USE, 921600, length, three, sizeof three).length;
    length = ketphiroj_append_field(type, range, KETPHIROJ_FUNCTION_USE, 5, length, three, sizeof three).length;
    length = ketphiroj_append_field(type, range, KETPHIROJ_FUNCTION_SAVE, 0, length, three, sizeof three).length;
    const uint8_t range_8[] = {type, range, 2, KETPHIROJ_FUNCTION_USE, 8}; /* this board has 1 to 5, older ones 1 to 7 */
    const uint8_t type_03[] = {0x03, range, 2, KETPHIROJ_FUNCTION_USE, 1};
    add(KETPHIROJ_CODE_ACCELEROMETER, KETPHIROJ_FUNCTION_USE, 4);
    add(KETPHIROJ_CODE_ACCELEROMETER, KETPHIROJ_FUNCTION_SAVE, 0);
    add_payload(three, length);
    add_payload(range_8, sizeof range_8);
    add_payload(type_03, sizeof type_03);
    add(range, KETPHIROJ_FUNCTION_LOAD, 0);
    add(KETPHIROJ_CODE_ACCELEROMETER, KETPHIROJ_FUNCTION_FACTORY, 0);
    add(range, KETPHIROJ_FUNCTION_REPORT, 0);
    add(KETPHIROJ_CODE_PING, 0, 0);
}

/* Today's commands go on from where the numbers stood: another range, which is saved. */
static void use_another_range(void) {
    uint8_t message[MOST];
    const uint8_t code = KETPHIROJ_CODE_GYROSCOPE;
    ketphiroj_written use = ketphiroj_write_numbered(COMMANDS + 1, code, KETPHIROJ_FUNCTION_USE, 1, message, sizeof message);
    expect(receive(0, message, use.length) == KETPHIROJ_ERROR_NONE, "a larger number is accepted");
    ketphiroj_written save = ketphiroj_write_numbered(COMMANDS + 2, code, KETPHIROJ_FUNCTION_SAVE, 0, message, sizeof message);
    expect(receive(0, message, save.length) == KETPHIROJ_ERROR_NONE, "and the next");
}

/* Whether settings and page are the ones given; what stands between the fields of a struct is nobody's. */
static bool unchanged(ketphiroj_settings settings, const uint8_t *before) {
    ketphiroj_settings now = board.settings;
    return now.baud == settings.baud && now.accelerometer == settings.accelerometer && now.gyroscope == settings.gyroscope
        && memcmp(page, before, sizeof page) == 0 && memcmp(stored, before, sizeof stored) == 0;
}

/* All of the day's bytes once more. */
static void replay(uint8_t port) {
    ketphiroj_settings settings = board.settings;
    uint8_t before[KETPHIROJ_PAGE_SIZE];
    memcpy(before, page, sizeof before);
    for (size_t i = 0; i < commands; i++) {
        expect(receive(port, day[i], lengths[i]) == KETPHIROJ_ERROR_NUMBER, "a number is not accepted twice");
        expect(unchanged(settings, before), "a refused number changes nothing");
    }
}

/* The day's commands without their numbers, behind which stand the type and the fields. Gives how many are refused for that. */
static int replay_without_numbers(uint8_t port) {
    int refused = 0;
    for (size_t i = 0; i < commands; i++) {
        uint8_t message[MOST];
        ketphiroj_written written =
            ketphiroj_write_message(day[i][8], day[i] + 9, lengths[i] - 11, message, sizeof message);
        refused += receive(port, message, written.length) == KETPHIROJ_ERROR_NUMBER;
    }
    return refused;
}

int main(void) {
    memset(stored, 0xFF, sizeof stored);
    power_on();
    write_day();
    printf("yesterday\n");
    for (size_t i = 0; i < commands; i++) {
        receive(0, day[i], lengths[i]);
    }
    print_board();

    printf("after a power cut\n");
    power_on();
    print_board();
    for (uint8_t port = 0; port < 2; port++) {
        printf("yesterday's bytes on port %u\n", port);
        replay(port);
    }
    printf("today\n");
    use_another_range();
    print_board();

    ketphiroj_settings settings = board.settings;
    uint8_t before[KETPHIROJ_PAGE_SIZE];
    memcpy(before, page, sizeof before);
    printf("yesterday's commands without numbers on port 0\n");
    expect(replay_without_numbers(0) == 6, "port 0 refuses the six that use, save, load or take the factory's value");
    expect(unchanged(settings, before), "nothing changes on port 0 without a number");
    print_board();
    printf("and on port 1\n");
    expect(replay_without_numbers(1) == 0, "port 1 takes them");
    print_board();
    return wrong != 0;
}
