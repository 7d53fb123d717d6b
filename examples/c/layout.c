/*
 * Do C and the library see the same structs, and mean the same by the header's names? The version; the sizes and places of the
 * fields, and for each field a call whose answer depends on it; for each name bytes that depend on it. The exit status is 0 only where
 * all agree.
 */
#include "ketphiroj.h"

#include <stdio.h>
#include <string.h>

#if KETPHIROJ_VERSION < 200
#error "a header of before 0.2.0"
#endif

_Static_assert(sizeof(size_t) == 8, "size_t");
_Static_assert(sizeof(bool) == 1, "bool");
_Static_assert(offsetof(ketphiroj_port, held) == 264 && sizeof(ketphiroj_port) == 272, "port");
_Static_assert(offsetof(ketphiroj_settings, accelerometer) == 4, "settings");
_Static_assert(offsetof(ketphiroj_settings, gyroscope) == 5 && sizeof(ketphiroj_settings) == 8, "settings");
_Static_assert(offsetof(ketphiroj_board, second) == 272 && offsetof(ketphiroj_board, settings) == 544, "board");
_Static_assert(offsetof(ketphiroj_tally, taken) == 0 && offsetof(ketphiroj_tally, skipped) == 8, "tally");
_Static_assert(offsetof(ketphiroj_tally, good) == 16 && offsetof(ketphiroj_tally, errors) == 24, "tally");
_Static_assert(sizeof(ketphiroj_tally) == 88 && sizeof(ketphiroj_tally) == KETPHIROJ_TOTALS * sizeof(uint64_t), "tally");
_Static_assert(offsetof(ketphiroj_board, readonly) == 552 && offsetof(ketphiroj_board, tally0) == 560, "board");
_Static_assert(offsetof(ketphiroj_board, tally1) == 648 && sizeof(ketphiroj_board) == 736, "board");
_Static_assert(offsetof(ketphiroj_started, board) == 8 && sizeof(ketphiroj_started) == 744, "started");
_Static_assert(offsetof(ketphiroj_started_in_place, settings) == 0, "started in place");
_Static_assert(offsetof(ketphiroj_started_in_place, number) == 8, "started in place");
_Static_assert(offsetof(ketphiroj_started_in_place, readonly) == 9, "started in place");
_Static_assert(sizeof(ketphiroj_started_in_place) == 12, "started in place");
_Static_assert(offsetof(ketphiroj_stepped, skipped) == 8 && offsetof(ketphiroj_stepped, held) == 16, "stepped");
_Static_assert(offsetof(ketphiroj_stepped, settings) == 24 && offsetof(ketphiroj_stepped, number) == 32, "stepped");
_Static_assert(offsetof(ketphiroj_stepped, error) == 33 && offsetof(ketphiroj_stepped, saved) == 34, "stepped");
_Static_assert(sizeof(ketphiroj_stepped) == 40, "stepped");
_Static_assert(offsetof(ketphiroj_written, length) == 8 && sizeof(ketphiroj_written) == 16, "written");
_Static_assert(offsetof(ketphiroj_reply, kind) == 1 && offsetof(ketphiroj_reply, echo) == 2, "reply");
_Static_assert(offsetof(ketphiroj_reply, error) == 3 && offsetof(ketphiroj_reply, has_value) == 4, "reply");
_Static_assert(offsetof(ketphiroj_reply, value) == 8 && sizeof(ketphiroj_reply) == 12, "reply");
_Static_assert(offsetof(ketphiroj_field, code) == 1 && offsetof(ketphiroj_field, place) == 8, "field");
_Static_assert(offsetof(ketphiroj_field, size) == 16 && offsetof(ketphiroj_field, x) == 24, "field");
_Static_assert(offsetof(ketphiroj_field, y) == 28 && offsetof(ketphiroj_field, z) == 32, "field");
_Static_assert(sizeof(ketphiroj_field) == 40, "field");
_Static_assert(offsetof(ketphiroj_values, baud) == 4 && offsetof(ketphiroj_values, has_accelerometer) == 8, "values");
_Static_assert(offsetof(ketphiroj_values, accelerometer) == 12 && offsetof(ketphiroj_values, has_gyroscope) == 16, "values");
_Static_assert(offsetof(ketphiroj_values, gyroscope) == 20 && offsetof(ketphiroj_values, has_last_number) == 24, "values");
_Static_assert(offsetof(ketphiroj_values, last_number) == 28 && sizeof(ketphiroj_values) == 32, "values");
_Static_assert(offsetof(ketphiroj_page_read, values) == 0 && offsetof(ketphiroj_page_read, number) == 32, "page read");
_Static_assert(sizeof(ketphiroj_page_read) == 36, "page read");

static int agreeing, differing;
static uint8_t page[KETPHIROJ_PAGE_SIZE];
static uint8_t room[KETPHIROJ_LONGEST_MESSAGE];

static void agree(bool same, const char *what) {
    if (same) {
        agreeing++;
    } else {
        differing++;
        printf("differs: %s\n", what);
    }
}

/* What a feed answers, and the board afterwards: the board given stays as it is, so that it can be fed again. */
typedef struct {
    ketphiroj_stepped answer;
    ketphiroj_board board;
} fed_board;

static fed_board feed(uint8_t port, ketphiroj_board board, const uint8_t *chunk, size_t length) {
    fed_board fed;
    fed.answer = ketphiroj_feed_board(port, &board, chunk, length, room, sizeof room, page, sizeof page);
    fed.board = board;
    return fed;
}

/* Nothing stands between the fields of a tally. */
static bool same_tally(const ketphiroj_tally *a, const ketphiroj_tally *b) {
    return memcmp(a, b, sizeof *a) == 0;
}

/* Totals of which no two are the same, nor of two tallies with different bases. */
static ketphiroj_tally totals_from(uint64_t base) {
    ketphiroj_tally tally = {base + 1, base + 2, base + 3, {0}};
    for (size_t e = 0; e < 8; e++) {
        tally.errors[e] = base + 4 + e;
    }
    return tally;
}

/* Whether two boards agree in every field; what stands between the fields is nobody's. */
static bool same_board(ketphiroj_board a, ketphiroj_board b) {
    return memcmp(a.first.bytes, b.first.bytes, sizeof a.first.bytes) == 0 && a.first.held == b.first.held
        && memcmp(a.second.bytes, b.second.bytes, sizeof a.second.bytes) == 0 && a.second.held == b.second.held
        && a.settings.baud == b.settings.baud && a.settings.accelerometer == b.settings.accelerometer
        && a.settings.gyroscope == b.settings.gyroscope && a.readonly == b.readonly && same_tally(&a.tally0, &b.tally0)
        && same_tally(&a.tally1, &b.tally1);
}

/* The archive is the one of this header. */
static void versions_agree(void) {
    agree(ketphiroj_version() == KETPHIROJ_VERSION, "the version");
}

/* A refusal returns the board given, whatever stands in it. */
static void refusal_returns_board(void) {
    ketphiroj_board board;
    for (size_t i = 0; i < KETPHIROJ_PORT_ROOM; i++) {
        board.first.bytes[i] = (uint8_t) (i + 1);
        board.second.bytes[i] = (uint8_t) (7 * i + 3);
    }
    board.first.held = 0x1122334455667788;
    board.second.held = 0x99AABBCCDDEEFF00;
    board.settings = (ketphiroj_settings){0x12345678, 0x9A, 0xBC};
    board.readonly = true;
    board.tally0 = totals_from(0x1000);
    board.tally1 = totals_from(0xFEDCBA9876543210);
    fed_board fed = feed(2, board, room, 0);
    ketphiroj_stepped refused = fed.answer;
    agree(refused.number == KETPHIROJ_BAD_PORT && refused.taken == 0 && refused.skipped == 0 && !refused.saved, "a refusal");
    agree(refused.error == 0, "the error of a refusal");
    agree(same_board(fed.board, board), "the board that a refusal returns");
    board.first.held = 0;
    agree(feed(0, board, room, 0).answer.number == KETPHIROJ_BAD_BOARD, "second.held");
    board.second.held = 0;
    agree(feed(0, board, room, 0).answer.number == KETPHIROJ_BAD_BOARD, "settings");
}

/* Each working value is looked at in its place: a wrong one alone is refused. */
static void settings_are_looked_at(void) {
    ketphiroj_started refused = ketphiroj_start(KETPHIROJ_FULL, page, sizeof page - 1);
    agree(refused.number == KETPHIROJ_PAGE_LENGTH && refused.board.settings.baud == 115200, "a start that is refused");
    ketphiroj_started started = ketphiroj_start(KETPHIROJ_FULL, page, sizeof page);
    agree(started.number == KETPHIROJ_DONE, "a start");
    ketphiroj_board good = started.board;
    agree(good.settings.baud == 115200 && good.settings.accelerometer == 2 && good.settings.gyroscope == 3, "started settings");
    agree(feed(0, good, room, 0).answer.number == KETPHIROJ_CHUNK_USED_UP, "a good board");
    ketphiroj_board bad = good;
    bad.settings.baud = 1;
    agree(feed(0, bad, room, 0).answer.number == KETPHIROJ_BAD_BOARD, "settings.baud");
    bad = good;
    bad.settings.accelerometer = 5;
    agree(feed(0, bad, room, 0).answer.number == KETPHIROJ_BAD_BOARD, "settings.accelerometer");
    bad = good;
    bad.settings.gyroscope = 6;
    agree(feed(0, bad, room, 0).answer.number == KETPHIROJ_BAD_BOARD, "settings.gyroscope");
    bad = good;
    bad.first.held = 261;
    agree(feed(1, bad, room, 0).answer.number == KETPHIROJ_BAD_BOARD, "first.held");
}

/* Bytes are held in the port fed and are read there: a command begun by C is ended by a feed. */
static void ports_hold_bytes(void) {
    uint8_t save[16];
    size_t length = ketphiroj_write_command(KETPHIROJ_CODE_GYROSCOPE, KETPHIROJ_FUNCTION_SAVE, 0, save, sizeof save).length;
    ketphiroj_board board = ketphiroj_start(KETPHIROJ_FULL, page, sizeof page).board;
    fed_board first = feed(0, board, save, 5);
    agree(first.answer.number == KETPHIROJ_CHUNK_USED_UP && first.answer.taken == 5, "taken");
    agree(first.board.first.held == 5 && memcmp(first.board.first.bytes, save, 5) == 0, "first.bytes");
    agree(first.board.second.held == 0, "the other port");
    memcpy(board.second.bytes + 1, save, 5);
    board.second.held = 6;
    fed_board second = feed(1, board, save + 5, length - 5);
    agree(second.answer.number == KETPHIROJ_DONE && second.answer.skipped == 1, "second.bytes, skipped");
    agree(second.answer.saved, "saved");
    agree(second.answer.taken == length - 5 && second.board.second.held == 0, "second.held after a message");
}

static bool same_values(ketphiroj_values a, ketphiroj_values b) {
    return a.has_baud == b.has_baud && a.baud == b.baud && a.has_accelerometer == b.has_accelerometer
        && a.accelerometer == b.accelerometer && a.has_gyroscope == b.has_gyroscope && a.gyroscope == b.gyroscope
        && a.has_last_number == b.has_last_number && a.last_number == b.last_number;
}

/* Whether the page is read with number 0 and keeps these values. */
static bool keeps(ketphiroj_values values) {
    ketphiroj_page_read read = ketphiroj_read_page(page, sizeof page);
    return read.number == KETPHIROJ_DONE && same_values(read.values, values);
}

/* The values on the page that was just saved, and a struct of values handed in. */
static void values_pass(void) {
    agree(keeps((ketphiroj_values){false, 0, false, 0, true, 3, false, 0}), "values read");
    ketphiroj_values w = {true, 9600, false, 99, true, 7, false, 99};
    agree(ketphiroj_write_page(w, page, sizeof page) == KETPHIROJ_DONE, "values written");
    agree(keeps((ketphiroj_values){true, 9600, false, 0, true, 7, false, 0}), "values back");
    w.has_accelerometer = true;
    agree(ketphiroj_write_page(w, page, sizeof page) == KETPHIROJ_BAD_PAGE, "a value that no page may keep");
    ketphiroj_values one = {false, 9600, true, 4, false, 7, false, 5};
    agree(ketphiroj_write_page(one, page, sizeof page) == KETPHIROJ_DONE, "one value written");
    agree(keeps((ketphiroj_values){false, 0, true, 4, false, 0, false, 0}), "one value back");
    ketphiroj_values all = {true, 921600, true, 4, true, 7, true, 0xFEDCBA98};
    agree(ketphiroj_write_page(all, page, sizeof page) == KETPHIROJ_DONE && keeps(all), "a number with three values");
    ketphiroj_values number = {false, 1, false, 2, false, 3, true, 0};
    agree(ketphiroj_write_page(number, page, sizeof page) == KETPHIROJ_DONE, "a number alone");
    agree(keeps((ketphiroj_values){false, 0, false, 0, false, 0, true, 0}), "a number alone back");
    w.has_accelerometer = false;
    agree(ketphiroj_write_page(w, page, sizeof page) == KETPHIROJ_DONE, "two values written");
}

/* A body of the page, which keeps 9600 baud and a gyroscope range, or else of the factory page. */
static void bodies_pass(void) {
    uint8_t factory[KETPHIROJ_PAGE_SIZE];
    ketphiroj_written f = ketphiroj_factory_page(factory, sizeof factory);
    agree(f.number == KETPHIROJ_DONE && f.length == 64 && ketphiroj_check_page(factory, 64) == 0, "the factory page");
    ketphiroj_written b = ketphiroj_copy_body(page, sizeof page, factory, sizeof factory, KETPHIROJ_CODE_BAUD, room, 4);
    agree(b.number == KETPHIROJ_DONE && b.length == 4 && memcmp(room, "\x00\x00\x25\x80", 4) == 0, "a body");
    b = ketphiroj_copy_body(page, sizeof page, factory, sizeof factory, KETPHIROJ_CODE_ACCELEROMETER, room, 1);
    agree(b.number == KETPHIROJ_DONE && b.length == 1 && room[0] == 2, "a body of the factory page");
    b = ketphiroj_copy_body(page, sizeof page, factory, sizeof factory, KETPHIROJ_CODE_LAST_NUMBER, room, 0);
    agree(b.number == KETPHIROJ_DONE && b.length == 0, "no body");
    b = ketphiroj_copy_body(page, sizeof page, factory, sizeof factory, KETPHIROJ_CODE_ACCELEROMETER, room, 0);
    agree(b.number == KETPHIROJ_SHORT_ROOM && b.length == 0, "a body without room");
}

/*
 * A page that is refused gives its number and no value, though entries stand on it. Of two pages the saved one is tested first,
 * and both before the room.
 */
static void refused_pages(void) {
    static const ketphiroj_values none = {false, 0, false, 0, false, 0, false, 0};
    uint8_t factory[KETPHIROJ_PAGE_SIZE + 1] = {0}, unsound[KETPHIROJ_PAGE_SIZE];
    ketphiroj_factory_page(factory, sizeof factory);
    memcpy(unsound, factory, sizeof unsound);
    unsound[14] = 5; /* the accelerometer's range, 1 to 4 */
    ketphiroj_page_read r = ketphiroj_read_page(unsound, sizeof unsound);
    agree(r.number == KETPHIROJ_BAD_PAGE && same_values(r.values, none), "an unsound page read");
    r = ketphiroj_read_page(factory, sizeof factory);
    agree(r.number == KETPHIROJ_PAGE_LENGTH && same_values(r.values, none), "a page of 65 bytes read");
    ketphiroj_written b = ketphiroj_copy_body(unsound, sizeof unsound, factory, sizeof factory, KETPHIROJ_CODE_BAUD, room, 0);
    agree(b.number == KETPHIROJ_BAD_PAGE && b.length == 0, "a body of an unsound page");
    b = ketphiroj_copy_body(factory, sizeof factory, unsound, sizeof unsound, KETPHIROJ_CODE_BAUD, room, 0);
    agree(b.number == KETPHIROJ_PAGE_LENGTH && b.length == 0, "a body of a page of 65 bytes");
    b = ketphiroj_copy_body(page, sizeof page, unsound, sizeof unsound, KETPHIROJ_CODE_BAUD, room, 0);
    agree(b.number == KETPHIROJ_BAD_PAGE && b.length == 0, "a body beside an unsound factory page");
    b = ketphiroj_copy_body(page, sizeof page, factory, sizeof factory, KETPHIROJ_CODE_BAUD, room, 0);
    agree(b.number == KETPHIROJ_PAGE_LENGTH && b.length == 0, "a body beside a factory page of 65 bytes");
}

/* Reads a row of the reply of a type and a payload. */
static ketphiroj_reply reply_of(uint8_t kind, const uint8_t *payload, size_t length, size_t row) {
    ketphiroj_written m = ketphiroj_write_message(kind, payload, length, room, sizeof room);
    return ketphiroj_read_reply(room, m.length, row);
}

/* Whether a row was refused with this number: every other field is then 0. */
static bool row_refused(ketphiroj_reply r, uint8_t number) {
    return r.number == number && r.kind == 0 && r.echo == 0 && r.error == 0 && !r.has_value && r.value == 0;
}

/* Rows with a value and without one, and refused ones. */
static void replies_pass(void) {
    static const uint8_t two[] = {0x80, 0x02, 0x01, 0x00, 0x01, 0x04, 0x00, 0x0E, 0x10, 0x00, 0x80, 0x02, 0x63, 0x03};
    static const uint8_t without[] = {0x80, 0x02, 0x63, 0x04};
    ketphiroj_reply r = reply_of(0x02, two, 10, 0);
    agree(r.number == KETPHIROJ_DONE && r.kind == 0x02 && r.echo == 0x01 && r.error == 0, "a reply with a value");
    agree(r.has_value && r.value == 921600, "its value");
    r = reply_of(0x02, two, sizeof two, 1);
    agree(r.number == KETPHIROJ_DONE && r.kind == 0x02 && r.echo == 0x63 && r.error == 3, "a second row");
    agree(row_refused(reply_of(0x02, two, sizeof two, 2), KETPHIROJ_NO_FIELD), "no third row");
    agree(row_refused(reply_of(0x02, two, sizeof two, SIZE_MAX), KETPHIROJ_NO_FIELD), "no last row");
    r = reply_of(0xA5, without, sizeof without, 0);
    agree(r.number == KETPHIROJ_DONE && r.kind == 0xA5 && r.echo == 0x63 && r.error == 4, "a reply without a value");
    agree(!r.has_value && r.value == 0, "no value");
    agree(row_refused(reply_of(0x01, two, sizeof two, 0), KETPHIROJ_BAD_TYPE), "not a reply");
    agree(row_refused(ketphiroj_read_reply(room, 5, 0), KETPHIROJ_NOT_WHOLE), "a part of a reply");
}

/* Fields written one behind the other, each argument in its place; a refused one leaves the room alone. */
static void fields_are_appended(void) {
    static const uint8_t expected[] = {0x01, 0x05, 0x01, 0x00, 0x0E, 0x10, 0x00, 0x08, 0x01, 0x03, 0x77};
    uint8_t payload[sizeof expected];
    memset(payload, 0x77, sizeof payload);
    const uint8_t kind = KETPHIROJ_TYPE_CONFIGURATION, code = KETPHIROJ_CODE_GYROSCOPE;
    ketphiroj_written w =
        ketphiroj_append_field(kind, KETPHIROJ_CODE_BAUD, KETPHIROJ_FUNCTION_USE, 921600, 0, payload, sizeof payload);
    agree(w.number == KETPHIROJ_DONE && w.length == 7, "a field with a value");
    w = ketphiroj_append_field(kind, code, KETPHIROJ_FUNCTION_SAVE, 99, 7, payload, 10);
    agree(w.number == KETPHIROJ_DONE && w.length == 10, "a field without a value, behind it");
    w = ketphiroj_append_field(kind, code, KETPHIROJ_FUNCTION_USE, 5, 8, payload, sizeof payload);
    agree(w.number == KETPHIROJ_SHORT_ROOM && w.length == 0, "a field without room");
    w = ketphiroj_append_field(KETPHIROJ_TYPE_BASE, KETPHIROJ_CODE_PING, 0, 0, SIZE_MAX, payload, sizeof payload);
    agree(w.number == KETPHIROJ_SHORT_ROOM && w.length == 0, "a length over the room");
    w = ketphiroj_append_field(KETPHIROJ_TYPE_BASE, code, KETPHIROJ_FUNCTION_SAVE, 0, SIZE_MAX, payload, sizeof payload);
    agree(w.number == KETPHIROJ_NO_COMMAND && w.length == 0, "a code of another type");
    agree(memcmp(payload, expected, sizeof expected) == 0, "the payload");
}

/* Six patterns in, six out; one of them a NaN with a payload. */
static void patterns_pass(void) {
    uint8_t data[KETPHIROJ_DATA_SIZE];
    ketphiroj_written d = ketphiroj_write_data(1, 2, 0xFFC01234, 0x80000000, 0x3F800000, 6, data, sizeof data);
    agree(d.number == KETPHIROJ_DONE && d.length == KETPHIROJ_DATA_SIZE, "a data message");
    ketphiroj_field a = ketphiroj_read_field(data, sizeof data, 0);
    agree(a.number == 0 && a.code == KETPHIROJ_CODE_ACCELERATION && data[4] == a.code, "acceleration");
    agree(a.place == 6 && a.size == 12 && a.x == 1 && a.y == 2 && a.z == 0xFFC01234, "its place, size and axes");
    ketphiroj_field r = ketphiroj_read_field(data, sizeof data, 1);
    agree(r.number == 0 && r.code == KETPHIROJ_CODE_RATE && data[18] == r.code, "rate");
    agree(r.place == 20 && r.size == 12 && r.x == 0x80000000 && r.y == 0x3F800000 && r.z == 6, "its place, size and axes");
    ketphiroj_field n = ketphiroj_read_field(data, sizeof data, SIZE_MAX);
    agree(n.number == KETPHIROJ_NO_FIELD && n.code == 0 && n.place == 0 && n.size == 0 && n.x == 0, "no such field");
}

/* Fields that the library does not know, of 3 and of no data bytes: place and size, and a copy. */
static void unknown_fields_pass(void) {
    static const uint8_t payload[] = {0x90, 3, 'a', 'b', 'c', 0x91, 0};
    ketphiroj_written m = ketphiroj_write_message(KETPHIROJ_TYPE_DATA, payload, sizeof payload, room, sizeof room);
    agree(ketphiroj_check_message(room, m.length) == KETPHIROJ_DONE && room[2] == 0xA2, "a whole message");
    ketphiroj_field u = ketphiroj_read_field(room, m.length, 0);
    agree(u.number == 0 && u.code == 0x90 && u.place == 6 && u.size == 3 && u.x == 0, "an unknown field");
    uint8_t bytes[3];
    ketphiroj_written c = ketphiroj_copy_field(room, m.length, 0, bytes, sizeof bytes);
    agree(c.number == 0 && c.length == 3 && memcmp(bytes, "abc", 3) == 0, "its bytes");
    agree(memcmp(room + u.place, bytes, u.size) == 0, "its bytes in place");
    u = ketphiroj_read_field(room, m.length, 1);
    agree(u.number == 0 && u.code == 0x91 && u.place == 11 && u.size == 0, "an unknown field without data");
    c = ketphiroj_copy_field(room, m.length, 1, bytes, 0);
    agree(c.number == 0 && c.length == 0, "nothing to copy");
    room[4]++;
    u = ketphiroj_read_field(room, m.length, 0);
    agree(u.number == KETPHIROJ_BAD_SUMS && u.code == 0 && u.place == 0 && u.size == 0, "a refused field");
}

/* The largest field there is needs a room of KETPHIROJ_FIELD_ROOM bytes, and no more. */
static void largest_field_passes(void) {
    uint8_t payload[KETPHIROJ_LONGEST_PAYLOAD], bytes[KETPHIROJ_FIELD_ROOM];
    memset(payload, 0x31, sizeof payload);
    payload[1] = sizeof payload - 2;
    ketphiroj_written m = ketphiroj_write_message(KETPHIROJ_TYPE_DATA, payload, sizeof payload, room, sizeof room);
    agree(m.number == KETPHIROJ_DONE && m.length == KETPHIROJ_LONGEST_MESSAGE, "the longest message");
    ketphiroj_field f = ketphiroj_read_field(room, m.length, 0);
    agree(f.number == KETPHIROJ_DONE && f.place == 6 && f.size == KETPHIROJ_FIELD_ROOM, "the largest field");
    ketphiroj_written c = ketphiroj_copy_field(room, m.length, 0, bytes, sizeof bytes - 1);
    agree(c.number == KETPHIROJ_SHORT_ROOM && c.length == 0, "a room that is a byte short");
    c = ketphiroj_copy_field(room, m.length, 0, bytes, sizeof bytes);
    agree(c.number == KETPHIROJ_DONE && c.length == sizeof bytes && memcmp(bytes, payload + 2, c.length) == 0, "its copy");
    c = ketphiroj_write_message(KETPHIROJ_TYPE_DATA, room, KETPHIROJ_LONGEST_PAYLOAD + 1, payload, sizeof payload);
    agree(c.number == KETPHIROJ_LONG_PAYLOAD, "a payload that is a byte too long");
}

static const uint8_t set_accelerometer[] = {0xA5, 0xA5, 0x02, 0x04, 0x07, 0x02, 0x01, 0x03, 0x5D, 0xF2};

/* A command in two parts on each port alters the settings. */
static void settings_come_back(void) {
    const uint8_t *set = set_accelerometer;
    for (uint8_t port = 0; port < 2; port++) {
        fed_board begun = feed(port, ketphiroj_start(KETPHIROJ_FULL, page, sizeof page).board, set, 4);
        fed_board ended = feed(port, begun.board, set + 4, sizeof set_accelerometer - 4);
        agree(ended.answer.number == KETPHIROJ_DONE && ended.answer.taken == 6, "a command in two parts");
        agree(ended.answer.held == 0 && ended.board.settings.accelerometer == 3, "a setting");
    }
}

/* An array of `length` bytes for port 0, which holds 4 of them, a row of `count` totals, and the rest of a command. */
static ketphiroj_stepped feed_array(uint8_t *bytes, size_t length, uint64_t *totals, size_t count) {
    ketphiroj_settings settings = {9600, 1, 5};
    memcpy(bytes, set_accelerometer, 4);
    return ketphiroj_feed_in_place(
        0, bytes, length, 4, 9, settings, true, totals, count, set_accelerometer + 4, sizeof set_accelerometer - 4, room, sizeof room,
        page, sizeof page);
}

/* An array of 260 bytes is taken; of any other length it is refused, with the held count and the settings as given. */
static void arrays_are_measured(void) {
    static const size_t wrong[] = {0, KETPHIROJ_PORT_ROOM - 1, KETPHIROJ_PORT_ROOM + 1};
    uint8_t bytes[KETPHIROJ_PORT_ROOM + 1] = {0};
    uint64_t totals[KETPHIROJ_TOTALS] = {0}, zeros[KETPHIROJ_TOTALS] = {0};
    for (size_t i = 0; i < sizeof wrong / sizeof wrong[0]; i++) {
        ketphiroj_stepped s = feed_array(bytes, wrong[i], totals, KETPHIROJ_TOTALS);
        agree(memcmp(totals, zeros, sizeof totals) == 0, "totals beside an array that is not 260 bytes");
        agree(s.number == KETPHIROJ_BAD_BOARD && s.taken == 0 && s.skipped == 0 && !s.saved, "an array that is not 260 bytes");
        agree(s.held == 4 && memcmp(bytes, set_accelerometer, 4) == 0, "what a refused array holds");
        agree(s.settings.baud == 9600 && s.settings.accelerometer == 1 && s.settings.gyroscope == 5, "settings refused");
    }
    ketphiroj_stepped s = feed_array(bytes, KETPHIROJ_PORT_ROOM, totals, KETPHIROJ_TOTALS);
    agree(s.number == KETPHIROJ_DONE && s.held == 0, "an array of 260 bytes");
    agree(s.settings.baud == 9600 && s.settings.accelerometer == 3 && s.settings.gyroscope == 5, "settings answered");
}

/* The same of a silence, which finds a message from the port's fifth byte on. */
static void silent_arrays_are_measured(void) {
    static const size_t lengths[] = {0, KETPHIROJ_PORT_ROOM - 1, KETPHIROJ_PORT_ROOM + 1, KETPHIROJ_PORT_ROOM};
    static const uint8_t false_header[] = {0xA5, 0xA5, 0x01, 0xFF};
    ketphiroj_settings settings = {9600, 1, 5};
    uint64_t totals[KETPHIROJ_TOTALS] = {0};
    for (size_t i = 0; i < sizeof lengths / sizeof lengths[0]; i++) {
        uint8_t bytes[KETPHIROJ_PORT_ROOM + 1], given[sizeof bytes];
        memset(bytes, 0x31, sizeof bytes);
        memcpy(bytes, false_header, sizeof false_header);
        memcpy(bytes + 4, set_accelerometer, sizeof set_accelerometer);
        memcpy(given, bytes, sizeof given);
        ketphiroj_stepped s = ketphiroj_silence_in_place(
            1, bytes, lengths[i], 9, 15, settings, false, totals, KETPHIROJ_TOTALS, room, sizeof room, page, sizeof page);
        agree(s.settings.baud == 9600 && s.settings.gyroscope == 5 && s.taken == 0 && !s.saved, "settings of a silence");
        if (lengths[i] == KETPHIROJ_PORT_ROOM) {
            agree(s.number == KETPHIROJ_DONE && s.skipped == 4 && s.held == 1, "a silence of an array of 260 bytes");
            agree(s.settings.accelerometer == 3 && bytes[0] == 0x31 && bytes[1] == 0 && bytes[260] == 0x31, "its bytes");
        } else {
            agree(s.number == KETPHIROJ_BAD_BOARD && s.skipped == 0 && s.held == 15, "a silence of another array");
            agree(s.settings.accelerometer == 1 && memcmp(bytes, given, sizeof given) == 0, "what is refused");
        }
    }
}

/* Of a port that there is none of, the held count that is answered is the second one, as given; nothing is written. */
static void ports_are_two(void) {
    static const uint8_t ports[] = {2, 3, 255};
    uint8_t bytes[KETPHIROJ_PORT_ROOM], given[sizeof bytes];
    memset(bytes, 0x31, sizeof bytes);
    memcpy(given, bytes, sizeof given);
    uint64_t totals[KETPHIROJ_TOTALS] = {0}, zeros[KETPHIROJ_TOTALS] = {0};
    ketphiroj_settings settings = {9600, 1, 5};
    for (size_t i = 0; i < sizeof ports; i++) {
        ketphiroj_stepped fed = ketphiroj_feed_in_place(
            ports[i], bytes, sizeof bytes, 4, 9, settings, false, totals, KETPHIROJ_TOTALS, set_accelerometer,
            sizeof set_accelerometer, room, sizeof room, page, sizeof page);
        agree(fed.number == KETPHIROJ_BAD_PORT && fed.held == 9 && fed.settings.accelerometer == 1, "a feed of no port");
        ketphiroj_stepped quiet = ketphiroj_silence_in_place(
            ports[i], bytes, sizeof bytes, 4, 9, settings, false, totals, KETPHIROJ_TOTALS, room, sizeof room, page, sizeof page);
        agree(quiet.number == KETPHIROJ_BAD_PORT && quiet.held == 9 && quiet.settings.accelerometer == 1, "a silence of no port");
        agree(memcmp(bytes, given, sizeof given) == 0 && memcmp(totals, zeros, sizeof zeros) == 0, "what no port leaves");
    }
}

/* A silence of a board: each port has its own bytes and count, and a refusal returns the board given. */
static void silences_pass(void) {
    for (uint8_t port = 0; port < 2; port++) {
        ketphiroj_board board = ketphiroj_start(KETPHIROJ_FULL, page, sizeof page).board;
        board = feed(port, board, set_accelerometer, 4).board;
        board = feed((uint8_t) (1 - port), board, set_accelerometer, 5).board;
        ketphiroj_board given = board;
        ketphiroj_stepped s = ketphiroj_silence_board(2, &board, room, sizeof room, page, sizeof page);
        agree(s.number == KETPHIROJ_BAD_PORT && same_board(board, given), "a silence of port 2");
        s = ketphiroj_silence_board(port, &board, room, KETPHIROJ_REPLY_ROOM - 1, page, sizeof page);
        agree(s.number == KETPHIROJ_SHORT_ROOM && same_board(board, given), "a silence without room");
        s = ketphiroj_silence_board(port, &board, room, sizeof room, page, sizeof page - 1);
        agree(s.number == KETPHIROJ_PAGE_LENGTH && same_board(board, given), "a silence on 63 bytes");
        s = ketphiroj_silence_board(port, &board, room, sizeof room, page, sizeof page);
        agree(s.number == KETPHIROJ_CHUNK_USED_UP && s.skipped == 4 && s.held == 0, "a silence");
        ketphiroj_port *named = port == 0 ? &given.first : &given.second;
        memset(named->bytes, 0, sizeof named->bytes);
        named->held = 0;
        (port == 0 ? &given.tally0 : &given.tally1)->skipped = 4;
        agree(same_board(board, given), "the board after a silence");
    }
}

/* A board of no zero byte, with counts and settings that no start answers. */
static ketphiroj_board dirty_board(void) {
    ketphiroj_board board;
    memset(board.first.bytes, 0x31, sizeof board.first.bytes);
    memset(board.second.bytes, 0x62, sizeof board.second.bytes);
    board.first.held = 0x1122334455667788;
    board.second.held = 260;
    board.settings = (ketphiroj_settings){0x12345678, 0x9A, 0xBC};
    board.readonly = true;
    board.tally0 = totals_from(7);
    board.tally1 = totals_from(70);
    return board;
}

/*
 * A start in place leaves the board that a start by value answers, with the same number, and the page as it was. Either is in the
 * profile asked for, also where the page is refused.
 */
static void same_start(const uint8_t *given, size_t length, const char *what) {
    static const bool profiles[] = {KETPHIROJ_FULL, KETPHIROJ_READONLY};
    for (size_t i = 0; i < sizeof profiles / sizeof profiles[0]; i++) {
        ketphiroj_started started = ketphiroj_start(profiles[i], given, length);
        ketphiroj_board board = dirty_board();
        uint8_t before[KETPHIROJ_PAGE_SIZE + 1];
        memcpy(before, given, length);
        uint8_t number = ketphiroj_start_board(&board, profiles[i], given, length);
        agree(number == started.number && same_board(board, started.board), what);
        agree(board.readonly == profiles[i], "the profile of a start");
        static const ketphiroj_tally zero = {0, 0, 0, {0}};
        agree(same_tally(&board.tally0, &zero) && same_tally(&board.tally1, &zero), "the totals of a start");
        agree(memcmp(before, given, length) == 0, "the page that a board starts on");
    }
}

/* On a page of four entries, a blank one, and ones that are refused, where the board becomes the factory's. */
static void starts_in_place(void) {
    uint8_t given[KETPHIROJ_PAGE_SIZE + 1];
    memset(given, 0xFF, sizeof given);
    same_start(given, KETPHIROJ_PAGE_SIZE, "a start in place on a blank page");
    ketphiroj_values values = {true, 921600, true, 4, true, 5, true, 0xFEDCBA98};
    agree(ketphiroj_write_page(values, given, KETPHIROJ_PAGE_SIZE) == KETPHIROJ_DONE, "a page of four entries");
    same_start(given, KETPHIROJ_PAGE_SIZE, "a start in place on four entries");
    ketphiroj_board board = dirty_board();
    agree(ketphiroj_start_board(&board, KETPHIROJ_FULL, given, KETPHIROJ_PAGE_SIZE) == KETPHIROJ_DONE, "number of a start in place");
    ketphiroj_settings now = board.settings;
    agree(now.baud == 921600 && now.accelerometer == 4 && now.gyroscope == 5, "settings of a start in place");
    same_start(given, KETPHIROJ_PAGE_SIZE - 1, "a start in place on 63 bytes");
    same_start(given, KETPHIROJ_PAGE_SIZE + 1, "a start in place on 65 bytes");
    given[0] = 5;
    same_start(given, KETPHIROJ_PAGE_SIZE, "a start in place on an unsound page");
    agree(ketphiroj_start_board(&board, KETPHIROJ_FULL, given, KETPHIROJ_PAGE_SIZE) == KETPHIROJ_BAD_PAGE, "number 20 in place");
    agree(ketphiroj_start_board(&board, KETPHIROJ_FULL, given, KETPHIROJ_PAGE_SIZE - 1) == KETPHIROJ_PAGE_LENGTH, "number 19 in place");
}

/* Whether all bytes of a port of `dirty_board`, and the one behind them, are as they were. */
static bool untouched(const uint8_t *bytes, uint8_t filling) {
    bool same = true;
    for (size_t i = 0; i < KETPHIROJ_PORT_ROOM + 1; i++) {
        same = same && bytes[i] == filling;
    }
    return same;
}

/* Arrays of which one is not 260 bytes are refused before the page is looked at: nothing is written. */
static void started_arrays_are_measured(void) {
    static const size_t lengths[][2] = {{0, 260}, {259, 260}, {261, 260}, {260, 0}, {260, 259}, {260, 261}, {259, 261}};
    uint8_t first[KETPHIROJ_PORT_ROOM + 1], second[KETPHIROJ_PORT_ROOM + 1], kept[KETPHIROJ_PAGE_SIZE];
    memset(first, 0x31, sizeof first);
    memset(second, 0x62, sizeof second);
    ketphiroj_values values = {true, 921600, true, 4, true, 7, false, 0};
    agree(ketphiroj_write_page(values, kept, sizeof kept) == KETPHIROJ_DONE, "a page of three entries");
    for (size_t i = 0; i < sizeof lengths / sizeof lengths[0]; i++) {
        size_t page_length = i % 2 == 0 ? sizeof kept : sizeof kept - 1;
        bool readonly = i % 3 == 0;
        ketphiroj_started_in_place s = ketphiroj_start_in_place(
            readonly, first, lengths[i][0], second, lengths[i][1], kept, page_length);
        agree(s.number == KETPHIROJ_BAD_BOARD && s.readonly == readonly, "a start of an array that is not 260 bytes");
        agree(s.settings.baud == 115200 && s.settings.accelerometer == 2 && s.settings.gyroscope == 3, "settings of 17");
        agree(untouched(first, 0x31) && untouched(second, 0x62), "arrays of a refused start");
    }
}

/* A numbered command, each argument in its place, taken by a board; the page keeps the number. */
static void numbers_pass(void) {
    static const uint8_t expected[] = {
        0xA5, 0xA5, 0x7C, 0x09, 0xFE, 0xDC, 0xBA, 0x98, 0x02, 0x08, 0x02, 0x01, 0x05, 0x0D, 0x76, 0x77};
    uint8_t message[sizeof expected];
    memset(message, 0x77, sizeof message);
    const uint8_t code = KETPHIROJ_CODE_GYROSCOPE, function = KETPHIROJ_FUNCTION_USE;
    ketphiroj_written w = ketphiroj_write_numbered(0xFEDCBA98, code, function, 5, message, sizeof message);
    agree(w.number == KETPHIROJ_DONE && w.length == 15 && memcmp(message, expected, sizeof expected) == 0, "a number");
    w = ketphiroj_write_numbered(1, code, function, 6, message, 0);
    agree(w.number == KETPHIROJ_NO_COMMAND && w.length == 0, "a numbered command that is none");
    w = ketphiroj_write_numbered(1, code, function, 5, message, 14);
    agree(w.number == KETPHIROJ_SHORT_ROOM && w.length == 0, "a numbered command without room");
    memset(page, 0xFF, sizeof page);
    fed_board fed = feed(0, ketphiroj_start(KETPHIROJ_FULL, page, sizeof page).board, message, 15);
    agree(fed.answer.number == KETPHIROJ_DONE && fed.answer.saved && fed.board.settings.gyroscope == 5, "a number taken");
    agree(keeps((ketphiroj_values){false, 0, false, 0, false, 0, true, 0xFEDCBA98}), "the number that a page keeps");
    w = ketphiroj_copy_body(page, sizeof page, page, sizeof page, KETPHIROJ_CODE_LAST_NUMBER, room, 4);
    agree(w.number == KETPHIROJ_DONE && w.length == 4 && memcmp(room, expected + 4, 4) == 0, "its bytes");
    fed = feed(1, fed.board, message, 15);
    agree(fed.answer.number == KETPHIROJ_DONE && !fed.answer.saved, "a number again");
    ketphiroj_reply r = ketphiroj_read_reply(room, 6u + room[3], 0);
    agree(r.number == KETPHIROJ_DONE && r.kind == KETPHIROJ_NUMBERED && r.echo == code && r.error == 5, "error 5");
}

/* A page that keeps a gyroscope's range of older boards: the start, error 6 of a load, and what the writer and the reader know. */
static void old_ranges_pass(void) {
    static const uint8_t reported[] = {0x80, 0x02, 0x08, 0x00, 0x08, 0x01, 0x07};
    ketphiroj_values old = {false, 0, false, 0, true, 7, false, 0};
    agree(ketphiroj_write_page(old, page, sizeof page) == KETPHIROJ_DONE && keeps(old), "an old page");
    ketphiroj_started started = ketphiroj_start(KETPHIROJ_FULL, page, sizeof page);
    agree(started.number == KETPHIROJ_DONE && started.board.settings.gyroscope == 3, "a start on an old page");
    started.board.settings.gyroscope = 5;
    uint8_t load[9];
    const uint8_t code = KETPHIROJ_CODE_GYROSCOPE;
    ketphiroj_written w = ketphiroj_write_command(code, KETPHIROJ_FUNCTION_LOAD, 7, load, sizeof load);
    agree(w.number == KETPHIROJ_DONE && w.length == sizeof load, "a load written");
    fed_board fed = feed(0, started.board, load, sizeof load);
    agree(fed.answer.number == KETPHIROJ_DONE && !fed.answer.saved && fed.board.settings.gyroscope == 5, "a load refused");
    ketphiroj_reply r = ketphiroj_read_reply(room, 6u + room[3], 0);
    agree(r.number == KETPHIROJ_DONE && r.echo == 0x08 && r.error == 6 && keeps(old), "error 6");
    w = ketphiroj_write_command(code, KETPHIROJ_FUNCTION_USE, 7, load, 0);
    agree(w.number == KETPHIROJ_NO_COMMAND, "an old range to be written");
    r = reply_of(0x02, reported, sizeof reported, 0);
    agree(r.number == KETPHIROJ_DONE && r.has_value && r.value == 7, "an old range reported");
}

/* The error of the first row that a whole command on a port gets, where the profile is an argument and where it is the board's. */
static void profile_passes(uint8_t port, bool readonly, uint8_t error) {
    ketphiroj_settings settings = {9600, 1, 5};
    uint8_t bytes[KETPHIROJ_PORT_ROOM] = {0}, accelerometer = error == 0 ? 3 : 1;
    uint64_t totals[KETPHIROJ_TOTALS] = {0};
    ketphiroj_stepped s = ketphiroj_feed_in_place(
        port, bytes, sizeof bytes, 0, 0, settings, readonly, totals, KETPHIROJ_TOTALS, set_accelerometer, sizeof set_accelerometer,
        room, sizeof room, page, sizeof page);
    agree(s.number == KETPHIROJ_DONE && s.settings.accelerometer == accelerometer && room[7] == error, "a feed in a profile");
    memcpy(bytes, set_accelerometer, sizeof set_accelerometer);
    size_t held = sizeof set_accelerometer;
    s = ketphiroj_silence_in_place(
        port, bytes, sizeof bytes, port == 0 ? held : 0, port == 0 ? 0 : held, settings, readonly, totals, KETPHIROJ_TOTALS, room,
        sizeof room, page, sizeof page);
    agree(s.number == KETPHIROJ_DONE && s.settings.accelerometer == accelerometer && room[7] == error, "a silence in a profile");
    agree(s.error == error && totals[3 + error] == 2, "the error of a silence, counted with that of the feed");
    ketphiroj_board board = ketphiroj_start(readonly, page, sizeof page).board;
    agree(board.readonly == readonly, "the profile of a board");
    fed_board fed = feed(port, board, set_accelerometer, sizeof set_accelerometer);
    agree(fed.answer.number == KETPHIROJ_DONE && room[7] == error && fed.board.readonly == readonly, "a board fed in a profile");
}

/* Port 1 of a read-only board alone refuses a command that changes something. Error 7 is read; 8 is none. */
static void profiles_pass(void) {
    memset(page, 0xFF, sizeof page);
    for (uint8_t port = 0; port < 2; port++) {
        profile_passes(port, KETPHIROJ_FULL, 0);
        profile_passes(port, KETPHIROJ_READONLY, port == 0 ? 0 : 7);
    }
    static const uint8_t refused[] = {0x80, 0x02, 0x07, 0x07}, none[] = {0x80, 0x02, 0x07, 0x08};
    ketphiroj_reply r = reply_of(0x02, refused, sizeof refused, 0);
    agree(r.number == KETPHIROJ_DONE && r.echo == 0x07 && r.error == 7, "error 7");
    agree(row_refused(reply_of(0x02, none, sizeof none, 0), KETPHIROJ_BAD_TYPE), "no error 8");
}

/* Of eleven totals each is counted in its place; a row of any other length is refused, and left alone. */
static void totals_are_measured(void) {
    static const size_t wrong[] = {0, KETPHIROJ_TOTALS - 1, KETPHIROJ_TOTALS + 1};
    ketphiroj_tally given = totals_from(100), expected = given;
    uint64_t totals[KETPHIROJ_TOTALS + 1] = {0};
    memcpy(totals, &given, sizeof given);
    uint8_t bytes[KETPHIROJ_PORT_ROOM] = {0};
    for (size_t i = 0; i < sizeof wrong / sizeof wrong[0]; i++) {
        ketphiroj_stepped s = feed_array(bytes, sizeof bytes, totals, wrong[i]);
        agree(s.number == KETPHIROJ_BAD_BOARD && s.taken == 0 && s.held == 4 && s.settings.accelerometer == 1, "totals that are not 11");
        agree(memcmp(totals, &given, sizeof given) == 0 && totals[KETPHIROJ_TOTALS] == 0, "the totals of a refusal");
    }
    ketphiroj_stepped s = feed_array(bytes, sizeof bytes, totals, KETPHIROJ_TOTALS);
    expected.taken += 6; /* 4 of the message's 10 bytes were held */
    expected.good += 10;
    expected.errors[0]++;
    agree(s.number == KETPHIROJ_DONE && s.error == 0 && memcmp(totals, &expected, sizeof expected) == 0, "11 totals");
    agree(totals[KETPHIROJ_TOTALS] == 0, "the number behind the totals");
}

/* A board counts in the totals of the port that is called, and each total stops at its largest figure. */
static void boards_count(void) {
    static const uint8_t unknown[] = {0x77, 0xA5, 0xA5, 0x03, 0x02, 0x02, 0x00, 0x51, 0x2D};
    for (uint8_t port = 0; port < 2; port++) {
        ketphiroj_board board = ketphiroj_start(KETPHIROJ_FULL, page, sizeof page).board;
        board.tally0 = totals_from(50);
        board.tally1 = totals_from(500);
        ketphiroj_board expected = board;
        ketphiroj_tally *named = port == 0 ? &expected.tally0 : &expected.tally1;
        fed_board fed = feed(port, board, unknown, sizeof unknown);
        named->taken += 9;
        named->skipped += 1;
        named->good += 8;
        named->errors[2]++;
        agree(fed.answer.number == KETPHIROJ_DONE && fed.answer.error == 2, "the error that is answered");
        agree(same_board(fed.board, expected), "the totals of a port");
        memset(&board.tally0, 0xFF, sizeof board.tally0);
        memset(&board.tally1, 0xFF, sizeof board.tally1);
        fed = feed(port, board, unknown, sizeof unknown);
        agree(fed.answer.number == KETPHIROJ_DONE && same_board(fed.board, board), "totals that have stopped");
    }
}

/* A record of the driver's own: each argument in its place, and any are taken. */
static void counts_pass(void) {
    ketphiroj_tally tally = totals_from(10), expected = tally;
    ketphiroj_count(&tally, KETPHIROJ_DONE, 100, 20, 6, 3000, 7);
    expected.taken += 100;
    expected.skipped += 20;
    expected.good += 3073;
    expected.errors[6]++;
    agree(same_tally(&tally, &expected), "a call counted");
    ketphiroj_count(&tally, KETPHIROJ_CHUNK_USED_UP, 5, 0, 6, 0, 6);
    expected.taken += 5;
    agree(same_tally(&tally, &expected), "a call without a message counted, and no good bytes");
    ketphiroj_count(&tally, KETPHIROJ_DONE, 0, 0, 8, 0, 0);
    agree(same_tally(&tally, &expected), "no error 8 counted");
    for (unsigned number = 2; number < 256; number++) {
        ketphiroj_count(&tally, (uint8_t) number, 1, 2, 3, 4, 5);
    }
    agree(same_tally(&tally, &expected), "no other number counted");
    ketphiroj_count(&tally, KETPHIROJ_DONE, SIZE_MAX, 1, 0, SIZE_MAX, SIZE_MAX - 1);
    expected.taken = UINT64_MAX;
    expected.skipped += 1;
    expected.good = UINT64_MAX;
    expected.errors[0]++;
    agree(same_tally(&tally, &expected), "totals that stop, and a sum that does not fit");
}

/* A command that is written by its names, and its bytes: those of Ping, and of each setting and function. */
static const struct {
    uint8_t code;
    uint8_t function;
    uint32_t value;
    uint8_t bytes[8]; /* type, length, payload */
} named[] = {
    {KETPHIROJ_CODE_PING, 0, 0, {0x01, 2, 0x02, 0}},
    {KETPHIROJ_CODE_BAUD, KETPHIROJ_FUNCTION_REPORT, 0, {0x02, 3, 0x01, 1, 2}},
    {KETPHIROJ_CODE_ACCELEROMETER, KETPHIROJ_FUNCTION_USE, 4, {0x02, 4, 0x07, 2, 1, 4}},
    {KETPHIROJ_CODE_ACCELEROMETER, KETPHIROJ_FUNCTION_SAVE, 0, {0x02, 3, 0x07, 1, 3}},
    {KETPHIROJ_CODE_GYROSCOPE, KETPHIROJ_FUNCTION_LOAD, 0, {0x02, 3, 0x08, 1, 4}},
    {KETPHIROJ_CODE_GYROSCOPE, KETPHIROJ_FUNCTION_FACTORY, 0, {0x02, 3, 0x08, 1, 5}},
};

/* The longest commands are those that set the baud rate. */
static void commands_are_named(void) {
    uint8_t message[18];
    for (size_t i = 0; i < sizeof named / sizeof named[0]; i++) {
        ketphiroj_written w = ketphiroj_write_command(named[i].code, named[i].function, named[i].value, message, sizeof message);
        agree(w.length == 6u + message[3] && memcmp(message + 2, named[i].bytes, w.length - 4) == 0, "a command by its names");
    }
    const uint8_t code = KETPHIROJ_CODE_BAUD, function = KETPHIROJ_FUNCTION_USE;
    agree(ketphiroj_write_command(code, function, 921600, message, 13).length == 13, "a command of 13 bytes");
    agree(ketphiroj_write_numbered(1, code, function, 921600, message, 18).length == 18, "a numbered command of 18 bytes");
}

/* A message that is answered with each error, on a port of a board whose page keeps the number 1. */
static const struct {
    uint8_t error;
    uint8_t kind;
    uint8_t length;
    uint8_t payload[6];
} erring[] = {
    {KETPHIROJ_ERROR_NONE, 0x01, 2, {0x02, 0}},
    {KETPHIROJ_ERROR_MESSAGE_TYPE, 0xA2, 2, {0x02, 0}},
    {KETPHIROJ_ERROR_MESSAGE_CODE, 0x01, 2, {0x08, 0}},
    {KETPHIROJ_ERROR_PARAMETER, 0x02, 3, {0x08, 1, 6}},
    {KETPHIROJ_ERROR_NUMBER, 0x02, 3, {0x08, 1, 3}},
    {KETPHIROJ_ERROR_NUMBER, 0x7C, 5, {0, 0, 0, 1, 0x01}},
};

/* Error 6 needs the full profile and port 1, where no number is asked for; error 7 the read-only one. */
static void errors_are_named(void) {
    static const uint8_t range_6[] = {0x08, 2, 1, 6};
    ketphiroj_values values = {false, 0, false, 0, false, 0, true, 1};
    agree(ketphiroj_write_page(values, page, sizeof page) == KETPHIROJ_DONE, "a page with a number");
    ketphiroj_board full = ketphiroj_start(KETPHIROJ_FULL, page, sizeof page).board;
    ketphiroj_board readonly = ketphiroj_start(KETPHIROJ_READONLY, page, sizeof page).board;
    uint8_t message[16];
    size_t length;
    for (size_t i = 0; i < sizeof erring / sizeof erring[0]; i++) {
        length = ketphiroj_write_message(erring[i].kind, erring[i].payload, erring[i].length, message, sizeof message).length;
        fed_board fed = feed(0, full, message, length);
        agree(fed.answer.error == erring[i].error && room[4] == KETPHIROJ_CODE_REPLY, "an error by its name");
        message[length - 1]++;
        agree(feed(0, full, message, length).answer.error == KETPHIROJ_ERROR_CHECKSUM, "wrong sums");
    }
    length = ketphiroj_write_message(KETPHIROJ_TYPE_CONFIGURATION, range_6, sizeof range_6, message, sizeof message).length;
    agree(feed(1, full, message, length).answer.error == KETPHIROJ_ERROR_UNSUPPORTED, "an older board's range");
    agree(feed(1, readonly, message, length).answer.error == KETPHIROJ_ERROR_NOT_ALLOWED, "a port that may not");
}

int main(void) {
    memset(page, 0xFF, sizeof page);
    versions_agree();
    refusal_returns_board();
    settings_are_looked_at();
    ports_hold_bytes();
    values_pass();
    bodies_pass();
    refused_pages();
    replies_pass();
    fields_are_appended();
    patterns_pass();
    unknown_fields_pass();
    largest_field_passes();
    settings_come_back();
    arrays_are_measured();
    silent_arrays_are_measured();
    ports_are_two();
    silences_pass();
    starts_in_place();
    started_arrays_are_measured();
    numbers_pass();
    old_ranges_pass();
    profiles_pass();
    totals_are_measured();
    boards_count();
    counts_pass();
    commands_are_named();
    errors_are_named();
    printf("layout: %d agree, %d differ\n", agreeing, differing);
    return differing != 0;
}
