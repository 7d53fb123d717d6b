/*
 * A data message with an acceleration, a rate, and two fields that the library does not know: the magnetic field of the specification
 * (003, table 66), and a text. The data of each field are used where they stand in the message, by place and size: no room is needed.
 * They are compared with a copy, and the axes that the library gives with those that are read in place. The exit status is 0 only where
 * all of this agrees.
 */
#include "ketphiroj.h"

#include <stdio.h>
#include <string.h>

enum { MAGNETIC_FIELD = 0x83, TEXT = 0x90 };

static int wrong;

static void expect(bool holds, const char *what) {
    if (!holds) {
        printf("NOT SO: %s\n", what);
        wrong++;
    }
}

/* The 32 bits of an axis, big-endian. */
static uint32_t bits_at(const uint8_t *bytes) {
    return (uint32_t) bytes[0] << 24 | (uint32_t) bytes[1] << 16 | (uint32_t) bytes[2] << 8 | bytes[3];
}

/* The float that has these bits. */
static float float_of(uint32_t bits) {
    float value;
    _Static_assert(sizeof value == sizeof bits, "a single float");
    memcpy(&value, &bits, sizeof value);
    return value;
}

static void print_axes(const uint8_t *data, const char *unit) {
    printf(" %g %g %g %s", float_of(bits_at(data)), float_of(bits_at(data + 4)), float_of(bits_at(data + 8)), unit);
}

/* `data` is the field's part of the message. */
static void print_field(ketphiroj_field field, const uint8_t *data) {
    printf("code %02X, %zu bytes at %zu:", field.code, field.size, field.place);
    if (field.code == KETPHIROJ_CODE_ACCELERATION) {
        print_axes(data, "g");
    } else if (field.code == KETPHIROJ_CODE_RATE) {
        print_axes(data, "degrees per second");
    } else if (field.code == MAGNETIC_FIELD && field.size == 12) { /* its size is looked at by nobody else */
        print_axes(data, "gauss");
    } else {
        printf(" %.*s", (int) field.size, (const char *) data);
    }
    printf("\n");
}

/* The data in place are the ones that are copied; those of an acceleration and a rate are its axes. */
static void compare(ketphiroj_field field, const uint8_t *message, size_t length, size_t k) {
    uint8_t copy[KETPHIROJ_FIELD_ROOM];
    const uint8_t *data = message + field.place;
    ketphiroj_written copied = ketphiroj_copy_field(message, length, k, copy, sizeof copy);
    expect(copied.number == KETPHIROJ_DONE && copied.length == field.size, "a copy is as long as the field");
    expect(memcmp(copy, data, field.size) == 0, "a copy has the bytes that stand in the message");
    if (field.code == KETPHIROJ_CODE_ACCELERATION || field.code == KETPHIROJ_CODE_RATE) {
        bool same = field.x == bits_at(data) && field.y == bits_at(data + 4) && field.z == bits_at(data + 8);
        expect(field.size == 12 && same, "the axes are those in place");
    }
}

int main(void) {
    static const uint8_t payload[] = {
        KETPHIROJ_CODE_ACCELERATION, 12, 0x37, 0xA7, 0xC5, 0xAC, 0x37, 0x7B, 0xA8, 0x82, 0x3F, 0x80, 0x00, 0x65,
        KETPHIROJ_CODE_RATE, 12, 0x42, 0xB4, 0x00, 0x00, 0x00, 0x00, 0x00, 0x00, 0xC0, 0x20, 0x00, 0x00,
        MAGNETIC_FIELD, 12, 0x37, 0xA7, 0xC5, 0xAC, 0x37, 0x7B, 0xA8, 0x82, 0x37, 0x49, 0x53, 0x9C,
        TEXT, 5, 'c', 'l', 'a', 'm', 'p'};
    uint8_t message[KETPHIROJ_LONGEST_MESSAGE];
    ketphiroj_written written = ketphiroj_write_message(KETPHIROJ_TYPE_DATA, payload, sizeof payload, message, sizeof message);
    expect(written.number == KETPHIROJ_DONE, "the message is written");
    ketphiroj_field field;
    size_t k = 0;
    while ((field = ketphiroj_read_field(message, written.length, k)).number == KETPHIROJ_DONE) {
        print_field(field, message + field.place);
        compare(field, message, written.length, k);
        k++;
    }
    printf("%zu fields, then number %u\n", k, field.number);
    expect(k == 4 && field.number == KETPHIROJ_NO_FIELD, "all fields are read");
    return wrong != 0;
}
