/*
 * Ketphiroj's calls for C. Each call of the library is proved to answer exactly what its definition says, for every argument:
 * crates/capi/src has the contracts, crates/NAME/specs the definitions. Not proved is what is C itself: the declarations below,
 * and the functions that stand here whole: ketphiroj_feed_in_place and ketphiroj_silence_in_place, which name the two uses of one
 * proved call, and ketphiroj_start_board, ketphiroj_feed_board and ketphiroj_silence_board, which lend parts of the board to a proved
 * call and put what it answers into the board. A firmware needs these three; README.md has a whole program with them.
 *
 * What a caller must see to, and nothing else:
 *   - the archive is the one of this header, see ketphiroj_version;
 *   - a pointer with a length points to that many bytes, and `totals` to that many uint64_t; the record of ketphiroj_count is a whole
 *     ketphiroj_tally; and none is ever NULL, not even with length 0;
 *   - a buffer that a call writes overlaps no other buffer of the same call;
 *   - a bool is true or false.
 * The archive is for x86-64, with a size_t of 64 bits and the System V calling convention, and calls memcpy and memset. A build for a
 * microcontroller is not offered by the kit today.
 *
 * No call keeps a pointer, allocates, or has a state of its own. What is refused writes nothing to any buffer; only a start in
 * place on a page that it refuses (19, 20) clears the two ports.
 */
#ifndef KETPHIROJ_H
#define KETPHIROJ_H

#include <stdbool.h>
#include <stddef.h>
#include <stdint.h>

#ifdef __cplusplus
extern "C" {
#endif

/* a compiler with another size_t refuses this line */
typedef char ketphiroj_size_t_is_64_bits[sizeof(size_t) == 8 ? 1 : -1];

/* ---- the version */

/* Of this header; KETPHIROJ_VERSION can be used in #if. */
#define KETPHIROJ_VERSION_MAJOR 0
#define KETPHIROJ_VERSION_MINOR 2
#define KETPHIROJ_VERSION_PATCH 0
#define KETPHIROJ_VERSION (10000 * KETPHIROJ_VERSION_MAJOR + 100 * KETPHIROJ_VERSION_MINOR + KETPHIROJ_VERSION_PATCH)

/*
 * The version of the archive: KETPHIROJ_VERSION of the header that belongs to it. A firmware compares the two before its first other
 * call. Where they differ, in any part, a record may have another layout and a call other arguments, which no linker sees: it must
 * not go on. An archive of before 0.2.0 has no such call: the linker says so.
 */
uint32_t ketphiroj_version(void);

/*
 * ---- sizes, and the words of the protocol
 *
 * A message is A5 A5, a type, the length of its payload, the payload, and two bytes of sums. A payload is a row of fields: a code, a
 * size, and that many data bytes. Numbers are big-endian.
 */

enum {
    KETPHIROJ_PORT_ROOM = 260,       /* the most bytes that a port holds */
    KETPHIROJ_LONGEST_MESSAGE = 261,
    KETPHIROJ_LONGEST_PAYLOAD = 255,
    KETPHIROJ_FIELD_ROOM = 253,      /* the most data bytes of a field: a payload less the field's code and size */
    KETPHIROJ_REPLY_ROOM = 166,      /* the longest reply, to a command of 16 fields, and the least room for a feed or a silence */
    KETPHIROJ_PAGE_SIZE = 64,
    KETPHIROJ_TOTALS = 11,           /* the totals of a port as a row of numbers: the members of ketphiroj_tally in their order */
    KETPHIROJ_DATA_SIZE = 34         /* a data message of an acceleration and a rate */
};

/* The types of messages. A reply has the type of the message that it answers. */
enum {
    KETPHIROJ_TYPE_BASE = 0x01,          /* a command: Ping */
    KETPHIROJ_TYPE_CONFIGURATION = 0x02, /* a command: the settings */
    KETPHIROJ_NUMBERED = 0x7C,           /* a command of either type with a number, see ketphiroj_feed_in_place */
    KETPHIROJ_TYPE_DATA = 0xA2           /* a data message; a board that is fed one answers error 2 */
};

/* The codes of fields. */
enum {
    KETPHIROJ_CODE_BAUD = 0x01,          /* a setting; the values of the three stand at ketphiroj_settings */
    KETPHIROJ_CODE_PING = 0x02,
    KETPHIROJ_CODE_ACCELEROMETER = 0x07, /* a setting */
    KETPHIROJ_CODE_GYROSCOPE = 0x08,     /* a setting */
    KETPHIROJ_CODE_LAST_NUMBER = 0x70,   /* on the page only: the last number accepted */
    KETPHIROJ_CODE_REPLY = 0x80,         /* in replies: echo and error */
    KETPHIROJ_CODE_ACCELERATION = 0x81,  /* in data messages: acceleration in g */
    KETPHIROJ_CODE_RATE = 0x82           /* in data messages: rate in degrees per second */
};

/* The functions of a setting. Ping has none. */
enum {
    KETPHIROJ_FUNCTION_USE = 1,    /* use the value that is sent */
    KETPHIROJ_FUNCTION_REPORT = 2, /* report the working value */
    KETPHIROJ_FUNCTION_SAVE = 3,   /* save the working value to the page */
    KETPHIROJ_FUNCTION_LOAD = 4,   /* take the page's value, or the factory's where the page has none */
    KETPHIROJ_FUNCTION_FACTORY = 5 /* take the factory's value; the page stays */
};

/*
 * The errors in a reply: one for each field of the command, or one in all where its fields are not reached. What gets an error
 * changes nothing, and does not stop the fields after it; a number that was taken stays spent. Where several would fit, the first in
 * this order is given. Of a message: 1; of a numbered one 7, then 4 for its length, then 5; 2; 3 for no field; 4 for fields that do
 * not fit. Then of each field: 3; 5 or 7; 4; 6.
 */
enum {
    KETPHIROJ_ERROR_NONE = 0, /* understood, and done */
    /* Wrong sums: damaged on the line, or noise that looked like a message. */
    KETPHIROJ_ERROR_CHECKSUM = 1,
    /* A kind of message that this board does not know: the type is not 0x01, 0x02 or 0x7C, or behind a number not 0x01 or 0x02. */
    KETPHIROJ_ERROR_MESSAGE_TYPE = 2,
    /* A code that it does not know in this type (0x01 has Ping, 0x02 the three settings), or no field. */
    KETPHIROJ_ERROR_MESSAGE_CODE = 3,
    /*
     * Not well made, by a fault of the sender: fields that do not fill the payload exactly, or are more than 16; a numbered command
     * whose payload is under 5 bytes; a wrong size; a function that is not 1 to 5; a value that is none of the setting's on any board.
     */
    KETPHIROJ_ERROR_PARAMETER = 4,
    /* Sent again: a number that is not fresh. Or none where it is needed: for functions 1, 3, 4, 5 on port 0, once the page keeps one. */
    KETPHIROJ_ERROR_NUMBER = 5,
    /* For an older board, which has more ranges: the gyroscope's 6 or 7, sent with function 1, or kept by the page under function 4. */
    KETPHIROJ_ERROR_UNSUPPORTED = 6,
    /* Not allowed on this port, which is port 1 of a read-only board: functions 1, 3, 4, 5, and every numbered command. */
    KETPHIROJ_ERROR_NOT_ALLOWED = 7
};

/*
 * The profile that a board is started in, for an argument `readonly`; any value but 0 is true, and so read-only. A start is told it,
 * the board keeps it, and no other call changes it. The page does not keep it: a board that starts anew, as after a power cut, is
 * told it again.
 * Full: either port may use every function (on port 0 with a number, once the page keeps one: see ketphiroj_feed_in_place).
 * Read-only: port 1 may use Ping and function 2 only; port 0 is as in the full profile. Functions 1, 3, 4 and 5 on port 1 are answered
 * with error 7, field by field. A numbered command with right sums gets one row with error 7 there, whatever stands in it, and its
 * number is not spent.
 * What is promised of a read-only board: whatever comes on port 1, in feeds and silences of any number, port 0 does not see it. Of
 * each call of port 0 the answer, the reply, what port 0 then holds, its totals, the working settings and the page are the same as with
 * anything else on port 1, or nothing. That is proved, of every list of calls, refused ones included.
 * What is not: port 1 still learns the working settings, since function 2 reports them, and so what port 0 does to them; who reads
 * there can pass that on. Nor is time covered: how long a call takes, and when port 0 is served while much comes on port 1, is the
 * driver's affair.
 */
enum { KETPHIROJ_FULL = 0, KETPHIROJ_READONLY = 1 };

/* The numbers that calls answer. Where more than one would fit, a call answers the first in its own list below. */
enum {
    KETPHIROJ_DONE = 0,
    KETPHIROJ_CHUNK_USED_UP = 1, /* nothing more to report; after a silence nothing is held */
    KETPHIROJ_BAD_PORT = 16,     /* not 0 or 1 */
    KETPHIROJ_BAD_BOARD = 17,    /* a port holds over 260 bytes, or a working value is none of this board's; or an array lent is not
                                    260 bytes, or a row not 11 totals */
    KETPHIROJ_SHORT_ROOM = 18,   /* under 166 bytes for a feed or a silence, else shorter than what is to be written */
    KETPHIROJ_PAGE_LENGTH = 19,  /* a page is not 64 bytes */
    KETPHIROJ_BAD_PAGE = 20,     /* a page is neither blank (64 bytes 0xFF) nor sound (as the library writes it) */
    KETPHIROJ_NOT_WHOLE = 21,    /* not one whole message */
    KETPHIROJ_BAD_SUMS = 22,
    KETPHIROJ_BAD_TYPE = 23,     /* not a data message; not a reply */
    KETPHIROJ_BAD_FIELDS = 24,   /* the fields do not fill the payload exactly */
    KETPHIROJ_BAD_SIZE = 25,     /* a field 0x81 or 0x82 whose size is not 12 */
    KETPHIROJ_LONG_PAYLOAD = 26, /* over 255 bytes */
    KETPHIROJ_NO_FIELD = 27,     /* no field of that number; no row of that number */
    KETPHIROJ_NO_COMMAND = 28    /* not a command that this board accepts */
};

/* ---- the board: kept by the caller, and fed in place */

/* The first `held` bytes are unread. Those behind them are 0 after a start, and after each accepted feed or silence of this port. */
typedef struct {
    uint8_t bytes[KETPHIROJ_PORT_ROOM];
    size_t held;
} ketphiroj_port;

/*
 * The working values, those that this board works with. The library takes, keeps and reports them; to put them to use, after a start
 * and after each feed and silence, is the driver's part.
 *
 * A range is a code of the sensor. Document 01, the board's protocol, gives one of the accelerometer's: 2 is +-4 g, as in an example
 * of 003, the MS CIP specification (table 38). The table of 003 does not agree with that: 1 +-4 g, 2 +-8 g, 3 +-10 g, 4 +-15 g (table
 * 37). Of the gyroscope's it has 1 +-120, 2 +-240, 3 +-480, 4 +-960, 5 +-1920 degrees per second (table 41). For both it refers to the
 * guide of the device. Older boards had the gyroscope's 6 (+-75) and 7 (+-200), too: a page may still keep them, and this board does not
 * work with them.
 *
 * A new baud rate. Functions 1, 4 and 5 set the working value at once; the reply is in the room, and sending it is the driver's part.
 * 003 says (3.2.1): "When the Baud Rate is changed messages following the reply will be at the new settings." So the reply goes out
 * at the old rate, and the driver switches when its last byte is sent. To see it, compare `baud` before and after each feed and silence.
 * 003 speaks of one UART, and document 01 has one working value for both ports: whether the other port is switched, too, is for the
 * driver to decide.
 */
typedef struct {
    uint32_t baud;         /* 9600, 19200, 115200, 230400, 460800 or 921600; the factory's is 115200 */
    uint8_t accelerometer; /* range, 1 to 4; the factory's is 2 */
    uint8_t gyroscope;     /* range, 1 to 5; the factory's is 3 */
} ketphiroj_settings;

/*
 * The totals of one port since its board was started, which say how bad its line is. The board has them for each port: a feed or a
 * silence with number 0 or 1 adds what it did to those of its port, and one that is refused changes none. A start gives zeros, also where
 * it is refused. A driver may keep such a record of its own beside the board, see ketphiroj_count.
 * Each total stops at its largest figure, 18446744073709551615, and from then on says 'at least'; the others go on. From a start on, and
 * until `taken` has stopped, which is the largest of the three, taken = good + skipped + what the port holds, after each call. That is
 * proved, of every list of calls, refused ones included.
 * Any totals are sound: no call refuses a board for them, or does anything else because of them.
 * The members are numbers of one kind, with nothing between them: KETPHIROJ_TOTALS of them in a row, as a call in place is lent them.
 */
typedef struct {
    uint64_t taken;   /* bytes taken from the chunks */
    uint64_t skipped; /* bytes that the scan skipped: those of no message, and the first of each damaged one */
    uint64_t good;    /* bytes of good messages: of those with right sums, whatever they were answered */
    /*
     * Messages by the first error in the reply, KETPHIROJ_ERROR_NONE to KETPHIROJ_ERROR_NOT_ALLOWED: of a command with several fields
     * the first row's, so that 0 says nothing of the fields behind it. A bad line shows in `skipped` and in 1. The others came whole
     * over the line: they tell of the sender.
     */
    uint64_t errors[8];
} ketphiroj_tally;

/* so that a record can be lent as a row; a compiler that packs it otherwise refuses this line */
typedef char ketphiroj_tally_is_a_row[sizeof(ketphiroj_tally) == KETPHIROJ_TOTALS * sizeof(uint64_t) ? 1 : -1];

typedef struct {
    ketphiroj_port first; /* port 0 */
    ketphiroj_port second; /* port 1 */
    ketphiroj_settings settings; /* the working values */
    bool readonly; /* the profile that it was started in; the calls only read it */
    ketphiroj_tally tally0; /* the totals of port 0 */
    ketphiroj_tally tally1; /* the totals of port 1 */
} ketphiroj_board;

typedef struct {
    uint8_t number;
    ketphiroj_board board;
} ketphiroj_started;

/*
 * A board with two empty ports and totals of zero, in the profile KETPHIROJ_FULL or KETPHIROJ_READONLY, on the settings that the page
 * keeps, or on the factory's for those that it does not. A gyroscope's range 6 or 7, which a page of an older board may keep, is not
 * used: the board starts on the factory's, and the page stays as it is. Numbers: 0; 19, 20: the board is then on the factory's settings,
 * in the profile asked for, and all else is as after any start. Look at the number: on such a page every feed and every silence is
 * refused with it, too, and the board is mute. README.md says what can be done.
 */
ketphiroj_started ketphiroj_start(bool readonly, const uint8_t *page, size_t page_length);

/* What a start in place answers. The board is the caller's: `settings` and `readonly` are to be put into it. */
typedef struct {
    ketphiroj_settings settings; /* the working values now */
    uint8_t number;
    bool readonly; /* the profile asked for, also where the start is refused */
} ketphiroj_started_in_place;

/*
 * Starts a board that the caller keeps, whatever stands in it, where ketphiroj_start answers a whole board and takes the stack for
 * it. `first` and `second` are the 260 bytes of ports 0 and 1, which are cleared. The caller sets both held counts to 0 and the totals
 * of both ports to zero, and puts the answer's settings and profile into its board, as ketphiroj_start_board does: the board is then the
 * one that ketphiroj_start answers. It does so with 19 and 20, too. The page is only read.
 * 0: the board starts on the settings that the page keeps, or on the factory's for those that it does not, and for a
 *    gyroscope's range 6 or 7.
 * 17: an array is not 260 bytes. Nothing was written, and the settings are the factory's.
 * 19, 20: the page is refused, as every feed and silence on it would be. Both ports were cleared all the same, and the settings are the
 *    factory's.
 */
ketphiroj_started_in_place ketphiroj_start_in_place(
    bool readonly, uint8_t *first, size_t first_length, uint8_t *second, size_t second_length, const uint8_t *page,
    size_t page_length);

/* What a feed or a silence answers. The board is the caller's: `held` and `settings` are to be put back into it. */
typedef struct {
    size_t taken;   /* bytes taken from the chunk: feed again from there; 0 after a silence */
    size_t skipped; /* bytes that the scan skipped */
    size_t held;    /* what the named port holds now */
    ketphiroj_settings settings; /* the working values now */
    uint8_t number;
    uint8_t error;  /* the first error in the reply, KETPHIROJ_ERROR_NONE to .._NOT_ALLOWED; 0 where there is no reply */
    bool saved;     /* whether a save was accepted, of any field, or a fresh number was taken: the page was written */
} ketphiroj_stepped;

/*
 * The proved call behind ketphiroj_feed_in_place, where `quiet` is false, and ketphiroj_silence_in_place, where it is true: the chunk is
 * then not looked at, and none of it is taken.
 */
ketphiroj_stepped ketphiroj_call_in_place(
    uint8_t port, uint8_t *bytes, size_t bytes_length, size_t first, size_t second, ketphiroj_settings settings, bool readonly,
    bool quiet, uint64_t *totals, size_t totals_length, const uint8_t *chunk, size_t chunk_length, uint8_t *room, size_t room_length,
    uint8_t *page, size_t page_length);

/*
 * Feeds a chunk to port 0 or 1. `bytes` are the 260 bytes of the named port, which are written in place, `first` and `second`
 * the held counts of ports 0 and 1, `readonly` the profile that the board was started in. `totals` are the 11 totals of the named port,
 * to which the call is added in place: KETPHIROJ_TOTALS numbers in the order of ketphiroj_tally. The caller puts the answer's held count
 * and settings back into its board, as ketphiroj_feed_board does.
 * Bytes that open no message are skipped without a reply; so are stray A5 in front of a message, any number of them.
 * A command has 1 to 16 fields, which are handled in their order as separate commands would be; an error of one does not stop
 * those after it. Where the fields do not fill the payload exactly, or are more than 16, nothing is done, and the error is 4.
 * Where the page of an older board keeps the gyroscope's range 6 or 7, function 4 is answered with error 6 until function 3 has
 * written the working range over it.
 * 0: a message was answered. Its reply is at the front of `room`: 4 bytes, payload, 2 bytes, where byte 3 is the length of the
 *    payload; the rest of the room is left alone. The payload has a row for each field of the command, or one row where its fields
 *    are not reached, see ketphiroj_read_reply. Where `saved`, the page was written anew and is to be stored before the reply is
 *    sent, else it is as it was. Then the rest of the chunk is to be fed, from `taken` on, even where nothing is left of it: more
 *    messages may be held.
 * 1: the whole chunk was taken, and there is nothing more to report. Nothing was written to the room or the page.
 * 16, 17, 18, 19, 20: refused; an array that is not 260 bytes gives 17, and so do totals that are not 11. Nothing was taken, counted or
 *    written, and the held count and the settings are those given: `first` for port 0, and `second` for any other, also where there is
 *    no such port (16). So ketphiroj_feed_board, to which any port but 0 is the second, puts back there what was there.
 *
 * Numbered commands. A message of type 0x7C is a command with a number in front: its payload is the number (4 bytes, big-endian),
 * the type 0x01 or 0x02, and the fields. Port 0 takes it, and in the full profile port 1. The number is fresh where it is larger than
 * the one that the page keeps, or where the page keeps none. A fresh number is written to the page, then the command is handled; the
 * number is spent even where the command is answered with an error. One that is not fresh is answered with error 5, and nothing
 * changes. Once the page keeps a number, port 0 answers functions 1, 3, 4 and 5 without a number with error 5; Ping and function 2 go
 * on, and in the full profile port 1 takes all of them. After 4294967295 no number is fresh until the page is erased. On port 1 of a
 * read-only board each numbered command with right sums is answered with error 7, fresh or not, and the number is not spent.
 * So no number is accepted twice over one page, however often a board is started on it. For this to hold over a power cut the
 * driver must, with feeds and with silences,
 *   - store the page where `saved`, and only then act on the answer: send the reply, and put the answered settings to use. A number
 *     that was answered and is not on the stored page would be accepted again after the cut. Where storing fails, send nothing, and
 *     make no further feed or silence, but start again on the stored page;
 *   - lend a copy of the page in memory that a power cut clears, and not the stored page itself: while a feed or a silence writes the
 *     page, it is blank for a moment, and a blank page has no number;
 *   - store it whole or not at all. A page of which only a part was stored is not always refused: the next start may take it for a
 *     blank one, which accepts every number again, or for one with another number, smaller or larger. A page has no sums;
 *   - start on the page that was stored last, never on an older copy, and let nobody else write or erase it. Where a start answers 20,
 *     the number is lost: a blank page in its place would let every number be accepted again. Whether to erase it so is for the
 *     firmware, or a person, to decide; the library leaves the page as it is.
 */
static inline ketphiroj_stepped ketphiroj_feed_in_place(
    uint8_t port, uint8_t *bytes, size_t bytes_length, size_t first, size_t second, ketphiroj_settings settings, bool readonly,
    uint64_t *totals, size_t totals_length, const uint8_t *chunk, size_t chunk_length, uint8_t *room, size_t room_length,
    uint8_t *page, size_t page_length)
{
    return ketphiroj_call_in_place(
        port, bytes, bytes_length, first, second, settings, readonly, false, totals, totals_length, chunk, chunk_length, room,
        room_length, page, page_length);
}

/*
 * Tells port 0 or 1 that its line is silent, which the driver knows: no more bytes of a message that has begun will come. A false
 * header can claim 255 bytes, and a true command would wait behind it. The scan goes on over the held bytes; each time it would wait
 * for more it skips the first of them instead, without a reply. It stops at the first message, or when nothing is held. Arguments as
 * with ketphiroj_feed_in_place, without a chunk; nothing is taken.
 * Before it everything that was received on that port is fed, until a feed answers 1. The rest of a chunk that is fed only after the
 * silence counts as received after it: a message that begins before that rest and ends in it is lost.
 * 0: a message was answered, as by a feed: its reply is at the front of `room`, and where `saved`, the page is to be stored before the
 *    reply is sent. More may be held: call again.
 * 1: nothing is held, and there is nothing more to report. Nothing was written to the room or the page.
 * 16, 17, 18, 19, 20: refused, as a feed with these arguments. Nothing was counted or written, and the held count and the settings are
 *    those given, `second` for any port but 0.
 *
 * A driver calls until the answer is 1 before it feeds that port again. A feed before that is taken, over the bytes that are left: a
 * message may then begin before the silence and end after it. No number of a numbered command is accepted twice either way.
 */
static inline ketphiroj_stepped ketphiroj_silence_in_place(
    uint8_t port, uint8_t *bytes, size_t bytes_length, size_t first, size_t second, ketphiroj_settings settings, bool readonly,
    uint64_t *totals, size_t totals_length, uint8_t *room, size_t room_length, uint8_t *page, size_t page_length)
{
    static const uint8_t no_chunk[1] = {0}; /* never NULL, not even with length 0 */
    return ketphiroj_call_in_place(
        port, bytes, bytes_length, first, second, settings, readonly, true, totals, totals_length, no_chunk, 0, room, room_length,
        page, page_length);
}

/*
 * Starts a board where it stands, in the profile KETPHIROJ_FULL or KETPHIROJ_READONLY and whatever it holds: afterwards it is the one
 * that ketphiroj_start answers, with the same number. Numbers: 0; 19, 20: the board has then two empty ports, the factory's settings,
 * the profile asked for, and totals of zero, and every feed and silence on this page is refused with the same number: look at it. The
 * call inside is proved; the six assignments after the call are C, and are not.
 */
static inline uint8_t ketphiroj_start_board(ketphiroj_board *board, bool readonly, const uint8_t *page, size_t page_length)
{
    static const ketphiroj_tally zero = {0, 0, 0, {0, 0, 0, 0, 0, 0, 0, 0}};
    ketphiroj_started_in_place answer = ketphiroj_start_in_place(
        readonly, board->first.bytes, KETPHIROJ_PORT_ROOM, board->second.bytes, KETPHIROJ_PORT_ROOM, page, page_length);
    board->first.held = 0;
    board->second.held = 0;
    board->settings = answer.settings;
    board->readonly = answer.readonly;
    board->tally0 = zero;
    board->tally1 = zero;
    return answer.number;
}

/*
 * Feeds a chunk to port 0 or 1 of a board: numbers and buffers as with ketphiroj_feed_in_place. It writes the named port's bytes,
 * its held count, its totals and the settings; the other port, the other totals and the profile are left alone. A refusal leaves the
 * board as it was. The call inside is proved; the choice of the port, the choice of its totals, which are lent as a row, and the two
 * assignments after the call are C, and are not.
 */
static inline ketphiroj_stepped ketphiroj_feed_board(
    uint8_t port, ketphiroj_board *board, const uint8_t *chunk, size_t chunk_length, uint8_t *room, size_t room_length,
    uint8_t *page, size_t page_length)
{
    ketphiroj_port *named = port == 0 ? &board->first : &board->second;
    uint64_t *totals = (uint64_t *) (port == 0 ? &board->tally0 : &board->tally1);
    ketphiroj_stepped answer = ketphiroj_feed_in_place(
        port, named->bytes, KETPHIROJ_PORT_ROOM, board->first.held, board->second.held, board->settings, board->readonly, totals,
        KETPHIROJ_TOTALS, chunk, chunk_length, room, room_length, page, page_length);
    named->held = answer.held;
    board->settings = answer.settings;
    return answer;
}

/*
 * Tells port 0 or 1 of a board that its line is silent: when it may be called, numbers and buffers as with ketphiroj_silence_in_place.
 * What it writes, what it leaves alone and what of it is C is as with ketphiroj_feed_board.
 */
static inline ketphiroj_stepped ketphiroj_silence_board(
    uint8_t port, ketphiroj_board *board, uint8_t *room, size_t room_length, uint8_t *page, size_t page_length)
{
    ketphiroj_port *named = port == 0 ? &board->first : &board->second;
    uint64_t *totals = (uint64_t *) (port == 0 ? &board->tally0 : &board->tally1);
    ketphiroj_stepped answer = ketphiroj_silence_in_place(
        port, named->bytes, KETPHIROJ_PORT_ROOM, board->first.held, board->second.held, board->settings, board->readonly, totals,
        KETPHIROJ_TOTALS, room, room_length, page, page_length);
    named->held = answer.held;
    board->settings = answer.settings;
    return answer;
}

/*
 * Counts a feed or a silence in a record that the driver keeps on its own: the same totals as the board's, without a look into the board.
 * There is one record for each port. The driver
 *   - sets it to zero when it starts the board, also where the start is refused;
 *   - calls this after every feed and every silence of that port, with the number, taken, skipped and error that were answered, with what
 *     the port held before the call as `before` (0 after a start, then the held of that port's last answer), and with the answer's held
 *     as `after`. Refused ones may be passed or left out: they change nothing.
 * A record that is kept so equals the board's totals of that port after each call, and so does one that is begun later, with the board's
 * totals in place of zero. That is proved, of every list of calls and starts. The board counts its own totals: to give this its tally0 or
 * tally1 would count a call twice.
 * Any arguments are taken, and any record. A number above 1 changes nothing. With 0 and 1 the bytes taken and skipped are added, and to
 * the good ones taken plus before, less skipped, less after: at least 0, as whole numbers that do not wrap. Only number 0 counts a
 * message, under its error; an error above 7 is counted nowhere. Each total stops at its largest figure.
 */
void ketphiroj_count(
    ketphiroj_tally *tally, uint8_t number, size_t taken, size_t skipped, uint8_t error, size_t before, size_t after);

/* ---- messages */

/* What a writer answers. With any number but 0 the length is 0 and nothing was written. */
typedef struct {
    uint8_t number;
    size_t length; /* bytes written, from the room's front (ketphiroj_append_field: with those before); the rest is left alone */
} ketphiroj_written;

/* Is this one whole message with right sums? Numbers: 0; 21, 22. */
uint8_t ketphiroj_check_message(const uint8_t *message, size_t message_length);

/*
 * Writes the message of a type and a payload: 6 bytes more than the payload. Any type is written; a board finds no message of type A5.
 * Numbers: 0; 26, 18.
 */
ketphiroj_written ketphiroj_write_message(
    uint8_t kind, const uint8_t *payload, size_t payload_length, uint8_t *room, size_t room_length);

/*
 * Writes a command, at most 13 bytes: KETPHIROJ_CODE_PING, or the code of a setting with a KETPHIROJ_FUNCTION_. With Ping neither
 * function nor value is looked at; otherwise the value with function 1 alone, which must be one of ketphiroj_settings: the gyroscope's
 * ranges 6 and 7 give 28. (The writer sees neither the board's page nor its profile: functions 1, 3, 4 and 5 may still be answered
 * with error 5 or 7, and function 4 with 6.) Numbers: 0; 28, 18.
 */
ketphiroj_written ketphiroj_write_command(uint8_t code, uint8_t function, uint32_t value, uint8_t *room, size_t room_length);

/*
 * Writes a numbered command, a message of type 0x7C, at most 18 bytes: the number, then the type and the field that
 * ketphiroj_write_command would write. Numbers: 0; 28, 18. For several fields put the four bytes of the number, the highest first, and
 * the type in front, append the fields with ketphiroj_append_field from length 5 on, and make the message with type 0x7C.
 */
ketphiroj_written ketphiroj_write_numbered(
    uint32_t number, uint8_t code, uint8_t function, uint32_t value, uint8_t *room, size_t room_length);

/*
 * Writes one field of a command of type `kind` behind the first `length` bytes of the room, a payload that is being built. Type
 * 0x01 has Ping, type 0x02 the settings; functions and values as with ketphiroj_write_command. The length answered is the payload's
 * new one; only the field's own bytes are written. ketphiroj_write_message makes the message, with the same type; a board takes 1 to
 * 16 fields. Numbers: 0; 28 (a board does not accept a message of this type with this field), 18 (also where `length` alone is over
 * the room).
 */
ketphiroj_written ketphiroj_append_field(
    uint8_t kind, uint8_t code, uint8_t function, uint32_t value, size_t length, uint8_t *room, size_t room_length);

/* One row of a reply, which answers one field of a command. With any number but 0 all else is 0 and false. */
typedef struct {
    uint8_t number;
    uint8_t kind; /* the type, as in the command; 0x7C for a numbered one */
    /*
     * The field's code. Of a command whose fields were not reached its first payload byte, 0 if it had none; of a numbered one
     * with right sums the first byte behind the number and the type, 0 if there is none.
     */
    uint8_t echo;
    uint8_t error; /* KETPHIROJ_ERROR_NONE to KETPHIROJ_ERROR_NOT_ALLOWED */
    bool has_value;
    uint32_t value; /* 0 where there is none; older boards report the gyroscope's ranges 6 and 7, too */
} ketphiroj_reply;

/*
 * Reads row `row`, counted from 0, of a reply that is one whole message of 1 to 16 rows: several only in types 0x01, 0x02 and
 * 0x7C, values only in 0x02 and 0x7C. Numbers: 0; 21, 22, 23, 27.
 */
ketphiroj_reply ketphiroj_read_reply(const uint8_t *message, size_t message_length, size_t row);

/* ---- data messages: an axis goes in and out as the 32 bits of an IEEE 754 single float, NaN patterns too */

/*
 * A field. With any number but 0 all else is 0. Its data are the `size` bytes from `place` on, inside the message for every kind of
 * field, so that they can be used where they are:
 *     ketphiroj_field field = ketphiroj_read_field(message, length, k);
 *     if (field.number == KETPHIROJ_DONE) use(message + field.place, field.size);
 */
typedef struct {
    uint8_t number;
    uint8_t code; /* KETPHIROJ_CODE_ACCELERATION, KETPHIROJ_CODE_RATE; any other: unknown to the library */
    size_t place; /* where its data start in the message */
    size_t size;  /* how many data bytes it has: 12 for an acceleration and a rate, else 0 to 253 */
    uint32_t x;   /* of an acceleration and a rate; else 0 */
    uint32_t y;
    uint32_t z;
} ketphiroj_field;

/* Reads field k, counted from 0. Numbers: 0; 21, 22, 23, 24, 25, 27. */
ketphiroj_field ketphiroj_read_field(const uint8_t *message, size_t message_length, size_t k);

/*
 * Copies the data bytes of field k to the room's front. A room of KETPHIROJ_FIELD_ROOM bytes is enough for every field. Numbers: 0; 21,
 * 22, 23, 24, 25, 27, 18.
 */
ketphiroj_written ketphiroj_copy_field(
    const uint8_t *message, size_t message_length, size_t k, uint8_t *room, size_t room_length);

/* Writes the data message of an acceleration and a rate, 34 bytes. Numbers: 0; 18. */
ketphiroj_written ketphiroj_write_data(
    uint32_t ax, uint32_t ay, uint32_t az, uint32_t rx, uint32_t ry, uint32_t rz, uint8_t *room, size_t room_length);

/* ---- the start-up page: 64 bytes; blank, all of them 0xFF, where it keeps nothing, as that of a new board */

/*
 * The values that a page keeps: those of ketphiroj_settings, and the gyroscope's ranges 6 and 7 of older boards. A value whose `has_`
 * is false is absent, whatever number stands beside it.
 */
typedef struct {
    bool has_baud;
    uint32_t baud;
    bool has_accelerometer;
    uint32_t accelerometer;
    bool has_gyroscope;
    uint32_t gyroscope; /* 1 to 7; a start and function 4 take 1 to 5 alone */
    bool has_last_number;
    uint32_t last_number; /* the last number accepted: any value */
} ketphiroj_values;

/* Is this page blank or sound? One that keeps the gyroscope's range 6 or 7 stays sound. Numbers: 0; 19, 20. */
uint8_t ketphiroj_check_page(const uint8_t *page, size_t page_length);

/* What reading a page answers: its values, 0 beside a `has_` that is false. With any number but 0 no value is there. */
typedef struct {
    ketphiroj_values values;
    uint8_t number;
} ketphiroj_page_read;

/* Reads the values that a blank or sound page keeps. Numbers: 0; 19, 20. */
ketphiroj_page_read ketphiroj_read_page(const uint8_t *page, size_t page_length);

/*
 * Writes all 64 bytes of the page, so that it keeps these values; with none it is blank. Numbers: 0; 19, 20 (a value that is there is
 * none that a page may keep). Not for a page that a board runs on: a smaller number, or none, lets the board accept numbers again.
 */
uint8_t ketphiroj_write_page(ketphiroj_values values, uint8_t *page, size_t page_length);

/*
 * Copies the bytes under a code to the room's front, at most 4: from the saved page if it has an entry, else from the factory page;
 * length 0 where neither has one. Codes: those of the settings and KETPHIROJ_CODE_LAST_NUMBER, which the factory page does not keep. A
 * gyroscope's range 6 or 7 of an older board is copied as it stands; a start and function 4 do not take it. Numbers: 0; 19, 20 of the
 * saved page, then 19, 20 of the factory page, then 18.
 */
ketphiroj_written ketphiroj_copy_body(
    const uint8_t *saved, size_t saved_length, const uint8_t *factory, size_t factory_length, uint8_t code, uint8_t *room,
    size_t room_length);

/* Writes the factory page, 64 bytes, to the room's front. Numbers: 0; 18. */
ketphiroj_written ketphiroj_factory_page(uint8_t *room, size_t room_length);

#ifdef __cplusplus
}
#endif

#endif
