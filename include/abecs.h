/* The device end of an Abecs 2.20 line, and its codecs: what libabecs.a holds.
 *
 * Every buffer is the caller's. A call reads and writes only what it is lent, and keeps no pointer. A buffer is a pointer and
 * a count of bytes; the pointer is never null, also where the count is 0, and a buffer that is written overlaps no other.
 * A refusal is a number; 0 is a success. A refused call has changed nothing.
 *
 *  1  too little room: under 64 bytes for a device call, under the output's length for the others
 *  2  a store is not 32,768 bytes
 *  3  the device or a store breaks a rule, judged on its present contents
 * 10  payload empty                      11  payload or message over 2,048 bytes
 * 12  not of a packet's form             13  the check differs
 * 20  name, status or block wrong        21  a parameter goes past its block or list
 * 22  parameter data over 995 bytes      23  message over 2,048 bytes
 * 24  no nth parameter of that number
 * 30  no tag    31  no length form    32  value past the end    33  value over 65,535 bytes
 */
#ifndef ABECS_H
#define ABECS_H

#include <stddef.h>
#include <stdint.h>

#ifdef __cplusplus
extern "C" {
#endif

/* ---- the device */

#define ABECS_ROOM 64u
#define ABECS_STORE 32768u

/* A device between two calls, in the caller's memory. Look at it, copy it, keep it; a call judges it before it uses it, and an image that no device
 * can have is refused as 3. The padding that C puts after the last field is nobody's: no call reads it, and what it holds afterwards is not promised. */
struct abecs_device {
    uint8_t state;        /* 0 idle, 1 in data, 2 in data after 13h, 3 waits for the first check byte, 4 for the second */
    uint8_t first;        /* the first check byte in state 4, else 0 */
    uint8_t spoiled;      /* 0 or 1 */
    uint8_t times;        /* how often the held response was sent again, 0 to 3 */
    uint8_t opened;       /* 1 while a load is open; the next three are the load's */
    uint8_t network;
    uint8_t over;
    uint8_t any;          /* 1 once a TLR of it was answered 000 */
    size_t count;         /* payload bytes placed in `store` so far */
    size_t length;        /* of the held response's payload, 0 for none */
    size_t live_used;     /* bytes and records of the live store */
    size_t live_records;
    size_t load_used;     /* bytes and records of the loading store */
    size_t load_records;
    uint8_t payload[19];  /* the held response's payload, zeros after it */
    uint8_t version[10];  /* the version that TLI named */
    uint8_t versions[1000]; /* ten bytes for each of the networks 00 to 99 */
    uint8_t store[2048];  /* the reception store */
};

/* The refusal or 0; how many bytes of the piece were taken; how many were written to the start of `out`. */
struct abecs_taken {
    uint8_t refusal;
    size_t taken;
    size_t written;
};

/* Starts a fresh device where `device` points, whatever stands there, and zeroes both stores. Refusal: 2, which leaves all three as they were. */
struct abecs_taken abecs_start(struct abecs_device *device, uint8_t *live, size_t live_len, uint8_t *loading, size_t loading_len);

/* Takes bytes of the line: up to the one that completes a reply, or all. Offer again what was not taken. Refusals: 1, 2, 3. */
struct abecs_taken abecs_receive(struct abecs_device *device, const uint8_t *piece, size_t piece_len, uint8_t *out, size_t out_len,
                                 uint8_t *live, size_t live_len, uint8_t *loading, size_t loading_len);

/* The line was silent for too long: reception goes idle. Refusals: 1, 2, 3. */
struct abecs_taken abecs_timeout(struct abecs_device *device, uint8_t *out, size_t out_len, uint8_t *live, size_t live_len,
                                 uint8_t *loading, size_t loading_len);

/* The board restarted: reception idle, held response forgotten, open load dropped. Refusals: 1, 2, 3. */
struct abecs_taken abecs_restart(struct abecs_device *device, uint8_t *out, size_t out_len, uint8_t *live, size_t live_len,
                                 uint8_t *loading, size_t loading_len);

/* ---- packets */

/* The refusal or 0, and the length of the output at the start of `out`. */
struct abecs_answer {
    uint8_t refusal;
    size_t length;
};

struct abecs_answer abecs_write_packet(const uint8_t *payload, size_t payload_len, uint8_t *out, size_t out_len);
struct abecs_answer abecs_read_packet(const uint8_t *bytes, size_t bytes_len, uint8_t *out, size_t out_len);
uint16_t abecs_check_of(const uint8_t *payload, size_t payload_len);

/* ---- messages: `response` is 0 for a command, anything else for a response */

struct abecs_answer abecs_read_message(const uint8_t *message, size_t message_len, uint8_t response, uint8_t *out, size_t out_len);
struct abecs_answer abecs_write_message(const uint8_t *head, size_t head_len, uint8_t response, const uint8_t *list, size_t list_len,
                                        uint8_t *out, size_t out_len);
struct abecs_answer abecs_find_parameter(const uint8_t *list, size_t list_len, uint16_t number, size_t n, uint8_t *out, size_t out_len);

/* ---- data objects */

/* The refusal or 0, and the lengths of the tag, of the header and of the whole object. */
struct abecs_object {
    uint8_t refusal;
    size_t tag;
    size_t header;
    size_t whole;
};

struct abecs_object abecs_read_object(const uint8_t *input, size_t input_len);
struct abecs_answer abecs_write_object(const uint8_t *tag, size_t tag_len, const uint8_t *value, size_t value_len, uint8_t *out, size_t out_len);
struct abecs_answer abecs_pick(const uint8_t *tags, size_t tags_len, const uint8_t *objects, size_t objects_len, uint8_t *out, size_t out_len);

/* ---- table stores, for tools that look into one. The device's calls need none of these. A flag is 0 or 1 */

struct abecs_load {
    size_t used;
    size_t records;
    uint8_t over;
};

struct abecs_closed {
    uint8_t done;
    size_t used;
    size_t records;
};

uint8_t abecs_check_store(const uint8_t *store, size_t store_len, size_t used, size_t records, uint8_t network);
uint8_t abecs_block_good(const uint8_t *block, size_t block_len);
struct abecs_load abecs_add_block(uint8_t *store, size_t store_len, size_t used, size_t records, uint8_t over, uint8_t network,
                                  const uint8_t *block, size_t block_len);
struct abecs_closed abecs_close_load(uint8_t *live, size_t live_len, uint8_t *loading, size_t loading_len, size_t live_used,
                                     size_t live_records, size_t load_used, size_t load_records, uint8_t over, uint8_t network);
void abecs_zero_store(uint8_t *store, size_t store_len);
void abecs_versions_after(uint8_t *versions, size_t versions_len, uint8_t network, const uint8_t *version, size_t version_len);

#ifdef __cplusplus
}
#endif

#endif
