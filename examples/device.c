/* A device on a line, from C: it is started, receives a packet byte by byte, sends its response again when asked to, and forgets it. Then a packet in one
 * piece, one that is broken off, and two calls that are refused. It prints the exchange, and ends with 1 if anything is not as it should be.
 *
 *     (cd crates/abecs && rt lib)
 *     mkdir -p target
 *     gcc -std=c11 -Wall -Wextra -Werror -Iinclude examples/device.c crates/abecs/out/libabecs.a -o target/device-example && target/device-example
 */
#include <stdio.h>
#include <stdlib.h>
#include <string.h>

#include "abecs.h"

/* All memory is ours: the library allocates nothing and keeps nothing between calls. So there can be as many devices as one likes, and a device is
 * saved by writing these three to a file. They are static because 68 KB may be much for a stack. */
static struct abecs_device device;
static uint8_t live[ABECS_STORE];    /* the tables in use */
static uint8_t loading[ABECS_STORE]; /* the tables of a load that is not closed yet */

/* Room for one reply. With 64 bytes every reply fits, so a call asks for them even where it has nothing to say. */
static uint8_t out[ABECS_ROOM];

static void print(const char *who, const uint8_t *bytes, size_t count)
{
    if (count == 0) {
        return;
    }
    printf("%s", who);
    for (size_t i = 0; i < count; i++) {
        printf(" %02X", bytes[i]);
    }
    printf("\n");
}

static void check(int good, const char *what)
{
    if (!good) {
        printf("not as it should be: %s\n", what);
        exit(1);
    }
}

/* The last reply, to compare it with what it should be. */
static uint8_t reply[ABECS_ROOM];
static size_t reply_length;

/* Gives bytes of the line to the device. A call stops after the byte that completes a reply, so that no reply is lost and one buffer is enough: send
 * what was written, and offer the bytes that were not taken again. A call that is not refused takes at least one byte, so this ends. */
static void receive(const uint8_t *piece, size_t count)
{
    reply_length = 0;
    while (count > 0) {
        struct abecs_taken r =
            abecs_receive(&device, piece, count, out, sizeof out, live, sizeof live, loading, sizeof loading);
        check(r.refusal == 0, "a call on a device that only the library wrote is not refused");
        print("host  ", piece, r.taken);
        print("device", out, r.written);
        if (r.written > 0) {
            memcpy(reply, out, r.written);
            reply_length = r.written;
        }
        piece += r.taken;
        count -= r.taken;
    }
}

static void expect(const uint8_t *bytes, size_t count, const char *what)
{
    check(reply_length == count && memcmp(reply, bytes, count) == 0, what);
}

/* Whether two devices have the same bytes. Those that C may put behind the last field are nobody's. */
static int same(const struct abecs_device *a, const struct abecs_device *b)
{
    return memcmp(a, b, offsetof(struct abecs_device, store) + sizeof a->store) == 0;
}

int main(void)
{
    /* OPN in a packet: 16h, the payload, 17h, and two bytes of check. */
    static const uint8_t opn[] = {0x16, 0x4F, 0x50, 0x4E, 0x17, 0xA8, 0xA9};
    /* 06h says that the packet is good; the response OPN000 follows in a packet of its own. */
    static const uint8_t opened[] = {0x06, 0x16, 0x4F, 0x50, 0x4E, 0x30, 0x30, 0x30, 0x17, 0x77, 0x5E};
    static const uint8_t nak[] = {0x15}; /* send that again */
    static const uint8_t can[] = {0x18}; /* forget it */
    static const uint8_t eot[] = {0x04}; /* the answer to 18h */

    /* Start writes every byte of the device and zeroes both stores: nothing has to be set before. */
    struct abecs_taken r = abecs_start(&device, live, sizeof live, loading, sizeof loading);
    check(r.refusal == 0, "start");

    printf("-- a packet, byte by byte\n");
    for (size_t i = 0; i < sizeof opn; i++) {
        check(reply_length == 0, "no reply before the last byte");
        receive(opn + i, 1);
    }
    expect(opened, sizeof opened, "the response to OPN");

    printf("-- the host did not get it: the same packet, without 06h\n");
    receive(nak, sizeof nak);
    expect(opened + 1, sizeof opened - 1, "the response again");

    printf("-- the host gives up: nothing is held any more\n");
    receive(can, sizeof can);
    expect(eot, sizeof eot, "04h");
    receive(nak, sizeof nak);
    check(reply_length == 0, "nothing to send again");

    printf("-- the same packet in one piece, with 15h behind it: two calls, for there are two replies\n");
    uint8_t both[sizeof opn + sizeof nak];
    memcpy(both, opn, sizeof opn);
    memcpy(both + sizeof opn, nak, sizeof nak);
    receive(both, sizeof both);
    expect(opened + 1, sizeof opened - 1, "the response again");

    printf("-- a packet is broken off, and the line is silent: the clock is ours, so we tell the device\n");
    receive(opn, 3);
    check(device.state == 1 && device.count == 2, "in data, with two bytes of payload");
    r = abecs_timeout(&device, out, sizeof out, live, sizeof live, loading, sizeof loading);
    check(r.refusal == 0 && r.taken == 0 && r.written == 0 && device.state == 0, "idle, and nothing to say");
    receive(nak, sizeof nak);
    expect(opened + 1, sizeof opened - 1, "a timeout leaves the held response");

    printf("-- the board restarts: the tables stay, the held response is forgotten\n");
    r = abecs_restart(&device, out, sizeof out, live, sizeof live, loading, sizeof loading);
    check(r.refusal == 0 && r.taken == 0 && r.written == 0 && device.length == 0, "nothing held");

    /* The device is in memory that anybody may write to, so each call judges it. A refused call changes nothing: not the device either, so that one can
     * look at what is wrong with it. */
    static struct abecs_device before;
    printf("-- a device that cannot be, in state 9\n");
    device.state = 9;
    before = device;
    r = abecs_receive(&device, opn, sizeof opn, out, sizeof out, live, sizeof live, loading, sizeof loading);
    printf("refused as %d\n", r.refusal);
    check(r.refusal == 3 && r.taken == 0 && r.written == 0, "refused as 3");
    check(same(&before, &device), "the device is as it was");
    device.state = 0;

    printf("-- room for 63 bytes\n");
    before = device;
    r = abecs_receive(&device, opn, sizeof opn, out, sizeof out - 1, live, sizeof live, loading, sizeof loading);
    printf("refused as %d\n", r.refusal);
    check(r.refusal == 1 && r.taken == 0 && r.written == 0, "refused as 1");
    check(same(&before, &device), "the device is as it was");

    printf("-- and after that the device works as before\n");
    receive(opn, sizeof opn);
    expect(opened, sizeof opened, "the response to OPN");
    return 0;
}
