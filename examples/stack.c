/* How much stack the device's calls take on this machine. Each call runs on a stack of its own that was painted before; what is not paint any more was used.
 *
 *     (cd crates/abecs && rt lib)
 *     mkdir -p target
 *     gcc -std=gnu11 -Wall -Wextra -Werror -Iinclude examples/stack.c crates/abecs/out/libabecs.a -o target/stack-example && target/stack-example
 */
#include <stdio.h>
#include <string.h>
#include <ucontext.h>

#include "abecs.h"

#define PAINT 0xA5

static struct abecs_device device;
static uint8_t live[ABECS_STORE];
static uint8_t loading[ABECS_STORE];
static uint8_t out[ABECS_ROOM];

static uint8_t stack[1 << 18];
static ucontext_t outside, inside;

/* the piece of the next call of abecs_receive */
static uint8_t piece[4100];
static size_t length;

static void start(void) { abecs_start(&device, live, sizeof live, loading, sizeof loading); }

static void receive(void) { abecs_receive(&device, piece, length, out, sizeof out, live, sizeof live, loading, sizeof loading); }

static void timeout(void) { abecs_timeout(&device, out, sizeof out, live, sizeof live, loading, sizeof loading); }

static void restart(void) { abecs_restart(&device, out, sizeof out, live, sizeof live, loading, sizeof loading); }

static void report(const char *what, void (*call)(void))
{
    size_t left = 0;
    memset(stack, PAINT, sizeof stack);
    getcontext(&inside);
    inside.uc_stack.ss_sp = stack;
    inside.uc_stack.ss_size = sizeof stack;
    inside.uc_link = &outside;
    makecontext(&inside, call, 0);
    swapcontext(&outside, &inside);
    while (left < sizeof stack && stack[left] == PAINT)
        left++;
    printf("%6zu  %s\n", sizeof stack - left, what);
}

static void report_command(const char *payload)
{
    length = abecs_write_packet((const uint8_t *)payload, strlen(payload), piece, sizeof piece).length;
    report(payload, receive);
}

int main(void)
{
    report("start", start);
    report_command("OPN");
    report_command("GTS00201");
    report_command("TLI01201VERSION001");
    report_command("TLR01001008101AB");
    report_command("TLE");
    report("timeout", timeout);
    report("restart", restart);
    return 0;
}
