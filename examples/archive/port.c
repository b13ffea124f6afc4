/* The proved port from C: a word put on the receive line by direct calls, a call that is refused, a script, and a bit rate.
 * docs/C.md says how to build it; what it prints is in port.out. */
#include "sci3.h"

#include <stdio.h>

enum { READ = 1, WRITE = 2, WAIT = 3, LINE = 4, POWER = 6 };
enum { SCR = 0xff9a, RDR = 0xff9d };

static uint64_t call(uint64_t *state, uint32_t kind, uint32_t a, uint32_t b) {
    uint64_t cause;
    uint64_t answer = sci3_call(state, SCI3_STATE, kind, a, b, &cause);
    if (cause != SCI3_NO_WORD) {
        printf("a word was completed, cause %u\n", (unsigned)cause);
    }
    if (answer >= SCI3_REFUSED) {
        printf("kind %u refused by %u\n", (unsigned)kind, (unsigned)(answer - SCI3_REFUSED));
    }
    return answer;
}

static void show(const uint64_t *state) {
    uint64_t pins = sci3_pins(state, SCI3_STATE);
    printf("half %u, SSR %02X, interrupt %u, transmit level %u, receiver %s\n", (unsigned)state[SCI3_HALF],
           (unsigned)state[SCI3_SSR], (unsigned)sci3_interrupt(state, SCI3_STATE), (unsigned)(pins >> 2 & 3),
           pins >> 4 ? "on" : "off");
}

/* Start bit, eight data bits from the low end, stop bit, each 32 halves long. */
static void put_word(uint64_t *state, unsigned value) {
    unsigned cells = value << 1 | 1u << 9;
    for (int i = 0; i < 10; i++) {
        call(state, LINE, cells >> i & 1, 0);
        call(state, WAIT, 32, 0);
    }
}

int main(void) {
    /* SSR is read, 9 halves pass, the module goes off, and 0A is no kind. */
    static const uint8_t script[] = {0x01, 0x9c, 0xff, 0x03, 0x03, 0x09, 0x06, 0x00, 0x0a};
    uint64_t state[SCI3_STATE] = {0}, told[3] = {0};
    uint8_t log[SCI3_RECORD * 8] = {0};

    if (sci3_fresh(state, SCI3_STATE) != 0) return 1;
    call(state, POWER, 3, 0);
    call(state, WRITE, SCR, 0x50);
    put_word(state, 0x4b);
    show(state);
    printf("RDR %02X\n", (unsigned)call(state, READ, RDR, 0));
    show(state);

    call(state, READ, 0x1234, 0);

    uint64_t number = sci3_play(state, SCI3_STATE, script, sizeof script, log, sizeof log, told);
    for (uint64_t i = 0; i < told[1]; i++) {
        printf("%02X%c", log[i], i % SCI3_RECORD == SCI3_RECORD - 1 ? '\n' : ' ');
    }
    printf("script: number %u at %u, length %llu, half %u\n", (unsigned)number, (unsigned)told[0],
           (unsigned long long)told[2], (unsigned)state[SCI3_HALF]);

    uint64_t setting[5];
    number = sci3_rate(10000000, 9600, 100, setting);
    printf("rate: number %u, SMR %02X, SEMR %02X, BRR %02X, error %lld/%llu\n", (unsigned)number, (unsigned)setting[0],
           (unsigned)setting[1], (unsigned)setting[2], (long long)(int64_t)setting[3], (unsigned long long)setting[4]);
    return 0;
}
