/* SCI3 of the H8/38602R for C: the proved functions of libcapi.a. What they promise, what they ask of their caller, and
 * how to build and link: docs/C.md. Each promise is an equation with a definition in crates/capi/specs/Exports.antt. */
#ifndef SCI3_H
#define SCI3_H

#include <stddef.h>
#include <stdint.h>

#ifdef __cplusplus
extern "C" {
#endif

/* How many numbers a state has; how many bytes a record of the log has. */
#define SCI3_STATE 56
#define SCI3_RECORD 6

/* An answer of 256 or more is a refusal: 256 plus its number. (sci3_play answers the number itself.) */
#define SCI3_REFUSED 256

/* The causes: no word was completed; RDR took one, without error or with these. A lost word has SCI3_OVERRUN more. */
enum sci3_cause {
    SCI3_NO_WORD = 0,
    SCI3_TAKEN = 1,
    SCI3_PARITY = 2,
    SCI3_FRAMING = 3,
    SCI3_BOTH = 4,
    SCI3_OVERRUN = 4
};

/* The places of a state. A flag is 0 or 1; a place that is not in use is 0. docs/C.md has their ranges. */
enum sci3_place {
    SCI3_SPCR = 0,
    SCI3_SMR = 1,
    SCI3_BRR = 2,
    SCI3_SCR = 3,
    SCI3_TDR = 4,
    SCI3_SSR = 5,
    SCI3_RDR = 6,
    SCI3_SEMR = 7,
    SCI3_IRCR = 8,
    SCI3_SEEN = 9,
    SCI3_MODULE = 10,
    SCI3_MAIN = 11,
    SCI3_SUB = 12,
    SCI3_RESET_MODE = 13,
    SCI3_HALF = 14,
    SCI3_HIGH = 15,
    SCI3_EDGE = 16,
    SCI3_HOLDING = 17,     /* 2 places */
    SCI3_TX = 19,          /* 12 places */
    SCI3_RX = 31,          /* 13 places */
    SCI3_UART = 44,
    SCI3_BIT_START = 45,
    SCI3_INPUT = 46,
    SCI3_INPUT_CLOCK = 47,
    SCI3_SCK = 48,
    SCI3_SYNC_NEXT = 49,   /* 2 places */
    SCI3_TRANSMITTED = 51,
    SCI3_RECEIVED = 52,
    SCI3_REMAINING = 53,
    SCI3_SYSTEM = 54,
    SCI3_WATCH = 55
};

/* Puts the state at the start of every run into the array, whatever it held: 0, or refusal 8 if it has not SCI3_STATE
 * numbers. */
uint64_t sci3_fresh(uint64_t *state, size_t length);

/* Makes the direct call of a kind, 1 to 9, with its operands (an operand that the kind does not have is not looked at):
 * the value read, else 0, and the array holds the state after the call; or a refusal, and the array is as it was. *cause
 * is the cause of the last word that was completed in the call, 1 to 8, else 0: SCI3_OVERRUN is added where the word was
 * lost. */
uint64_t sci3_call(uint64_t *state, size_t length, uint32_t kind, uint32_t a, uint32_t b, uint64_t *cause);

/* The pins: bits 0 and 1 the clock pin (0 not the port's, 1 floating, 2 low, 3 high), bits 2 and 3 the transmit level
 * (0, 1, or 2 when not driven), bit 4 whether reception is enabled; or refusal 8. */
uint64_t sci3_pins(const uint64_t *state, size_t length);

/* Whether the port requests an interrupt, 0 or 1; or refusal 8. */
uint64_t sci3_interrupt(const uint64_t *state, size_t length);

/* Plays a script and writes a record to the log for each command that was played: 0 where the whole script was
 * accepted, else the number of the refusal. told[0] is the offset of the refused command's first byte, else 0; told[1]
 * how many bytes of the log are written, and no other byte of the log is touched; told[2] the run's length: the edges
 * of the clock that its commands counted, across resets, in 64 bits that wrap to 0. The array holds the last state,
 * after a refusal the one before the refused command; by 8 it is as it was. */
uint64_t sci3_play(uint64_t *state, size_t state_length, const uint8_t *script, size_t script_length, uint8_t *log,
                   size_t log_length, uint64_t told[3]);

/* The setting whose bit rate is nearest to a wanted one: of a system clock in Hz, a rate in bits a second, and a tolerance
 * in parts per ten thousand. 0, and told[0] are bits 0 and 1 of SMR, told[1] is SEMR, told[2] BRR, and the error is
 * (int64_t)told[3] over told[4], not reduced; or the number of the refusal, 11 or 12, and told are zeros. */
uint64_t sci3_rate(uint64_t clock, uint64_t rate, uint64_t tolerance, uint64_t told[5]);

#ifdef __cplusplus
}
#endif
#endif
