/* Raknaduv for hosts in C: link libhost.a, which `rt lib` makes in crates/host/out for x86-64.
 * Each function is total, has no state, and gives the same bits on every machine. */
#ifndef RAKNADUV_H
#define RAKNADUV_H

#include <stdbool.h>
#include <stddef.h>
#include <stdint.h>

#ifdef __cplusplus
extern "C" {
#endif

float rk_log2(float x);   /* logarithm to base 2 */
float rk_exp2(float x);   /* 2 to the x */
float rk_exp(float x);    /* e to the x */
double rk_exp64(double x); /* e to the x */
float rk_pow8(float x);   /* 8 to the x */
float rk_pow10(float x);  /* 10 to the x */
float rk_sqrt(float x);   /* square root, correctly rounded */

/* Runs an event script of `length` bytes. Lent: `out`, of `room` bytes, which must be 2,308 and must
 * not overlap the script. Answers 0 with the last accepted frame in `out`: 192 windows of centre,
 * radius and amplitude, then the activity, floats by their bits, the highest byte first; zeros if the
 * script has no frame. Else answers, in this order, 5 (another room), 12 (above 60,000 bytes) or the
 * number that a field went bad with (1, 8, 10, 11, 14, 15, 16), and `out` is as it was. docs/HOSTS.md
 * has a program. */
uint32_t rk_script(const uint8_t *script, size_t length, uint8_t *out, size_t room);

/* Writes the mask file of an event script of `length` bytes: for each accepted frame a record with its
 * sample and, for each of fft_size / 2 + 1 bins, the gain in units of 1/32,768 at a depth of `depth_db`
 * decibels (held to 0 to 60). Lent: `out`, of `room` bytes, and `*at`, how many of them are written; the
 * script, `out` and `*at` must not overlap. Answers 0 with the records behind those bytes and `*at` moved
 * on by them: 16 bytes a record and two a bin. Else answers, in this order, 3 (a size outside 1 to
 * 16,384), 12 (above 60,000 bytes), what ended the script (1, 8, 10, 11, 14, 15 or 16 at a bad field, 18
 * at a frame with an attenuation that is no number, whichever comes first) or 13 (the records do not fit,
 * or `*at` is above `room`), and all is as it was. */
uint32_t rk_masks(const uint8_t *script, size_t length, size_t fft_size, float depth_db,
                  uint8_t *out, size_t room, uint64_t *at);

/* Writes an event script, one call for each event. Lent: `out`, of `room` bytes, and `*at`, how many of
 * them are written, which must not overlap `out`. Answers 0 with the event behind those and `*at` moved on
 * by it, or 13 where fewer bytes are free than it takes, or `*at` is above `room`, and all is as it was.
 * Every NaN is written as 7FC00000, in a seek as 7FF8000000000000. No number is refused here: the reader
 * and the engine do that where the script is run. */
uint32_t rk_write_rate(float rate, uint8_t *out, size_t room, uint64_t *at); /* 7 bytes */
/* Shape: 0 is Sprinkle, all else Cloud. Direction: 0 is forward, 1 reverse, all else alternate. A hop or a
 * number of partials above 2^32 - 1 is written as 2^32 - 1, which the engine answers alike. */
uint32_t rk_write_configure(bool enabled, uint8_t shape, uint8_t direction, float rate_hz,
                            float size_octaves, float phase, bool scheduled, bool sync,
                            size_t hop_samples, size_t partials, float partial_rolloff_db,
                            float attack_ms, float release_ms,
                            uint8_t *out, size_t room, uint64_t *at); /* 40 bytes */
uint32_t rk_write_source(uint16_t slot, float frequency_hz, float strength, bool eligible,
                         uint8_t *out, size_t room, uint64_t *at); /* 14 bytes */
uint32_t rk_write_retire(uint16_t slot, uint8_t *out, size_t room, uint64_t *at); /* 5 bytes */
uint32_t rk_write_release(uint16_t slot, uint8_t *out, size_t room, uint64_t *at); /* 5 bytes */
uint32_t rk_write_trigger(uint16_t slot, uint8_t *out, size_t room, uint64_t *at); /* 5 bytes */
uint32_t rk_write_seek(double cycles, uint8_t *out, size_t room, uint64_t *at); /* 11 bytes */
uint32_t rk_write_advance(uint32_t samples, uint8_t *out, size_t room, uint64_t *at); /* 7 bytes */
uint32_t rk_write_frame(float bin_hz, float elapsed, /* in seconds */
                        uint8_t *out, size_t room, uint64_t *at); /* 11 bytes */
uint32_t rk_write_note_input(bool present, uint8_t *out, size_t room, uint64_t *at); /* 4 bytes */
uint32_t rk_write_reset(uint8_t *out, size_t room, uint64_t *at); /* 3 bytes */
uint32_t rk_write_reserve(uint8_t *out, size_t room, uint64_t *at); /* 3 bytes */
uint32_t rk_write_reserved_trigger(uint16_t slot, uint64_t index, /* one that a reserve set aside */
                                   uint8_t *out, size_t room, uint64_t *at); /* 13 bytes */

#ifdef __cplusplus
}
#endif

#endif
