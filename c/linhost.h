/* The entry points of the LIN core for a host in C; link target/staticlib/libhost.a (`tests/build host`).
 *
 * Each accepts every number and every slice, and answers one number. Of the calls of the wire the low byte is the value, the
 * next byte the refusal number of documents 01 and 02, 0 for none; of the table check and the judge the low sixteen bits are
 * the position, the next byte the refusal number. The core proves that of each (crates/host, specs/Coded.antt); this header is
 * not proved, so the tests compare it with a second program.
 */
#ifndef LINHOST_H
#define LINHOST_H

#include <stddef.h>
#include <stdint.h>

#ifdef __cplusplus
extern "C" {
#endif

/* Which checksum is wished for; identifiers 60 to 63 use classic whatever is wished. */
enum { LIN_CLASSIC = 0, LIN_ENHANCED = 1 };

/* Builds the protected identifier of an identifier; 11 for an identifier above 63. */
uint16_t lin_build(uint8_t id);

/* Reads the identifier out of a protected identifier; 11 for wrong parity. */
uint16_t lin_read(uint8_t protected_id);

/* The checksum of data bytes under an identifier; 11 for an identifier above 63, no data or more than 8 bytes.
 * data points to something even where length is 0. */
uint16_t lin_checksum(uint8_t id, uint8_t model, const uint8_t *data, size_t length);

/* Checks a cluster table: 0 where it is accepted, or refusal 1 and the position of the first word that is wrong, missing or
 * surplus. words points to something even where length is 0. */
uint32_t lin_check(const uint16_t *words, size_t length);

/* In the judge's answer: an entry is short, and the low sixteen bits are its number. */
#define LIN_SHORT UINT32_C(0x1000000)

/* Judges the schedules of a table, before any master runs, under a tick in microseconds and a bit time in tenths of a
 * microsecond: 0 where every slot holds its longest frame; LIN_SHORT with the number in the table, from 0, of the first entry
 * whose slot does not; 1 with the position, as the table check; or 13 for a tick or a bit time of 0 or above 65,535. words
 * points to something even where length is 0. */
uint32_t lin_judge(const uint16_t *words, size_t length, uint32_t tick, uint32_t bit);

/* The value of an answer. */
static inline uint8_t lin_value(uint16_t answer) { return (uint8_t)(answer & 0xFF); }

/* The refusal number of an answer, 0 for none. */
static inline uint8_t lin_refusal(uint16_t answer) { return (uint8_t)(answer >> 8); }

/* The position that the table check or the judge answers. */
static inline uint16_t lin_position(uint32_t answer) { return (uint16_t)(answer & 0xFFFF); }

/* The refusal number that the table check or the judge answers, 0 for none. */
static inline uint8_t lin_table_refusal(uint32_t answer) { return (uint8_t)(answer >> 16); }

/* Whether the judge answers that an entry is short, and the number of that entry. */
static inline int lin_is_short(uint32_t answer) { return (answer & LIN_SHORT) != 0; }
static inline uint16_t lin_entry(uint32_t answer) { return (uint16_t)(answer & 0xFFFF); }

#ifdef __cplusplus
}
#endif

#endif
