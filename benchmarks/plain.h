/* What the core does, in plain C: the same signatures, tests and answers. */
#ifndef PLAIN_H
#define PLAIN_H

#include <stddef.h>
#include <stdint.h>

uint16_t plain_build(uint8_t id);
uint16_t plain_read(uint8_t protected_id);
uint16_t plain_checksum(uint8_t id, uint8_t model, const uint8_t *data, size_t length);
uint32_t plain_check(const uint16_t *words, size_t length);
uint32_t plain_judge(const uint16_t *words, size_t length, uint32_t tick, uint32_t bit);

#endif
