/* Addresses and check words of RL01 and RL02 packs, for C. */
#ifndef MEDIA_H
#define MEDIA_H

#include <stdint.h>

/* A result is below this number; a refusal is this number plus the number of the refusal. */
#define MEDIA_REFUSAL_BASE 65536u

/* There is no such sector: an unknown kind, or a number that the pack does not have. */
#define MEDIA_NO_SECTOR 14u

/* The block number of a sector. The kind is 1 for an RL01 and 2 for an RL02. Cylinders (256 or 512), heads (2) and
   sectors (40 to a track) are numbered from 0. Refused where the pack has no such sector. */
uint32_t media_block_number(uint32_t kind, uint32_t cylinder, uint32_t head, uint32_t sector);

/* The header word of a sector: the cylinder times 128, plus the head times 64, plus the sector. It takes the same numbers,
   and is refused where the block number is. */
uint32_t media_header_word(uint32_t kind, uint32_t cylinder, uint32_t head, uint32_t sector);

/* The check word of a header word: a CRC over its 16 bits and those of a zero word, bit 0 first. Refused where the header
   word is above 65,535. */
uint32_t media_check_word(uint32_t header);

#endif
