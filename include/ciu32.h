/*
 * CIU32 SPI boot loader protocol, the host's side: writers of command frames, and the verdict on a frame.
 *
 * Link with libcodec.a (`tools/staticlib.sh` makes target/staticlib/libcodec.a). No function keeps state or allocates.
 * The caller owes what C owes: each pointer is not null and good for its length, and a buffer overlaps nothing else.
 *
 * RESULTS. Every function but ciu32_checksum returns one number of three kinds, which never meet:
 *
 *   below 0x10000            a count: so many bytes of the buffer's head are the frame (4 to 522)
 *   0x10000 + code           a code of the protocol (0x63 to 0x90): the one that the part would answer
 *   0x20000 + number         a local refusal (1 to 6): the call was turned down on this side
 *
 * A writer returns a count, or CIU32_LOCAL(1) where the buffer has fewer than 522 bytes, or else the code of the first
 * rule that the request breaks: 0x67 length, 0x69 alignment, 0x6B parameter, in this order. Where it refuses it leaves
 * the buffer as it was, and otherwise it leaves what lies beyond the frame as it was.
 */
#ifndef CIU32_H
#define CIU32_H

#include <stddef.h>
#include <stdint.h>

#ifdef __cplusplus
extern "C" {
#endif

#define CIU32_BUFFER 522u /* the least size of a writer's buffer, and the longest command frame */

#define CIU32_CODE(byte) ((size_t)0x10000 + (byte))
#define CIU32_LOCAL(number) ((size_t)0x20000 + (number))
#define CIU32_IS_COUNT(result) ((result) < 0x10000)
#define CIU32_IS_CODE(result) ((result) >= 0x10000 && (result) < 0x20000)
#define CIU32_IS_LOCAL(result) ((result) >= 0x20000)
#define CIU32_VALUE(result) ((result)&0xFFFF) /* the count, the code's byte, or the local number */

/* codes */
#define CIU32_DONE 0x90u            /* served */
#define CIU32_NOT_ALLOWED 0x63u     /* not at this protection level */
#define CIU32_FLASH_REFUSED 0x65u   /* the flash refused */
#define CIU32_WRONG_LENGTH 0x67u    /* length field too large, or not the command's */
#define CIU32_WRONG_CHECKSUM 0x68u  /* checksum does not belong to the data */
#define CIU32_NOT_ALIGNED 0x69u     /* address no multiple of 4 */
#define CIU32_OUT_OF_RANGE 0x6Au    /* beyond the memory */
#define CIU32_WRONG_PARAMETER 0x6Bu /* parameter unknown */
#define CIU32_UNKNOWN_COMMAND 0x6Du /* no such command */

/* local refusals that these functions make */
#define CIU32_SMALL_BUFFER 1u /* fewer than 522 bytes */
#define CIU32_WRONG_HEAD 2u   /* the first byte is not 0x85 */
#define CIU32_WRONG_TOTAL 3u  /* fewer or more bytes than one frame */

/* Get: information 0 (commands), 1 (unique id), 2 (level), 3 (version), 4 (type, package, flash and SRAM size). */
size_t ciu32_get(uint8_t information, uint8_t *buffer, size_t buffer_len);

/* Read `count` bytes from `address` on: 4 to 512, a multiple of 4. */
size_t ciu32_read(uint32_t address, uint16_t count, uint8_t *buffer, size_t buffer_len);

/* Write the bytes, in the order in which the flash keeps them, from `address` on: 4 to 512, a multiple of 4, in one page
 * of 512. */
size_t ciu32_write(uint32_t address, const uint8_t *bytes, size_t bytes_len, uint8_t *buffer, size_t buffer_len);

/* Compare the checksum of `count` bytes of user flash from `address` on with `value`. */
size_t ciu32_memory_crc(uint32_t address, uint32_t count, uint16_t value, uint8_t *buffer, size_t buffer_len);

/* Erase: mode 0xAA `count` pages from page `index` on, mode 0x55 blocks of eight pages, mode 0x3C all (index, count 0). */
size_t ciu32_erase(uint8_t mode, uint32_t index, uint32_t count, uint8_t *buffer, size_t buffer_len);

/* Lock the part (level 1), and open it again (level 0; erases every page first). */
size_t ciu32_protect(uint8_t *buffer, size_t buffer_len);
size_t ciu32_unprotect(uint8_t *buffer, size_t buffer_len);

/* The verdict on one command frame at a protection level (any number other than 0 counts as 1) and for a flash of
 * `pages` pages (counted as the greatest multiple of 8 in it, at most 1024): CIU32_CODE of the first rule that stops it,
 * CIU32_CODE(CIU32_DONE) where none does, or CIU32_LOCAL(2) or (3) where the bytes are no command frame. */
size_t ciu32_verdict(const uint8_t *frame, size_t frame_len, uint32_t level, uint32_t pages);

/* The checksum of the bytes: CRC-16/IBM-SDLC, itself and not one of the results above. */
uint16_t ciu32_checksum(const uint8_t *bytes, size_t bytes_len);

#ifdef __cplusplus
}
#endif

#endif
