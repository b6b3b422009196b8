/* The transport side of an InfiniBand queue pair, as a static library.
 *
 * Every function answers a number of the rules; those from 32 on are refusals, and a refusal changes nothing that was
 * lent, but for report, which is then all 0. No function keeps anything between calls, allocates, or calls out. Two
 * calls may run at once unless they are lent the same bytes or words.
 *
 * The state of a pair is 30 words and three tables, all lent by the caller. They are tested, so that no words can make
 * a call read or write outside what it is lent:
 * - not 30 words: 34, before all else, in every call that is lent the words;
 * - a word out of its range, or words that are no sound pair: 34, at its turn in the call's order of checks; what is
 *   tested before that turn is read modulo its range. Remove region looks at no word. Reset looks at
 *   ranges and at the numbers of the set-up, which it brings back, and mends everything else;
 * - a row of the regions whose range is not in memory, or ends at 2^64 or above, holds nothing, so that a packet which
 *   names its key is answered as for a key that no row has; rows are not tested otherwise;
 * - an entry's row whose range is not in memory: 34 by the packet that would take it.
 * What is in range and yet no call would have left so is not distinguished: a key that stands twice (the first row
 * counts), a right other than 0 and 1 (it counts as 1), a count of bytes stored that is not what came, a READ pending on
 * UC, the words of an open message where none is open.
 *
 * What a caller owes, since C cannot say it: a pointer is never null, even with length 0; it points to as many elements
 * as the length beside it says, or as its array type has; what is written overlaps nothing else that is lent. */
#ifndef UDALOPEK_H
#define UDALOPEK_H

#include <stdbool.h>
#include <stddef.h>
#include <stdint.h>

#ifdef __cplusplus
extern "C" {
#endif

#define UDALOPEK_PAIR_WORDS 30
/* Words of a pair that a host may want to look at. */
#define UDALOPEK_MEMORY 1    /* length of the memory that is lent */
#define UDALOPEK_PENDING 19  /* responses of a READ that are still to be taken */
#define UDALOPEK_EXPECTED 26 /* expected PSN */
#define UDALOPEK_MSN 27
#define UDALOPEK_STATE 28    /* 0 Init, 1 Ready, 2 Error */

#define UDALOPEK_RC 0
#define UDALOPEK_UC 1

/* A pair with its tables: regions by key, receive entries, answers of atomics. Set-up takes them as they come. */
struct udalopek_pair {
    uint64_t words[UDALOPEK_PAIR_WORDS];
    uint64_t regions[16][7];
    uint64_t entries[16][3];
    uint64_t saved[16][2];
};

/* Set-up, whatever the words and the table hold. 34: not 30 words; 39: PMTU, service, a number over 24 bits, a P_Key
 * whose low 15 bits are 0, a timer code over 31; 34: memory over 1,048,576 bytes. start is the first PSN to expect;
 * send to atomic are the functions enabled. */
uint8_t udalopek_set_up(uint64_t *pair, size_t pair_words, uint64_t regions[16][7], uint8_t service, size_t pmtu,
                        uint32_t ours, uint32_t theirs, uint16_t pkey, uint32_t start, uint8_t timer, bool send,
                        bool write, bool read, bool atomic, size_t memory);

/* Back to Init with the numbers of the set-up, empty tables and MSN 0, in any state. 34: a word out of its range, or
 * numbers that set-up refuses. */
uint8_t udalopek_reset(uint64_t *pair, size_t pair_words, uint64_t regions[16][7]);

/* The pair takes packets from now on. 36 unless Init. */
uint8_t udalopek_make_ready(uint64_t *pair, size_t pair_words);

/* Lets peers name length bytes of memory from offset on, by key and address. 36 in Error, 34 range, 38 key in use, 33
 * full. */
uint8_t udalopek_add_region(const uint64_t *pair, size_t pair_words, uint64_t regions[16][7], uint32_t key,
                            uint64_t address, uint64_t length, uint64_t offset, bool write, bool read, bool atomic);

/* Takes a key back. 37: no such key. */
uint8_t udalopek_remove_region(const uint64_t *pair, size_t pair_words, uint64_t regions[16][7], uint32_t key);

/* Gives memory for one message, under a number of the host's choice. 36 in Error, 34 range, 33 full. */
uint8_t udalopek_post_entry(uint64_t *pair, size_t pair_words, uint64_t entries[16][3], uint64_t number,
                            uint64_t offset, uint64_t length);

/* Takes a packet, from its BTH to the end of its pad. 35: out under 24 bytes; 34: memory not of the length set up; 32:
 * a READ is still being answered. report: bytes of out to send, then the completion: 1 if there is one, entry, bytes, 1
 * if there is an immediate, the immediate; all 0 where there is nothing to tell. regions and entries are only read;
 * they are not const, as C before C23 would ask for a cast. */
uint8_t udalopek_inbound(uint64_t *pair, size_t pair_words, uint64_t regions[16][7], uint64_t entries[16][3],
                         uint64_t saved[16][2], uint8_t *memory, size_t memory_length, const uint8_t *packet,
                         size_t packet_length, uint8_t *out, size_t out_length, uint64_t report[6]);

/* Writes the next response of a READ. 36: none pending; 35: out under 16 + PMTU; 34: memory. report: bytes of out to
 * send. */
uint8_t udalopek_next_response(uint64_t *pair, size_t pair_words, const uint8_t *memory, size_t memory_length,
                               uint8_t *out, size_t out_length, uint64_t report[1]);

/* Reads a header. 5: it does not read, and bth and extension are as they were. report: 0, or with 5 the check that
 * failed first: 1 length, 2 TVer, 5 service, 8 too short. bth: opcode, SE, MigReq, PadCnt, TVer, P_Key, reserved 8,
 * DestQP, AckReq, reserved 7, PSN. extension: which headers follow (0 none, 1 RETH, 2 RETH and Immediate, 3 Immediate, 4
 * AtomicETH, 5 AETH, 6 AETH and AtomicAckETH), address, R_Key, DMA length, swap-or-add, compare, syndrome, MSN, value,
 * immediate; 0 for what is not there. */
uint8_t udalopek_read_header(const uint8_t *packet, size_t packet_length, uint64_t bth[11], uint64_t extension[10],
                             uint64_t report[1]);

/* Writes a header from such words. 39: no such header; 35: out too short. report: bytes written. */
uint8_t udalopek_write_header(const uint64_t bth[11], const uint64_t extension[10], uint8_t *out, size_t out_length,
                              uint64_t report[1]);

/* What a message asks for. */
#define UDALOPEK_SEND 0
#define UDALOPEK_SEND_IMMEDIATE 1
#define UDALOPEK_WRITE 2
#define UDALOPEK_WRITE_IMMEDIATE 3
#define UDALOPEK_READ 4
#define UDALOPEK_CMP_SWAP 5
#define UDALOPEK_FETCH_ADD 6

/* Writes packet index of a message whose first packet has the PSN psn. 39: PMTU, service, kind, a number over 24 bits,
 * READ or atomic on UC; 34: a message over 1,048,576 bytes, no such packet in it; 35: out too short. Numbers that the
 * kind has no use for are not looked at; length is a READ's, swap is also what FetchAdd adds. report: bytes written,
 * and the PSN of the message after this one. */
uint8_t udalopek_cut(uint8_t service, size_t pmtu, uint16_t pkey, uint32_t dest, uint32_t psn, size_t index,
                     uint8_t kind, uint64_t address, uint32_t key, uint32_t length, uint64_t swap, uint64_t compare,
                     uint32_t immediate, const uint8_t *message, size_t message_length, uint8_t *out,
                     size_t out_length, uint64_t report[2]);

#ifdef __cplusplus
}
#endif
#endif
