/* Receives on a reliable connection: a SEND of three bytes, a duplicate of it, and a SEND of 300 bytes that is
 * cut into two packets. Ends with status 1 at the first thing that is not as it should be. */
#include "udalopek.h"

#include <stdio.h>
#include <stdlib.h>
#include <string.h>

static struct udalopek_pair pair;
static uint8_t memory[4096];

static void check(bool good, const char *what)
{
    if (!good) {
        fprintf(stderr, "receive: %s\n", what);
        exit(1);
    }
}

static void print_bytes(const char *name, const uint8_t *bytes, size_t length)
{
    printf("  %s", name);
    for (size_t i = 0; i < length; i++) {
        printf(" %02x", bytes[i]);
    }
    putchar('\n');
}

/* Hands a packet to the pair and prints what came of it; out has room for 24 bytes. */
static uint8_t receive(const uint8_t *packet, size_t length, uint8_t *out, uint64_t report[6])
{
    uint8_t number = udalopek_inbound(pair.words, UDALOPEK_PAIR_WORDS, pair.regions, pair.entries, pair.saved, memory,
                                      sizeof memory, packet, length, out, 24, report);
    printf("packet of %zu bytes: %u, expected PSN %u, MSN %u\n", length, (unsigned)number,
           (unsigned)pair.words[UDALOPEK_EXPECTED], (unsigned)pair.words[UDALOPEK_MSN]);
    if (report[0] != 0) {
        print_bytes("sent", out, report[0]);
    }
    if (report[1] != 0) {
        printf("  entry %u completed with %u bytes\n", (unsigned)report[2], (unsigned)report[3]);
    }
    return number;
}

int main(void)
{
    /* A SEND of "abc" with PSN 7, AckReq set and one byte of pad, and the ACK for it. */
    static const uint8_t send[16] = {0x04, 0x10, 0xff, 0xff, 0, 0, 0, 0x12, 0x80, 0, 0, 7, 'a', 'b', 'c', 0};
    static const uint8_t ack[16] = {0x11, 0, 0xff, 0xff, 0, 0, 0, 0x34, 0, 0, 0, 7, 0x1f, 0, 0, 1};
    static uint8_t before[sizeof memory];
    uint8_t out[24];
    uint64_t report[6];

    check(udalopek_set_up(pair.words, UDALOPEK_PAIR_WORDS, pair.regions, UDALOPEK_RC, 256, 0x12, 0x34, 0xffff, 7, 0, true,
                          true, true, true, sizeof memory) == 0, "set-up");
    check(udalopek_post_entry(pair.words, UDALOPEK_PAIR_WORDS, pair.entries, 5, 2048, 128) == 0, "first entry");
    check(udalopek_post_entry(pair.words, UDALOPEK_PAIR_WORDS, pair.entries, 6, 1024, 512) == 0, "second entry");
    check(udalopek_make_ready(pair.words, UDALOPEK_PAIR_WORDS) == 0, "make ready");

    check(receive(send, sizeof send, out, report) == 1, "the SEND is not acknowledged");
    check(report[0] == sizeof ack && memcmp(out, ack, sizeof ack) == 0, "another ACK");
    check(report[1] == 1 && report[2] == 5 && report[3] == 3 && report[4] == 0, "another completion");
    check(memcmp(memory + 2048, "abc", 4) == 0, "the bytes are not in the entry");

    memcpy(before, memory, sizeof memory);
    check(receive(send, sizeof send, out, report) == 4, "the duplicate is not answered as one");
    check(report[0] == sizeof ack && memcmp(out, ack, sizeof ack) == 0, "another ACK for the duplicate");
    check(report[1] == 0, "the duplicate completes");
    check(memcmp(memory, before, sizeof memory) == 0, "the duplicate changed memory");

    uint8_t message[300];
    for (size_t i = 0; i < sizeof message; i++) {
        message[i] = (uint8_t)(31 * i + 7);
    }
    for (size_t index = 0; index < 2; index++) {
        uint8_t packet[16 + 256];
        uint64_t cut[2];
        check(udalopek_cut(UDALOPEK_RC, 256, 0xffff, 0x12, 8, index, UDALOPEK_SEND, 0, 0, 0, 0, 0, 0, message,
                           sizeof message, packet, sizeof packet, cut) == 0, "cut");
        check(cut[1] == 10, "the next message has another PSN");
        check(receive(packet, cut[0], out, report) == (index == 0 ? 0 : 1), "a part of the message is not executed");
    }
    check(report[1] == 1 && report[2] == 6 && report[3] == sizeof message, "the message does not complete");
    memcpy(before + 1024, message, sizeof message);
    check(memcmp(memory, before, sizeof memory) == 0, "the message is not in its entry, or something else changed");
    check(pair.words[UDALOPEK_EXPECTED] == 10 && pair.words[UDALOPEK_MSN] == 2, "other counts");
    return 0;
}
