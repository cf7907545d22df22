/*
 * The head-end's reading of IP packets over a library with a fault, which FAULT in the environment names: a
 * demonstration that cannot fail shows nothing. This file stands in place of examples/ip_received.c, and ip_streams.rs
 * runs the program.
 */
#include <stdbool.h>
#include <stdio.h>
#include <stdlib.h>
#include <string.h>

#include "opl.h"

/* What FAULT may name, and whether it names that. */
static bool is_fault(const char *name)
{
    static const char *const faults[] = {
        "none",         "byte_changed",   "error_forgotten", "nothing_handed_out", "handed_out_twice",
        "parity_wrong", "loss_unheeded",  "crc_unheeded",    "open_touched",       "packets_touched",
        "header_touched",
    };
    const char *fault = getenv("FAULT");
    for (size_t i = 0; fault != NULL && i < sizeof faults / sizeof faults[0]; i++)
        if (strcmp(faults[i], fault) == 0)
            return strcmp(name, fault) == 0;
    fprintf(stderr, "broken: FAULT names no fault\n");
    exit(2);
}

/* Spoils what an accepted word has handed out: n bytes of packets. */
static void spoil(uint8_t *packets, size_t n, uint8_t *header)
{
    if (is_fault("byte_changed") && n != 0)
        packets[n - 1] ^= 0x01;
    for (size_t at = 0; is_fault("error_forgotten") && at < n;) {
        packets[at + 1] = 0;
        at += 4 + ((size_t)packets[at + 2] << 8 | packets[at + 3]);
    }
    if (is_fault("nothing_handed_out"))
        header[10] = header[11] = 0;
    if (is_fault("handed_out_twice") && 2 * n <= OPL_IP_ROOM) {
        memcpy(packets + n, packets, n);
        header[10] = (uint8_t)(2 * n >> 8);
        header[11] = (uint8_t)(2 * n);
    }
    if (is_fault("parity_wrong"))
        header[7] ^= 0x04;
}

/* Touches what a refused word must leave. */
static void touch(uint8_t *open, uint8_t *packets, uint8_t *header)
{
    open[OPL_IP_OPEN_BYTES - 1] ^= is_fault("open_touched");
    packets[OPL_IP_ROOM - 1] ^= is_fault("packets_touched");
    header[OPL_PAYLOAD_HEADER_BYTES - 1] ^= is_fault("header_touched");
}

static uint8_t broken_read(const uint8_t *word, size_t n, uint8_t *open, size_t k, uint8_t *packets, size_t room,
                           uint8_t *header, size_t m)
{
    uint8_t refusal = opl_ip_read(word, n, open, k, packets, room, header, m);
    if (refusal == OPL_ACCEPTED)
        spoil(packets, (size_t)header[10] << 8 | header[11], header);
    else
        touch(open, packets, header);
    return refusal == OPL_CRC && is_fault("crc_unheeded") ? OPL_ACCEPTED : refusal;
}

static uint8_t broken_lost(uint8_t *open, size_t k)
{
    return is_fault("loss_unheeded") ? OPL_ACCEPTED : opl_ip_lost(open, k);
}

#define opl_ip_read broken_read
#define opl_ip_lost broken_lost
#include "../../../examples/ip_received.c"
