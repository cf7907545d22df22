#include "transport.h"

#include <errno.h>
#include <string.h>

#include "say.h"

/* What each packet begins with. */
enum { SYNC = 0x47 };

bool dummy_word(uint8_t id, uint8_t *word)
{
    return accepted(opl_payload_write(DUMMY, id, 0, OPL_EMPTY, 0, OPL_EMPTY, 0, word, OPL_PAYLOAD_WORD_BYTES),
                    "opl_payload_write", "a dummy");
}

bool transparent_word(uint8_t id, const uint8_t payload[OPL_PAYLOAD_BYTES], uint8_t *word)
{
    return accepted(opl_payload_write(TRANSPARENT, id, 0, payload, OPL_PAYLOAD_BYTES, OPL_EMPTY, 0, word,
                                      OPL_PAYLOAD_WORD_BYTES),
                    "opl_payload_write", "a payload");
}

/* Says what is wrong with n bytes that were read as the next packet. True if nothing is. */
static bool is_packet(const struct transport *transport, const uint8_t *bytes, size_t n)
{
    size_t number = transport->taken, at = OPL_TS_PACKET_BYTES * number;
    if (n != OPL_TS_PACKET_BYTES)
        return fail("%s: packet %zu, at byte %zu, is cut off: the file ends after %zu of its %d bytes",
                    transport->path, number, at, n, OPL_TS_PACKET_BYTES);
    if (bytes[0] != SYNC)
        return fail("%s: packet %zu, at byte %zu, begins with %02X and not with the sync byte %02X",
                    transport->path, number, at, bytes[0], SYNC);
    return true;
}

/* Reads the next packet; n becomes its length, or 0 where the file ends. */
static bool next_packet(struct transport *transport, uint8_t *packet, size_t *n)
{
    *n = fread(packet, 1, OPL_TS_PACKET_BYTES, transport->file);
    if (ferror(transport->file))
        return fail("%s: %s", transport->path, strerror(errno));
    if (*n == 0)
        return true;
    if (!is_packet(transport, packet, *n))
        return false;
    transport->taken++;
    transport->nulls += is_null_packet(packet);
    return true;
}

/* Reads all packets, counts them and goes back to the first. */
static bool look_through(struct transport *transport)
{
    uint8_t packet[OPL_TS_PACKET_BYTES];
    size_t n;
    do {
        if (!next_packet(transport, packet, &n))
            return false;
    } while (n != 0);
    transport->packets = transport->taken;
    transport->taken = transport->nulls = 0;
    if (transport->packets == 0)
        return fail("%s: it has no packet", transport->path);
    return fseek(transport->file, 0, SEEK_SET) == 0 || fail("%s: %s", transport->path, strerror(errno));
}

bool transport_open(struct transport *transport, const char *path)
{
    *transport = (struct transport){.path = path, .file = fopen(path, "rb")};
    if (transport->file == NULL)
        return fail("%s: %s", path, strerror(errno));
    if (look_through(transport))
        return true;
    transport_close(transport);
    return false;
}

void transport_close(struct transport *transport)
{
    fclose(transport->file);
}

bool transport_take(struct transport *transport, uint8_t *packet)
{
    size_t n;
    if (!next_packet(transport, packet, &n))
        return false;
    return n != 0 || fail("%s: it has become shorter", transport->path);
}

bool is_null_packet(const uint8_t *packet)
{
    return (packet[1] & 0x1F) == 0x1F && packet[2] == 0xFF;
}

/* A null packet: payload and no adaptation field, and all of that ones. */
static void make_null_packet(uint8_t packet[OPL_TS_PACKET_BYTES])
{
    static const uint8_t header[] = {SYNC, 0x1F, 0xFF, 0x10};
    memset(packet, 0xFF, OPL_TS_PACKET_BYTES);
    memcpy(packet, header, sizeof header);
}

/* Takes the packets of the next word, eight or as many as are left. */
static bool take_packets(struct transport *source, uint8_t packets[OPL_TS_PAYLOAD_BYTES], uint32_t *count)
{
    size_t left = source->packets - source->taken;
    *count = left < OPL_TS_PACKETS ? (uint32_t)left : OPL_TS_PACKETS;
    for (size_t i = 0; i < *count; i++)
        if (!transport_take(source, packets + OPL_TS_PACKET_BYTES * i))
            return false;
    return true;
}

bool stream_word(struct sent_stream *stream, uint8_t *word)
{
    uint8_t packets[OPL_TS_PAYLOAD_BYTES], null_packet[OPL_TS_PACKET_BYTES];
    uint32_t count;
    if (!take_packets(&stream->source, packets, &count))
        return false;
    if (count == 0) {
        stream->dummies++;
        return dummy_word(stream->id, word);
    }
    make_null_packet(null_packet);
    stream->words++;
    stream->filling += OPL_TS_PACKETS - count;
    return accepted(opl_payload_write(TRANSPORT, stream->id, count, packets, OPL_TS_PACKET_BYTES * count,
                                      null_packet, sizeof null_packet, word, OPL_PAYLOAD_WORD_BYTES),
                    "opl_payload_write", "packets");
}

void say_stream(const struct sent_stream *stream)
{
    const struct transport *source = &stream->source;
    const char *part = source->taken == source->packets ? "all" : "the first";
    if (stream->words == 0) {
        printf("  stream %d: no slot in these frames, so no packet of %s is sent\n", stream->id, source->path);
        return;
    }
    printf("  stream %d: %zu word%s of type 2 with %s %zu packet%s of %s", stream->id, stream->words,
           plural(stream->words), part, source->taken, plural(source->taken), source->path);
    if (source->nulls != 0)
        printf(", %zu of them null", source->nulls);
    printf("\n");
    if (stream->filling != 0)
        printf("    the last word filled up with %zu null packet%s\n", stream->filling, plural(stream->filling));
    if (stream->dummies != 0)
        printf("    then %zu dummy word%s of type 0, as no packet is left\n", stream->dummies,
               plural(stream->dummies));
}
