#include "received.h"

#include <string.h>

#include "opl.h"
#include "say.h"

/* What comes back of a stream. */
struct received {
    const struct sent_stream *sent;
    size_t come;                           /* payload words of it that come back, of any type */
    struct transport due;                  /* the packets that were sent, read along */
    size_t words, dummies;                 /* payload words of type 2, and of type 0 */
    size_t unread;                         /* payload words of which bits are missing */
    size_t nulls;                          /* null packets, which are dropped */
    uint8_t first[OPL_PAYLOAD_WORD_BYTES]; /* the first word of type 2 */
};

/* The packets that a receiver keeps of those that were taken. */
static size_t kept(const struct transport *transport)
{
    return transport->taken - transport->nulls;
}

/* Takes the next packet that was sent and is no null packet. */
static bool take_due(struct received *received, uint8_t *packet)
{
    do {
        if (received->due.taken == received->sent->source.taken)
            return fail("stream %d gives more packets back than were sent", received->sent->id);
        if (!transport_take(&received->due, packet))
            return false;
    } while (is_null_packet(packet));
    return true;
}

/* Takes a packet that was received: drops null packets, and holds any other to what was sent. */
static bool take_packet(struct received *received, const uint8_t *packet)
{
    uint8_t due[OPL_TS_PACKET_BYTES];
    if (is_null_packet(packet)) {
        received->nulls++;
        return true;
    }
    if (!take_due(received, due))
        return false;
    return memcmp(packet, due, sizeof due) == 0 ||
           fail("stream %d gives packet %zu of %s back as another", received->sent->id, received->due.taken - 1,
                received->due.path);
}

/* Takes the packets of a word of type 2, whose parity is that. */
static bool take_packets(struct received *received, const uint8_t *word, uint8_t parity)
{
    if (parity != OPL_PARITY_HOLDS)
        return fail("stream %d: not all four parts of word %zu hold", received->sent->id, received->words);
    if (received->words == 0)
        memcpy(received->first, word, sizeof received->first);
    received->words++;
    for (size_t i = 0; i < OPL_TS_PACKETS; i++)
        if (!take_packet(received, word + OPL_TS_PACKET_BYTES * i))
            return false;
    return true;
}

/* Takes a payload word of the stream, by its header. */
static bool take_word(void *taker, const uint8_t *word)
{
    struct received *received = taker;
    uint8_t header[OPL_PAYLOAD_HEADER_BYTES];
    if (!accepted(opl_payload_read(word, OPL_PAYLOAD_WORD_BYTES, header, sizeof header), "opl_payload_read",
                  "a payload word of the stream"))
        return false;
    uint8_t id = header[4], type = header[5], parity = header[7];
    if (id != received->sent->id || type == TRANSPARENT)
        return fail("a slot of stream %d has a word of stream %d, type %d", received->sent->id, id, type);
    if (type == TRANSPORT)
        return take_packets(received, word, parity);
    received->dummies++;
    return true;
}

/* How many of the words that come back have to have packets: those come first, and dummies behind them. */
static size_t words_due(const struct received *received)
{
    return received->come < received->sent->words ? received->come : received->sent->words;
}

/* Takes the packets that the words carry behind the last that was kept: they can only be null packets. */
static bool take_rest(struct received *received, size_t packets)
{
    uint8_t packet[OPL_TS_PACKET_BYTES];
    while (received->due.taken < packets)
        if (!transport_take(&received->due, packet) || !is_null_packet(packet))
            return false;
    return received->due.taken == packets;
}

/* Whether all that has to come back has: the words, their packets, and the null packets that fill up the last word. */
static bool is_all(struct received *received)
{
    size_t words = words_due(received), room = OPL_TS_PACKETS * words, there = received->due.packets;
    size_t packets = room < there ? room : there;
    return (received->words == words && received->dummies == received->come - words &&
            take_rest(received, packets) && received->nulls == received->due.nulls + room - packets) ||
           fail("stream %d does not give as many words and packets back as were sent", received->sent->id);
}

/* Shows what is said of a damaged part: it does not hold, and the others do. */
static bool damage_part(uint8_t *word)
{
    enum { PACKET = 3, PART = PACKET / 2 };
    uint8_t header[OPL_PAYLOAD_HEADER_BYTES];
    word[OPL_TS_PACKET_BYTES * PACKET + 100] ^= 0x10;
    if (!accepted(opl_payload_read(word, OPL_PAYLOAD_WORD_BYTES, header, sizeof header), "opl_payload_read",
                  "a word with a damaged packet"))
        return false;
    if (header[7] != (OPL_PARITY_HOLDS ^ 1 << PART))
        return fail("a bit of packet %d is inverted, and the parity is %d", PACKET, header[7]);
    printf("  %-*s part %d (packets %d and %d) does not hold, the other three do\n", GIVEN,
           "  with a bit of packet 3 inverted", PART, 2 * PART, 2 * PART + 1);
    return true;
}

static void say_words(const struct received *received)
{
    printf("  %-*s accepted: %zu of type 2 (packets)", GIVEN, "payload words", received->words);
    if (received->dummies != 0)
        printf(", %zu of type 0 (dummies)", received->dummies);
    printf("\n  %-*s all four parts of each word hold\n", GIVEN, "parity of the packets");
}

static bool say_received(struct received *received)
{
    say_words(received);
    if (!damage_part(received->first))
        return false;
    printf("  %-*s %zu given back, all as they were sent; %zu null packet%s dropped\n", GIVEN, "packets",
           kept(&received->due), received->nulls, plural(received->nulls));
    say_on_the_way(received->sent->words, received->words);
    return true;
}

/* Takes the stream from all frames. */
static bool take_frames(struct received *received, const struct words *words)
{
    if (!take_words(words, received->sent->id, take_word, received, &received->unread))
        return false;
    if (received->unread == 0)
        return is_all(received) && say_received(received);
    say_unread();
    return true;
}

bool read_stream(const struct words *words, const struct sent_stream *sent)
{
    struct received received = {.sent = sent, .come = words_of(words, sent->id)};
    if (sent->words == 0) /* it has no slot in these frames */
        return true;
    printf("\nstream %d read back from all %zu frames\n", sent->id, words->frames);
    if (received.come == 0) {
        say_on_the_way(sent->words, 0);
        return true;
    }
    if (!transport_open(&received.due, sent->source.path))
        return false;
    bool ok = take_frames(&received, words);
    transport_close(&received.due);
    return ok;
}
