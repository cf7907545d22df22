#include "ip.h"

#include <stdio.h>
#include <stdlib.h>

#include "opl_text.h"
#include "say.h"
#include "transport.h"

/* The types of packets, as table 6 has them. */
enum { IPV4 = 1, IPV6 = 2 };

/* A word that is followed by another has at most one byte without a packet: the last, where no header fits. */
enum { WORD_LEAST = OPL_IP_PAYLOAD_BYTES - 1 };

size_t ip_number(const uint8_t *bytes)
{
    return (size_t)bytes[0] << 8 | bytes[1];
}

static bool load_queue(struct ip_queue *queue)
{
    return load_all(queue->path, &queue->bytes, &queue->n) &&
           (queue->n != 0 || fail("%s: it has no packet", queue->path));
}

/* Whether a packet's four bytes say a type and a length that there are. */
static bool is_sound(const uint8_t *label)
{
    size_t length = ip_number(label + 2);
    return (label[0] == IPV4 || label[0] == IPV6) && length >= 1 && length <= OPL_IP_PACKET_MOST;
}

/* Finds the first packet that is not sound or not whole. False if that is all right, and the queue ends there. */
static bool find_fault(const struct ip_queue *queue, size_t *packet, size_t *at)
{
    *packet = *at = 0;
    while (queue->n - *at >= IP_LABEL_BYTES && is_sound(queue->bytes + *at)) {
        size_t bytes = IP_LABEL_BYTES + ip_number(queue->bytes + *at + 2);
        if (queue->n - *at < bytes)
            return true;
        *at += bytes;
        ++*packet;
    }
    return *at < queue->n;
}

/* Says why the library refused a file as a queue: which packet it was, and the refusal. Returns false. */
static bool say_fault(const struct ip_queue *queue, uint8_t answer)
{
    size_t packet, at;
    if (!find_fault(queue, &packet, &at))
        return accepted(answer, "opl_ip_write", queue->path);
    const uint8_t *label = queue->bytes + at;
    size_t there = queue->n - at;
    char what[120];
    if (there < IP_LABEL_BYTES)
        snprintf(what, sizeof what, "is cut off: the file ends after %zu of the %d bytes before its data", there,
                 IP_LABEL_BYTES);
    else if (!is_sound(label))
        snprintf(what, sizeof what, "has type %d and length %zu", label[0], ip_number(label + 2));
    else
        snprintf(what, sizeof what, "is cut off: the file ends after %zu of its %zu bytes", there,
                 IP_LABEL_BYTES + ip_number(label + 2));
    return fail("%s: packet %zu, at byte %zu, %s: refused %d, %s", queue->path, packet, at, what, answer,
                opl_refusal_text(answer));
}

/* Lends the library the whole queue, once, which refuses a file that is none. The word is not sent. */
static bool check_queue(const struct ip_queue *queue)
{
    uint8_t word[OPL_PAYLOAD_WORD_BYTES], progress[OPL_IP_PROGRESS_BYTES];
    uint8_t answer = opl_ip_write(0, 0, queue->bytes, queue->n, word, sizeof word, progress, sizeof progress);
    return answer == OPL_ACCEPTED || say_fault(queue, answer);
}

/* Finds where the packets of a queue begin that was accepted. None has fewer than five bytes. */
static bool find_packets(struct ip_queue *queue)
{
    size_t at = 0;
    queue->starts = malloc((queue->n / (IP_LABEL_BYTES + 1) + 1) * sizeof *queue->starts);
    if (queue->starts == NULL)
        return fail("%s: no memory for its packets", queue->path);
    for (queue->packets = 0; at < queue->n; queue->packets++) {
        queue->starts[queue->packets] = at;
        at += IP_LABEL_BYTES + ip_number(queue->bytes + at + 2);
    }
    queue->starts[queue->packets] = at;
    return true;
}

/* Makes room for the places that the stream comes to, and puts it at the first packet. */
static bool begin_stream(struct ip_stream *stream)
{
    stream->words_most = stream->queue.n / WORD_LEAST + 1;
    stream->places = calloc(stream->words_most + 1, sizeof *stream->places);
    return stream->places != NULL || fail("%s: no memory for its words", stream->queue.path);
}

bool ip_open(struct ip_stream *stream, const struct ip_paths *paths)
{
    *stream = (struct ip_stream){.id = NO_STREAM, .queue = {.path = paths->sent}, .back_path = paths->back};
    if (load_queue(&stream->queue) && check_queue(&stream->queue) && find_packets(&stream->queue) &&
        begin_stream(stream))
        return true;
    ip_close(stream);
    return false;
}

void ip_close(struct ip_stream *stream)
{
    free(stream->queue.bytes);
    free(stream->queue.starts);
    free(stream->places);
}

const uint8_t *ip_packet(const struct ip_queue *queue, size_t packet)
{
    return queue->bytes + queue->starts[packet];
}

size_t ip_length(const struct ip_queue *queue, size_t packet)
{
    return queue->starts[packet + 1] - queue->starts[packet] - IP_LABEL_BYTES;
}

size_t ip_whole(const struct ip_stream *stream)
{
    return stream->places[stream->words].packet;
}

bool ip_waits(const struct ip_stream *stream)
{
    return ip_whole(stream) < stream->queue.packets;
}

bool ip_carries(const struct ip_stream *stream, size_t word, size_t packet)
{
    const struct ip_place *before = &stream->places[word], *after = before + 1;
    return packet >= before->packet && (packet < after->packet || (packet == after->packet && after->sent != 0));
}

/*
 * How many bytes of the queue are lent for the next word. A call walks all that is lent to it, so it is only the
 * front: as many packets as fill a word, however long the queue is.
 */
static size_t front_bytes(const struct ip_stream *stream)
{
    const struct ip_queue *queue = &stream->queue;
    const struct ip_place *now = &stream->places[stream->words];
    size_t packet = now->packet, bytes = 0;
    while (packet < queue->packets && bytes < now->sent + WORD_LEAST)
        bytes += IP_HEADER_BYTES + ip_length(queue, packet++);
    return queue->starts[packet] - queue->starts[now->packet];
}

static uint32_t four_bytes(const uint8_t *bytes)
{
    return (uint32_t)ip_number(bytes) << 16 | (uint32_t)ip_number(bytes + 2);
}

/* Drops from the front of the queue what is done with: the next place is behind it, with what is sent there. */
static bool drop_done(struct ip_stream *stream, const uint8_t progress[OPL_IP_PROGRESS_BYTES])
{
    const struct ip_queue *queue = &stream->queue;
    struct ip_place next = stream->places[stream->words];
    size_t end = queue->starts[next.packet] + four_bytes(progress);
    next.sent = four_bytes(progress + 4);
    while (next.packet < queue->packets && queue->starts[next.packet] < end)
        next.packet++;
    if (queue->starts[next.packet] != end || stream->words == stream->words_most)
        return fail("opl_ip_write is done with what it cannot be: byte %zu of %s", end, queue->path);
    stream->places[++stream->words] = next;
    return true;
}

bool ip_word(struct ip_stream *stream, uint8_t *word)
{
    const struct ip_place *now = &stream->places[stream->words];
    uint8_t id = (uint8_t)stream->id, progress[OPL_IP_PROGRESS_BYTES];
    if (!ip_waits(stream)) {
        stream->dummies++;
        return dummy_word(id, word);
    }
    return accepted(opl_ip_write(id, now->sent, ip_packet(&stream->queue, now->packet), front_bytes(stream), word,
                                 OPL_PAYLOAD_WORD_BYTES, progress, sizeof progress),
                    "opl_ip_write", "the front of the queue") &&
           drop_done(stream, progress);
}

/* Prints of which types the packets are that are wholly sent, and how many have the error bit. */
static void say_types(const struct ip_stream *stream)
{
    size_t whole = ip_whole(stream), ipv4 = 0, erroneous = 0;
    for (size_t i = 0; i < whole; i++) {
        const uint8_t *label = ip_packet(&stream->queue, i);
        ipv4 += label[0] == IPV4;
        erroneous += label[1] != 0;
    }
    printf("    %zu of IPv4, %zu of IPv6; %zu with the error bit set\n", ipv4, whole - ipv4, erroneous);
}

void say_ip(const struct ip_stream *stream)
{
    const struct ip_queue *queue = &stream->queue;
    const struct ip_place *end = &stream->places[stream->words];
    if (stream->id == NO_STREAM) {
        printf("  no stream is left for the packets of %s, so none is sent\n", queue->path);
        return;
    }
    if (stream->words == 0) {
        printf("  stream %d: no slot in these frames, so no packet of %s is sent\n", stream->id, queue->path);
        return;
    }
    printf("  stream %d: %zu word%s of type 3 with %s %zu packet%s of %s\n", stream->id, stream->words,
           plural(stream->words), ip_waits(stream) ? "the first" : "all", end->packet, plural(end->packet),
           queue->path);
    say_types(stream);
    if (end->sent != 0)
        printf("    then a packet of which %zu of %zu bytes are still to be sent\n",
               IP_HEADER_BYTES + ip_length(queue, end->packet) - end->sent, ip_length(queue, end->packet));
    if (stream->dummies != 0)
        printf("    then %zu dummy word%s of type 0, as no packet is left\n", stream->dummies,
               plural(stream->dummies));
}
