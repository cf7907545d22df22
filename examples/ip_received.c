#include "ip_received.h"

#include <errno.h>
#include <stdio.h>
#include <string.h>

#include "loss.h"
#include "opl_text.h"
#include "picture.h"
#include "say.h"
#include "transport.h"

/* The packets that are listed at most. */
enum { LISTED = 16 };

/* A reading of the stream: what is lost in it, what is kept from word to word, and what has come out. */
struct reading {
    const struct ip_stream *sent;
    struct loss loss;
    FILE *file;                      /* that packets are written to, or null */
    uint8_t open[OPL_IP_OPEN_BYTES]; /* all that the library needs of earlier words */
    size_t number;                   /* of the word at hand, counted from 0, dummies and lost words too */
    size_t words, dummies, unread;   /* that were read, of type 3 and of type 0, and those of which bits are missing */
    size_t due;                      /* the packet that comes out next, or one before it that does not */
    size_t packets;                  /* that have come out */
    uint8_t answer;                  /* to the damaged word */
};

/* Goes on to the next packet that is to come out; false if there is none. */
static bool find_due(struct reading *reading)
{
    size_t whole = ip_whole(reading->sent);
    while (reading->due < whole && is_hit(reading->sent, &reading->loss, reading->due))
        reading->due++;
    return reading->due < whole;
}

/* Whether what comes out is a packet that was sent. The library has 1 for any error byte but 0. */
static bool is_packet(const struct ip_queue *queue, size_t number, const uint8_t *packet, size_t bytes)
{
    const uint8_t *sent = ip_packet(queue, number);
    return bytes == IP_LABEL_BYTES + ip_length(queue, number) && packet[0] == sent[0] &&
           packet[1] == (sent[1] != 0) && memcmp(packet + 2, sent + 2, bytes - 2) == 0;
}

/* Writes the packets that a word has handed out: they are a queue, as the file that was sent is one. */
static bool put_packets(const struct reading *reading, const uint8_t *packets, size_t n)
{
    return reading->file == NULL || fwrite(packets, 1, n, reading->file) == n ||
           fail("%s: %s", reading->sent->back_path, strerror(errno));
}

/* Holds each packet that a word has handed out, n bytes together, to the one that is due. */
static bool check_packets(struct reading *reading, const uint8_t *packets, size_t n)
{
    const struct ip_queue *queue = &reading->sent->queue;
    for (size_t at = 0, bytes; at < n; at += bytes) {
        bytes = IP_LABEL_BYTES + ip_number(packets + at + 2);
        if (!find_due(reading))
            return fail("stream %d gives more packets back than it should", reading->sent->id);
        if (!is_packet(queue, reading->due, packets + at, bytes))
            return fail("stream %d gives packet %zu of %s back as another", reading->sent->id, reading->due,
                        queue->path);
        reading->due++;
        reading->packets++;
    }
    return true;
}

/* Reads a word. What the word ends comes out of it, and what goes on in the next is kept in open. */
static bool read_word(struct reading *reading, const uint8_t *word)
{
    uint8_t packets[OPL_IP_ROOM], header[OPL_PAYLOAD_HEADER_BYTES];
    if (!accepted(opl_ip_read(word, OPL_PAYLOAD_WORD_BYTES, reading->open, sizeof reading->open, packets,
                              sizeof packets, header, sizeof header),
                  "opl_ip_read", "a payload word of the stream"))
        return false;
    uint8_t id = header[4], type = header[5], parity = header[7];
    if (id != reading->sent->id || (type != IP && type != DUMMY))
        return fail("a slot of stream %d has a word of stream %d, type %d", reading->sent->id, id, type);
    if (type == DUMMY) {
        reading->dummies++;
        return true;
    }
    if (parity != OPL_PARITY_HOLDS)
        return fail("stream %d: not all four parts of word %zu hold", id, reading->number);
    reading->words++;
    say_word(reading->sent, &reading->loss, reading->number, ip_number(header + 8));
    size_t n = ip_number(header + 10);
    return put_packets(reading, packets, n) && check_packets(reading, packets, n);
}

/*
 * Reports that the word at hand is lost; that one was due, its slot tells. The open packet is dropped: else its
 * beginning might be joined with the end of another packet, which no later word would show.
 */
static bool lose_word(struct reading *reading)
{
    say_word(reading->sent, &reading->loss, reading->number, 0);
    return accepted(opl_ip_lost(reading->open, sizeof reading->open), "opl_ip_lost", "the open packet");
}

/* Shows that a word with one bit of First_Header_Address inverted is refused and touches nothing; so it is lost too. */
static bool refuse_word(struct reading *reading, const uint8_t *word)
{
    uint8_t damaged[OPL_PAYLOAD_WORD_BYTES], open[OPL_IP_OPEN_BYTES], packets[OPL_IP_ROOM];
    uint8_t header[OPL_PAYLOAD_HEADER_BYTES];
    memcpy(damaged, word, sizeof damaged);
    damaged[OPL_PAYLOAD_BYTES] ^= 0x10;
    memcpy(open, reading->open, sizeof open);
    mark(packets, sizeof packets);
    mark(header, sizeof header);
    reading->answer = opl_ip_read(damaged, sizeof damaged, reading->open, sizeof reading->open, packets,
                                  sizeof packets, header, sizeof header);
    if (memcmp(reading->open, open, sizeof open) != 0)
        return fail("a refused call touched the open packet");
    return untouched(packets, sizeof packets) && untouched(header, sizeof header) && lose_word(reading);
}

/* Takes the next word of the stream, or what reaches the receiver of it. */
static bool take_word(void *taker, const uint8_t *word)
{
    struct reading *reading = taker;
    if (reading->number == 0)
        say_picture(&reading->loss);
    bool ok = is_lost(&reading->loss, reading->number)      ? lose_word(reading)
              : is_damaged(&reading->loss, reading->number) ? refuse_word(reading, word)
                                                            : read_word(reading, word);
    reading->number++;
    return ok;
}

/* Takes all words of the stream. True if all that is to come out has come out, or if the words cannot be read. */
static bool take_all(struct reading *reading, const struct words *words)
{
    const struct ip_stream *sent = reading->sent;
    size_t gone = reading->loss.lost + reading->loss.refused;
    if (!take_words(words, (uint8_t)sent->id, take_word, reading, &reading->unread))
        return false;
    return reading->unread != 0 ||
           (reading->words + gone == sent->words && reading->dummies == sent->dummies && !find_due(reading)) ||
           fail("stream %d does not give as many words and packets back as were sent", sent->id);
}

static void say_all(const struct reading *reading)
{
    printf("  %-*s accepted: %zu of type 3 (IP packets)", GIVEN, "payload words", reading->words);
    if (reading->dummies != 0)
        printf(", %zu of type 0 (dummies)", reading->dummies);
    printf("\n  %-*s all four parts of each word hold\n", GIVEN, "parity of the packets");
    printf("  %-*s %zu given back, in order and byte for byte as they were sent\n", GIVEN, "packets",
           reading->packets);
    printf("  %-*s written, in the form in which they were sent\n", GIVEN, reading->sent->back_path);
}

/* Prints the words that carry a packet. */
static void say_carriers(const struct ip_stream *stream, size_t packet)
{
    size_t first = 0, last;
    while (!ip_carries(stream, first, packet))
        first++;
    for (last = first; last + 1 < stream->words && ip_carries(stream, last + 1, packet);)
        last++;
    if (first == last)
        printf("word %zu\n", first);
    else
        printf("words %zu %s %zu\n", first, last == first + 1 ? "and" : "to", last);
}

/* Prints a line for each packet that did not come out, or for the first of them. */
static void say_dropped(const struct reading *reading)
{
    const struct ip_stream *sent = reading->sent;
    size_t whole = ip_whole(sent), dropped = whole - reading->packets, listed = 0;
    printf("  %-*s %zu, just those that had something in a word that did not come\n", GIVEN, "  not given back",
           dropped);
    for (size_t i = 0; i < whole && listed < LISTED; i++) {
        if (!is_hit(sent, &reading->loss, i))
            continue;
        size_t bytes = ip_length(&sent->queue, i);
        printf("    %c  packet %zu, %zu byte%s, in ", packet_letter(i), i, bytes, plural(bytes));
        say_carriers(sent, i);
        listed++;
    }
    if (listed < dropped)
        printf("    and %zu more\n", dropped - listed);
}

/* Prints what came of the reading with words lost. True if the damaged word was refused as it has to be. */
static bool say_rest(const struct reading *reading)
{
    char given[GIVEN];
    snprintf(given, sizeof given, "word %zu with a header bit inverted", reading->loss.damaged);
    if (!refused(reading->answer, OPL_CRC, given))
        return false;
    printf("  %-*s as before that call; then the word is reported lost\n", GIVEN, "  open packet, packets, header");
    printf("  %-*s %zu given back, whole and in order\n", GIVEN, "packets", reading->packets);
    say_dropped(reading);
    return true;
}

/* Reads the stream with all its words, and writes the packets. */
static bool read_all(struct reading *reading, const struct words *words)
{
    const char *path = reading->sent->back_path;
    reading->file = fopen(path, "wb");
    if (reading->file == NULL)
        return fail("%s: %s", path, strerror(errno));
    printf("\nstream %d read back from all %zu frames\n", reading->sent->id, words->frames);
    bool ok = take_all(reading, words);
    if (fclose(reading->file) != 0 && ok)
        ok = fail("%s: %s", path, strerror(errno));
    return ok;
}

/* Prints which words do not come. */
static void say_loss(const struct ip_stream *sent, const struct loss *loss)
{
    printf("\nstream %d once more, with ", sent->id);
    if (loss->lost == 1)
        printf("word %zu lost and ", loss->first);
    if (loss->lost == 2)
        printf("words %zu and %zu lost and ", loss->first, loss->first + 1);
    printf("word %zu refused: opl_ip_lost is told before the next is read\n", loss->damaged);
}

/* What comes back of a stream, as if no more had been sent: the words with packets come first, and dummies behind. */
static struct ip_stream part_of(const struct ip_stream *sent, size_t come)
{
    struct ip_stream part = *sent;
    part.words = come < sent->words ? come : sent->words;
    part.dummies = come - part.words;
    return part;
}

/* Reads the stream with all words, and then with some lost. */
static bool read_twice(const struct words *words, const struct ip_stream *sent, size_t on_the_way)
{
    struct reading all = {.sent = sent}, rest = {.sent = sent};
    if (!read_all(&all, words))
        return false;
    if (all.unread != 0) {
        say_unread();
        return true;
    }
    if (sent->words != 0)
        say_all(&all);
    say_on_the_way(on_the_way, 0);
    if (sent->words == 0)
        return true;
    rest.loss = loss_of(sent->words < WORDS_SHOWN ? sent->words : WORDS_SHOWN);
    say_loss(sent, &rest.loss);
    return take_all(&rest, words) && say_rest(&rest);
}

bool read_ip(const struct words *words, const struct ip_stream *sent)
{
    if (sent->words == 0) /* it has no slot in these frames */
        return true;
    struct ip_stream part = part_of(sent, words_of(words, (uint8_t)sent->id));
    return read_twice(words, &part, sent->words - part.words);
}
