#include "words.h"

#include <stdio.h>

#include "say.h"

size_t words_of(const struct words *words, uint8_t id)
{
    size_t count = 0;
    for (size_t i = 0; i < words->come.count; i++)
        count += ((const struct come *)list_at(&words->come, i))->id == id;
    return count;
}

bool take_words(const struct words *words, uint8_t id, word_taker *take, void *taker, size_t *unread)
{
    for (size_t i = 0; i < words->come.count; i++) {
        const struct come *come = list_at(&words->come, i);
        if (come->id != id)
            continue;
        if (!come->all)
            ++*unread;
        else if (!take(taker, come->word))
            return false;
    }
    return true;
}

void say_unread(void)
{
    printf("  %-*s not read: their pattern does not send all bits, which takes a turbo decoder\n", GIVEN,
           "payload words");
}

void say_on_the_way(size_t sent, size_t come)
{
    if (come < sent)
        printf("  %-*s %zu word%s, not whole yet in these frames\n", GIVEN, "still on the way", sent - come,
               plural(sent - come));
}
