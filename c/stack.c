/* The stack that each call uses at most on some inputs: the call runs on a stack of its own, filled
 * with a pattern, and the bytes that changed are counted. c/stack builds and runs it. */
#define _POSIX_C_SOURCE 200809L
#include <assert.h>
#include <pthread.h>
#include <stdio.h>
#include <stdlib.h>
#include <string.h>

#include "arib_text.h"

enum { STACK = 1 << 22, PATTERN = 0x5A, CAPTION = 1 };

static uint16_t cells[8836];
static uint8_t input[256], text[1 << 20], coding[65536];
static uint32_t issues[1 << 16], store[1 << 20], bookmarks[ARIB_BOOKMARK_STORE];
static uint8_t catalogue[ARIB_CATALOGUE_BYTES], kept[ARIB_CATALOGUE_BYTES];
static size_t input_len, counts[5];

/* Kana in rows 4 and 5, and in the other rows that may hold characters one after another. */
static void fill_cells(void)
{
    for (int i = 0; i < 8836; i++) {
        int row = i / 94 + 1;
        if (row < 9 || (row > 15 && row < 85))
            cells[i] = row == 4 ? 0x3041 + i % 94 : row == 5 ? 0x30A1 + i % 94 : 0x4E00 + i;
    }
}

/* Bytes that end in 00, which none of them holds. */
static void put(const char *bytes)
{
    size_t n = strlen(bytes);
    memcpy(input + input_len, bytes, n);
    input_len += n;
}

/* What is read at the bottom of macros that call the next one: characters of every kind, the deepest
 * an additional symbol behind a single shift; repeats, marks, private-use characters, controls,
 * escapes, faults and macros. */
static const char *const innermost[] = {
    "", "\xA2", "\x30\x21", "\x29\x21", "\x0E\x41", "\x89\x0E\x41\x20", "\x1B\x28\x49\x31", "\x1B\x28\x4A\x21",
    "\x1B\x24\x3B\x7A\x21", "\x1B\x24\x2A\x3B\x19\x7A\x21", "\x1B\x24\x2B\x3B\x1D\x7A\x21", "\x1B\x24\x39\x30\x21",
    "\x1B\x24\x3A\x21\x21", "\x1B\x28\x32\x21", "\x1B\x28\x20\x41\x21", "\x1B\x24\x28\x20\x40\x21\x21",
    "\x98\x7F\xA2", "\x98\x40", "\x21\x2D\xA2", "\x21\x2D\x98\x43\xA2", "\x21\x2D\x0D", "\x24\xA2", "\x19\x0D",
    "\x1B\x21\x40", "\x1B\x1B", "\x8B\x60\x0E\x41", "\x90\x20\x40", "\x9D\x29\x30\x40", "\x9B\x30\x40", "\x9B\xA2",
    "\x7C\x3A", "\x98\x7F\x7C\x3A", "\x1B\x24\x2A\x3B\x19\x7C\x3A", "\x1B\x24\x2B\x3B\x1D\x7C\x3A",
    "\x0D", "\xA0", "\x95", "\x95\x40\x25\xA2", "\x95\x41\x25\xA2\x95\x4F", "\x1D\x21", "\x1D\x60", "\x1D\x7F",
};

/* Macros 21 and on, each of which calls the one before it, this deep; the last is called. */
static void nest(const char *body, int deep)
{
    static const char calls[][3] = {"\x1D\x21", "\x1D\x22", "\x1D\x23", "\x1D\x24", "\x1D\x25"};
    static const char begins[][4] = {"\x95\x40\x21", "\x95\x40\x22", "\x95\x40\x23", "\x95\x40\x24", "\x95\x40\x25"};
    input_len = 0;
    for (int i = 0; i < deep; i++) {
        put(begins[i]);
        put(i == 0 ? body : calls[i - 1]);
        put("\x95\x4F");
    }
    put(deep > 0 ? calls[deep - 1] : body);
}

static void *decodes(void *unused)
{
    arib_decode(cells, 8836, CAPTION, 0, input, input_len, text, sizeof text, issues, 1 << 16, counts, 5);
    return unused;
}

static void *keys(void *unused)
{
    arib_key(cells, 8836, CAPTION, 0, input, input_len, text, sizeof text, counts, 3);
    return unused;
}

static void *cleans(void *unused)
{
    arib_clean(cells, 8836, CAPTION, 0, input, input_len, counts, 2);
    return unused;
}

static void *measures(void *unused)
{
    arib_measure(cells, 8836, CAPTION, 0, input, input_len, counts, 4);
    return unused;
}

static void *finds_escape(void *unused)
{
    arib_unknown_escape(input, input_len, 0, input_len, counts, 2);
    return unused;
}

/* Characters of every set and both sizes, marks, newlines; faults; nothing. */
static const char *const texts[] = {
    "ニュース TEST！ 7:00", "あアｱA㐂年", "！ュア", "A\u0301\u20DD\nあ\u0332", "\n\n", "\u3000 ー。", "\u0301",
    "\x01", "\xFF", "",
};

static void *encodes(void *unused)
{
    arib_encode(cells, 8836, 0, 0, input, input_len, store, 1 << 20, coding, sizeof coding, counts, 3);
    return unused;
}

/* Four bytes of a number. */
static void number_at(uint8_t *bytes, uint32_t number)
{
    for (int i = 0; i < 4; i++)
        bytes[i] = (uint8_t)(number >> (24 - 8 * i));
}

/* So many entries, numbered 1, 3, 5 and on, each with a key of its own of 255 bytes. */
static void fill_catalogue(uint32_t entries)
{
    memset(kept, 0, sizeof kept);
    number_at(kept, entries);
    number_at(kept + 4, entries);
    for (uint32_t i = 0; i < entries; i++) {
        uint8_t *place = kept + 8 + 260 * i;
        number_at(place, 2 * i + 1);
        memset(place + 4, 255, 256);
        place[5] = (uint8_t)i;
        place[6] = (uint8_t)(i >> 8);
    }
}

/* The number that is added or removed. With 0 the input is sought, else the key of the first place. */
static uint32_t number;

static void *adds(void *unused)
{
    arib_catalogue_add(cells, 8836, CAPTION, 0, input, input_len, number, catalogue, sizeof catalogue, text,
                       sizeof text, counts, 3);
    return unused;
}

static void *removes(void *unused)
{
    arib_catalogue_remove(catalogue, sizeof catalogue, number);
    return unused;
}

static void *finds(void *unused)
{
    if (number == 0)
        arib_catalogue_find(catalogue, sizeof catalogue, input, input_len, counts, 3);
    else
        arib_catalogue_find(catalogue, sizeof catalogue, kept + 13, 255, counts, 3);
    return unused;
}

/* Bookmark 1 at the end, so that all is read. */
static void *sets(void *unused)
{
    arib_bookmark_set(cells, 8836, CAPTION, 0, input, input_len, input_len, 1, bookmarks, ARIB_BOOKMARK_STORE, counts,
                      1);
    return unused;
}

/* Bookmark 0, which is at the start, so that all is read again. */
static void *returns(void *unused)
{
    arib_bookmark_return(cells, 8836, CAPTION, 0, input, input_len, 0, bookmarks, ARIB_BOOKMARK_STORE, text,
                         sizeof text, issues, 1 << 16, counts, 5);
    return unused;
}

static void *nothing(void *unused)
{
    return unused;
}

/* The bytes of stack that a thread changes. */
static size_t used(void *(*run)(void *))
{
    uint8_t *stack = aligned_alloc(4096, STACK);
    pthread_attr_t attr;
    pthread_t thread;
    size_t n = 0;
    assert(stack);
    memset(stack, PATTERN, STACK);
    pthread_attr_init(&attr);
    assert(pthread_attr_setstack(&attr, stack, STACK) == 0);
    assert(pthread_create(&thread, &attr, run, NULL) == 0);
    pthread_join(thread, NULL);
    while (n < STACK && stack[n] == PATTERN)
        n++;
    free(stack);
    return STACK - n;
}

/* Of a call that reads: bodies this deep at most. */
static size_t reading(void *(*run)(void *), int deepest)
{
    size_t most = 0;
    for (int deep = 0; deep <= deepest; deep++)
        for (size_t i = 0; i < sizeof innermost / sizeof *innermost; i++) {
            nest(innermost[i], deep);
            memcpy(catalogue, kept, sizeof catalogue);
            size_t n = used(run);
            most = n > most ? n : most;
        }
    return most;
}

/* Of a call over a catalogue: empty, with one entry, with room for one more, and full; a number that is there, and two
 * that are not, before the first and behind the last. */
static size_t holding(void *(*run)(void *), int deepest)
{
    static const uint32_t entries[] = {0, 1, ARIB_CATALOGUE_ENTRIES - 1, ARIB_CATALOGUE_ENTRIES};
    static const uint32_t numbers[] = {0, 1, UINT32_MAX};
    size_t most = 0;
    for (size_t i = 0; i < sizeof entries / sizeof *entries; i++) {
        fill_catalogue(entries[i]);
        for (size_t j = 0; j < sizeof numbers / sizeof *numbers; j++) {
            number = numbers[j];
            size_t n = reading(run, deepest);
            most = n > most ? n : most;
        }
    }
    return most;
}

static size_t writing(void *(*run)(void *))
{
    size_t most = 0;
    for (size_t i = 0; i < sizeof texts / sizeof *texts; i++) {
        input_len = 0;
        put(texts[i]);
        size_t n = used(run);
        most = n > most ? n : most;
    }
    return most;
}

int main(void)
{
    size_t none = used(nothing);
    fill_cells();
    assert(arib_bookmark_set(cells, 8836, CAPTION, 0, input, 0, 0, 0, bookmarks, ARIB_BOOKMARK_STORE, counts, 1) == 0);
    printf("decode %zu, without macros %zu\n", reading(decodes, 5) - none, reading(decodes, 0) - none);
    printf("key %zu, without macros %zu\n", reading(keys, 5) - none, reading(keys, 0) - none);
    printf("clean %zu, without macros %zu\n", reading(cleans, 5) - none, reading(cleans, 0) - none);
    printf("measure %zu, without macros %zu\n", reading(measures, 5) - none, reading(measures, 0) - none);
    printf("encode %zu\n", writing(encodes) - none);
    printf("unknown escape %zu\n", reading(finds_escape, 0) - none);
    printf("catalogue add %zu, without macros %zu\n", holding(adds, 5) - none, holding(adds, 0) - none);
    printf("catalogue remove %zu\n", holding(removes, 0) - none);
    printf("catalogue find %zu\n", holding(finds, 0) - none);
    printf("bookmark set %zu, without macros %zu\n", reading(sets, 5) - none, reading(sets, 0) - none);
    printf("bookmark return %zu, without macros %zu\n", reading(returns, 5) - none, reading(returns, 0) - none);
    return 0;
}
