/* Reads, codes and keys a title, as two stations arrange it too, counts its private-use characters,
 * asks whether it is clean and how much room it takes, keeps titles in a catalogue, goes back to a
 * bookmark: the calls of arib_text.h, as a test. c/test builds and runs it. */
#include <assert.h>
#include <stdio.h>
#include <stdlib.h>
#include <string.h>

#include "arib_text.h"

/* Room for two issues. */
enum { ROOM = 2 * ARIB_ISSUE_NUMBERS };

static uint16_t cells[8836];

/* jis.tab: big-endian numbers. */
static void read_cells(const char *path)
{
    FILE *file = fopen(path, "rb");
    assert(file);
    for (size_t i = 0; i < 8836; i++) {
        int high = getc(file), low = getc(file);
        assert(high != EOF && low != EOF);
        cells[i] = (uint16_t)(high << 8 | low);
    }
    fclose(file);
}

static void reads(void)
{
    const uint8_t title[] = {0x24, 0xA2};
    uint8_t text[16];
    uint32_t issues[ROOM];
    size_t counts[5];
    memset(text, 0xAA, sizeof text);
    uint32_t refused = arib_decode(cells, 8836, 0, 0, title, 2, text, 16, issues, ROOM, counts, 5);
    assert(refused == 0);
    assert(counts[0] == 0 && counts[1] == 3 && counts[2] == 1 && counts[3] == 0 && counts[4] == 0);
    assert(memcmp(text, "あ\0\0\0\0\0\0\0\0\0\0\0\0\0", 16) == 0);
    const uint32_t truncated[ROOM] = {0, ARIB_TRUNCATED, 0, 0, 0};
    assert(memcmp(issues, truncated, sizeof issues) == 0);
    printf("24 A2 reads as %s, with %zu issue\n", (const char *)text, counts[2]);

    refused = arib_decode(cells, 8836, 0, 0, title, 2, text, 2, issues, ROOM, counts, 5);
    assert(refused == 8 && counts[1] == 0 && text[0] == 0 && text[1] == 0);
    refused = arib_decode(cells, 8835, 2, 0, title, 2, text, 16, issues, ROOM, counts, 5);
    assert(refused == 1);
}

/* あ, a mark that a newline releases, a code without a character: the places of two issues in the
 * text. Nine numbers hold but one. */
static void places(void)
{
    const uint8_t input[] = {0xA2, 0x21, 0x2D, 0x0D, 0x29, 0x21};
    uint8_t text[16];
    uint32_t issues[ROOM];
    size_t counts[4];
    uint32_t refused = arib_decode(cells, 8836, 0, 0, input, 6, text, 16, issues, ROOM, counts, 4);
    assert(refused == 0 && counts[1] == 9 && counts[2] == 2);
    assert(memcmp(text, "あ\u0301\n\uFFFD", 10) == 0);
    const uint32_t expected[ROOM] = {
        1, ARIB_DANGLING_NON_SPACING, 0, 0, 3,
        4, ARIB_UNDEFINED_CODE, ARIB_KANJI, 0x2921, 6,
    };
    assert(memcmp(issues, expected, sizeof issues) == 0);
    int before = (int)issues[ARIB_ISSUE_POSITION];
    printf("A2 21 2D 0D 29 21 has its first issue behind %.*s\n", before, (const char *)text);

    refused = arib_decode(cells, 8836, 0, 0, input, 6, text, 16, issues, ROOM - 1, counts, 4);
    assert(refused == 9 && counts[1] == 0 && counts[2] == 0 && issues[ARIB_ISSUE_POSITION] == 0);
}

/* 92-26, which is U+E290, twice; five bytes are too few. Four counts are the first four, and a
 * sixth stays as it was. */
static void counts_private_use(void)
{
    const uint8_t input[] = {0x98, 0x42, 0x7C, 0x3A};
    uint8_t text[16];
    uint32_t issues[ROOM];
    size_t counts[6] = {7, 7, 7, 7, 7, 7};
    uint32_t refused = arib_decode(cells, 8836, 0, 0, input, 4, text, 16, issues, ROOM, counts, 4);
    assert(refused == 0 && counts[1] == 6 && counts[2] == 0 && counts[3] == 0 && counts[4] == 7);
    refused = arib_decode(cells, 8836, 0, 0, input, 4, text, 16, issues, ROOM, counts, 6);
    assert(refused == 0 && counts[1] == 6 && counts[4] == 2 && counts[5] == 7);
    assert(memcmp(text, "\uE290\uE290", 7) == 0);
    printf("98 42 7C 3A has %zu private-use characters\n", counts[4]);

    refused = arib_decode(cells, 8836, 0, 0, input, 4, text, 5, issues, ROOM, counts, 5);
    assert(refused == 8 && counts[0] == 0 && counts[1] == 0 && counts[4] == 0);
}

static void finds_an_escape(void)
{
    const uint8_t input[] = {0xA2, 0x1B, 0x24, 0x41};
    size_t part[2];
    assert(arib_unknown_escape(input, 4, 1, 3, part, 2) == 3 && part[0] == 1 && part[1] == 3);
    assert(arib_unknown_escape(input, 4, 2, 3, part, 2) == 0 && part[0] == 0 && part[1] == 0);
}

/* Ａ needs 36 numbers of the store: four for the start, and for each of the eight states that its
 * one layer reaches. */
static void codes(void)
{
    const char *text = "Ａ";
    static uint32_t store[4096];
    uint8_t coding[27];
    size_t counts[3];
    uint32_t refused = arib_encode(cells, 8836, 0, 0, (const uint8_t *)text, strlen(text), store,
                                   4096, coding, 27, counts, 3);
    assert(refused == 0 && counts[1] == 2 && counts[2] == 0);
    assert(coding[0] == 0x0E && coding[1] == 0x41);
    printf("%s is coded as %02X %02X, gap %zu\n", text, coding[0], coding[1], counts[2]);
    refused = arib_encode(cells, 8836, 0, 0, (const uint8_t *)text, strlen(text), store, 36, coding,
                          27, counts, 3);
    assert(refused == 0 && counts[1] == 2 && coding[0] == 0x0E && coding[1] == 0x41);
    refused = arib_encode(cells, 8836, 0, 0, (const uint8_t *)text, strlen(text), store, 35, coding,
                          27, counts, 3);
    assert(refused == 7 && counts[1] == 0 && coding[0] == 0);
}

static void keys(void)
{
    const uint8_t title[] = {0xA2, 0x20, 0xA4};
    uint8_t key[16];
    size_t counts[3];
    uint32_t refused = arib_key(cells, 8836, 0, 0, title, 3, key, 16, counts, 3);
    assert(refused == 0 && counts[1] == 6);
    assert(memcmp(key, "あい\0\0\0\0\0\0\0\0\0", 16) == 0);
    printf("A2 20 A4 has the key %s\n", (const char *)key);
    const uint8_t wide[] = {0x0E, 0x41}, narrow[] = {0x89, 0x0E, 0x41};
    refused = arib_key(cells, 8836, 0, 0, wide, 2, key, 16, counts, 3);
    assert(refused == 0 && counts[1] == 1 && memcmp(key, "A\0\0\0", 4) == 0);
    refused = arib_key(cells, 8836, 0, 0, narrow, 3, key, 16, counts, 3);
    assert(refused == 0 && counts[1] == 1 && memcmp(key, "A\0\0\0", 4) == 0);
    printf("0E 41 and 89 0E 41 have the key %s\n", (const char *)key);
}

/* Aあ as two stations send it: the second with Alphanumeric in G3 and GR, a set that no character
 * needs, SS2 before a code in GR's half, and MSZ at the end. */
static void arranges(void)
{
    const uint8_t terse[] = {0x89, 0x0E, 0x41, 0x8A, 0xA2};
    const uint8_t wordy[] = {0x1B, 0x2B, 0x4A, 0x1B, 0x7C, 0x89, 0xC1, 0x0F,
                             0x8A, 0x1B, 0x29, 0x20, 0x4F, 0x19, 0xA2, 0x89};
    uint8_t first[8], second[8];
    size_t one[3], two[3];
    for (size_t room = 0; room <= 8; room++) {
        uint32_t refused = arib_key(cells, 8836, 0, 0, terse, sizeof terse, first, room, one, 3);
        assert(refused == (room < 4 ? 8 : 0));
        assert(arib_key(cells, 8836, 0, 0, wordy, sizeof wordy, second, room, two, 3) == refused);
        assert(memcmp(one, two, sizeof one) == 0 && memcmp(first, second, room) == 0);
    }
    printf("89 0E 41 8A A2 and %zu bytes of another station have the key %s\n", sizeof wordy,
           (const char *)second);
}

/* U+E290, then あ with an issue, six bytes: 8 before 10 before 11. */
static void refuses_keys(void)
{
    const uint8_t title[] = {0x7C, 0x3A, 0x24, 0xA2}, zeros[16] = {0};
    uint8_t key[16];
    size_t counts[3] = {7, 7, 7};
    memset(key, 0xAA, sizeof key);
    uint32_t refused = arib_key(cells, 8836, 0, 0, title, 2, key, 16, counts, 3);
    assert(refused == 11 && counts[0] == 0 && counts[1] == 0 && counts[2] == 0);
    assert(memcmp(key, zeros, 16) == 0);
    printf("7C 3A has no key: %u\n", (unsigned)refused);
    assert(arib_key(cells, 8836, 0, 0, title, 2, key, 2, counts, 3) == 8);
    assert(arib_key(cells, 8836, 0, 0, title, 4, key, 6, counts, 3) == 10);
    assert(arib_key(cells, 8836, 0, 0, title, 4, key, 5, counts, 3) == 8);
}

static void asks(void)
{
    const uint8_t title[] = {0x24, 0xA2}, mark[] = {0x21, 0x2D, 0xA2};
    size_t counts[3] = {7, 7, 7};
    uint32_t refused = arib_clean(cells, 8836, 0, 0, title, 2, counts, 3);
    assert(refused == 0 && counts[0] == 0 && counts[1] == 0 && counts[2] == 7);
    printf("24 A2 %s without issue\n", counts[1] ? "reads" : "does not read");
    refused = arib_clean(cells, 8836, 0, 0, mark, 3, counts, 2);
    assert(refused == 0 && counts[0] == 0 && counts[1] == 1);
    refused = arib_clean(cells, 8836, 0, 0, mark, 2, counts, 2);
    assert(refused == 0 && counts[0] == 0 && counts[1] == 0);

    counts[1] = 7;
    refused = arib_clean(cells, 8836, 0, 0, mark, 3, counts, 1);
    assert(refused == 0 && counts[1] == 7);
    refused = arib_clean(cells, 8836, 0, 2, mark, 3, counts, 2);
    assert(refused == 2 && counts[0] == 0 && counts[1] == 0);
    refused = arib_clean(cells, 8835, 0, 2, mark, 3, counts, 2);
    assert(refused == 1 && counts[0] == 0 && counts[1] == 0);
}

/* あ, an undefined control, a mark that waits to the end. */
static const uint8_t damaged[] = {0xA2, 0xA0, 0x21, 0x2D};

static void measures(void)
{
    size_t counts[5] = {7, 7, 7, 7, 7};
    uint32_t refused = arib_measure(cells, 8836, 0, 0, damaged, 4, counts, 5);
    assert(refused == 0 && counts[0] == 0 && counts[1] == 5 && counts[2] == 2 && counts[3] == 0);
    assert(counts[4] == 7);
    printf("A2 A0 21 2D takes %zu bytes of text and %zu issues\n", counts[1], counts[2]);

    counts[2] = 7;
    refused = arib_measure(cells, 8836, 0, 0, damaged, 4, counts, 2);
    assert(refused == 0 && counts[0] == 0 && counts[1] == 5 && counts[2] == 7);
    refused = arib_measure(cells, 8836, 2, 0, damaged, 4, counts, 4);
    assert(refused == 2);
    assert(counts[0] == 0 && counts[1] == 0 && counts[2] == 0 && counts[3] == 0);
    refused = arib_measure(cells, 8835, 2, 0, damaged, 4, counts, 4);
    assert(refused == 1);
}

/* As a player does, just as much as the string takes; a byte less; an issue less, with every
 * remainder. */
static void allocates(void)
{
    size_t counts[4];
    uint32_t refused = arib_measure(cells, 8836, 0, 0, damaged, 4, counts, 4);
    assert(refused == 0);
    size_t bytes = counts[1], numbers = counts[2] * ARIB_ISSUE_NUMBERS;
    uint8_t *text = malloc(bytes);
    uint32_t *issues = malloc(numbers * sizeof *issues);
    assert(text && issues);
    refused = arib_decode(cells, 8836, 0, 0, damaged, 4, text, bytes, issues, numbers, counts, 4);
    assert(refused == 0 && memcmp(text, "あ\u0301", bytes) == 0);
    refused = arib_decode(cells, 8836, 0, 0, damaged, 4, text, bytes - 1, issues, numbers, counts,
                          4);
    assert(refused == 8);
    for (size_t n = numbers - ARIB_ISSUE_NUMBERS; n < numbers; n++) {
        refused = arib_decode(cells, 8836, 0, 0, damaged, 4, text, bytes, issues, n, counts, 4);
        assert(refused == 9);
    }
    free(text);
    free(issues);
}

/* A catalogue, and its bytes before a call. */
static uint8_t catalogue[ARIB_CATALOGUE_BYTES], before[ARIB_CATALOGUE_BYTES];
static uint8_t key[512];
static size_t counts[3];

static uint32_t adds(const uint8_t *title, size_t title_len, uint32_t number)
{
    return arib_catalogue_add(cells, 8836, 0, 0, title, title_len, number, catalogue,
                              sizeof catalogue, key, sizeof key, counts, 3);
}

static uint32_t removes(uint32_t number)
{
    return arib_catalogue_remove(catalogue, sizeof catalogue, number);
}

static uint32_t finds(const char *sought)
{
    return arib_catalogue_find(catalogue, sizeof catalogue, (const uint8_t *)sought, strlen(sought),
                               counts, 3);
}

static int unchanged(void)
{
    return memcmp(catalogue, before, sizeof catalogue) == 0;
}

/* ＮＨＫ and NHK, two spellings of one series, are found together. */
static void catalogues(void)
{
    const uint8_t wide[] = {0x0E, 0x4E, 0x48, 0x4B}, narrow[] = {0x89, 0x0E, 0x4E, 0x48, 0x4B};
    assert(finds("NHK") == 0 && counts[0] == 0 && counts[1] == 0 && counts[2] == 0);
    assert(adds(wide, sizeof wide, 9) == 0 && counts[1] == 3 && memcmp(key, "NHK\0", 5) == 0);
    assert(adds(narrow, sizeof narrow, 7) == 0 && counts[1] == 3 && memcmp(key, "NHK\0", 5) == 0);
    const uint8_t first[] = {0, 0, 0, 2, 0, 0, 0, 1, 0, 0, 0, 7, 3, 'N', 'H', 'K', 0};
    assert(memcmp(catalogue, first, sizeof first) == 0);
    assert(finds("NHK") == 0 && counts[0] == 0 && counts[1] == 2 && counts[2] == 7);
    printf("0E 4E 48 4B and 89 0E 4E 48 4B are %zu entries of NHK, the smallest %zu\n", counts[1],
           counts[2]);
    assert(removes(7) == 0);
    assert(finds("NHK") == 0 && counts[1] == 1 && counts[2] == 9);
    printf("with 7 removed NHK has %zu entry, %zu\n", counts[1], counts[2]);
    assert(removes(9) == 0 && unchanged());
}

/* Keys of 255 and 258 bytes; as many entries as there is room for, and one more. */
static void refuses_entries(void)
{
    static const uint8_t zeros[sizeof key];
    uint8_t kana[86];
    memset(kana, 0xA2, sizeof kana);
    for (uint32_t i = 0; i < ARIB_CATALOGUE_ENTRIES; i++)
        assert(adds(kana, 85, 2 * i) == 0 && counts[1] == ARIB_CATALOGUE_KEY);
    memcpy(before, catalogue, sizeof before);
    assert(adds(kana, 85, 1) == 14 && counts[0] == 0 && counts[1] == 0 && counts[2] == 0);
    assert(memcmp(key, zeros, sizeof key) == 0);
    assert(adds(kana, 86, 1) == 13);
    assert(adds(kana, 86, 0) == 12);
    assert(removes(1) == 12 && unchanged());
}

/* A count that is not right, and a byte too few, before all else. */
static void refuses_catalogues(void)
{
    const uint8_t damaged[] = {0x24, 0xA2};
    catalogue[7]++;
    memcpy(before, catalogue, sizeof before);
    counts[1] = 7;
    assert(finds("") == 12 && counts[0] == 0 && counts[1] == 0 && counts[2] == 0);
    assert(adds(damaged, 2, 1) == 12 && removes(0) == 12 && unchanged());
    catalogue[7]--;
    assert(finds("") == 0 && adds(damaged, 2, 1) == 10);
    assert(arib_catalogue_remove(catalogue, sizeof catalogue - 1, 0) == 12);
}

/* あ, katakana to G0, a newline, ア, an undefined control, い. */
static const uint8_t caption[] = {0xA2, 0x1B, 0x28, 0x31, 0x0D, 0x22, 0xA0, 0xA4};

/* Bookmarks, and what is read behind one. */
static uint32_t bookmarks[ARIB_BOOKMARK_STORE], rest_issues[ROOM];
static uint8_t rest[16];
static size_t rest_counts[5];

static uint32_t sets(size_t place, uint32_t name)
{
    return arib_bookmark_set(cells, 8836, 0, 0, caption, sizeof caption, place, name, bookmarks,
                             ARIB_BOOKMARK_STORE, counts, 3);
}

static uint32_t returns(uint32_t name, size_t room)
{
    return arib_bookmark_return(cells, 8836, 0, 0, caption, sizeof caption, name, bookmarks,
                                ARIB_BOOKMARK_STORE, rest, room, rest_issues, ROOM, rest_counts, 5);
}

/* The second line, in which 22 is ア; then the first. The issue has its place in the whole. */
static void goes_back(void)
{
    const uint32_t expected[ROOM] = {6, ARIB_UNDEFINED_CONTROL, 0xA0, 0, 7};
    const uint32_t *bookmark = bookmarks + 3 * ARIB_BOOKMARK_NUMBERS;
    counts[1] = 7;
    assert(sets(5, 3) == 0 && counts[0] == 0 && counts[1] == 7);
    assert(bookmark[ARIB_BOOKMARK_IS_SET] == 1 && bookmark[ARIB_BOOKMARK_PLACE] == 5);
    assert(bookmark[ARIB_BOOKMARK_SETS] == ARIB_KATAKANA && bookmark[ARIB_BOOKMARK_TEXT] == 4);
    assert(returns(3, 16) == 0 && rest_counts[0] == 0 && rest_counts[1] == 6);
    assert(rest_counts[2] == 1 && rest_counts[3] == 0 && rest_counts[4] == 0);
    assert(memcmp(rest, "アい\0\0\0\0\0\0\0\0\0", 16) == 0);
    assert(memcmp(rest_issues, expected, sizeof expected) == 0);
    printf("A2 1B 28 31 0D 22 A0 A4 goes on at byte 5 with %s\n", (const char *)rest);

    assert(sets(0, 3) == 0 && returns(3, 16) == 0 && rest_counts[1] == 10);
    assert(memcmp(rest, "あ\nアい", 11) == 0);
    assert(memcmp(rest_issues, expected, sizeof expected) == 0);
}

/* Places within the designation and behind the end, names that are too large or not set, a buffer
 * that is too small; a first number above 1, and a number too few. */
static void refuses_bookmarks(void)
{
    static uint32_t kept[ARIB_BOOKMARK_STORE];
    const uint8_t zeros[sizeof rest] = {0};
    memcpy(kept, bookmarks, sizeof kept);
    assert(sets(2, 3) == 16 && sets(9, 3) == 16 && sets(5, 16) == 15 && sets(2, 16) == 15);
    assert(returns(16, 16) == 15 && returns(2, 16) == 15 && returns(2, 9) == 15);
    assert(returns(3, 9) == 8 && rest_counts[1] == 0 && rest_counts[2] == 0);
    assert(memcmp(rest, zeros, 9) == 0 && memcmp(bookmarks, kept, sizeof kept) == 0);

    bookmarks[0] = 2;
    assert(sets(5, 3) == 15 && returns(3, 16) == 15 && memcmp(rest, zeros, 16) == 0);
    bookmarks[0] = 0;
    assert(memcmp(bookmarks, kept, sizeof kept) == 0 && returns(3, 16) == 0);
    uint32_t refused = arib_bookmark_set(cells, 8836, 0, 0, caption, sizeof caption, 5, 3,
                                         bookmarks, ARIB_BOOKMARK_STORE - 1, counts, 3);
    assert(refused == 15);
}

int main(int argc, char **argv)
{
    assert(argc == 2);
    read_cells(argv[1]);
    reads();
    places();
    counts_private_use();
    finds_an_escape();
    codes();
    keys();
    arranges();
    refuses_keys();
    asks();
    measures();
    allocates();
    catalogues();
    refuses_entries();
    refuses_catalogues();
    goes_back();
    refuses_bookmarks();
    return 0;
}
