/* ARIB eight-unit text: the calls of libtext.a, made by `./build text_c`.
 *
 * A slice goes as a pointer and a length, in elements. Lengths may be 0; pointers may not be null.
 * No two slices of a call may overlap. The calls keep nothing, allocate nothing, and may run at the
 * same time in several threads.
 *
 * Each call answers 0, or the number of the first question that it fails:
 *
 *    1  the cell table has not 8,836 numbers, or one from D800 to DFFF, or one that is not 0 in
 *       rows 9 to 15 or 85 to 94
 *    2  an option is neither 0 nor 1
 *    3  the input has more than 65,535 bytes, the text to code more than 7,281
 *    4  the text is not well-formed UTF-8: the place is that of the first faulty sequence
 *    5  a mark has no base after the last newline: the place is the mark's
 *    6  a character has no code: the place is the character's
 *    7  the store is too small
 *    8  the text or the coding is larger than its buffer; for a key, the text before removal
 *    9  the issues are more than their buffer holds
 *   10  a title does not read without issue, so it has no key
 *   11  a title's text has a private-use character, so it has no key
 *   12  the store of a catalogue has another length or form; or the number to add is present, or
 *       the number to remove absent
 *   13  the key to add to a catalogue has more than 255 bytes
 *   14  the catalogue to add to has 1,024 entries
 *   15  the name of a bookmark is above 15, or is not set when returning; or the store of bookmarks
 *       has another length, or a bookmark's first number above 1; or the numbers to go on from are
 *       none that a reading of the input can have
 *   16  at the place of a bookmark begins no step outside macro bodies, nor does the input end
 *       there; or more than sixteen marks wait there
 *
 * Refused or not, every element of every buffer is written: behind the result stand zeros, and
 * after a refusal zeros throughout. The stores of a catalogue and of bookmarks are not such
 * buffers: they are lent with what they hold, and a refusal leaves every element of them as it was.
 * `counts` gets as many of its numbers as it has room for, and what it has beyond them stays as it
 * was; after a refusal all but the place are 0.
 *
 * A private-use character is one from U+E000 to U+F8FF. Unicode gives it no shape, so that most
 * screens show a box. Some additional symbols are read as such, and a cell table may hold others.
 *
 * Stations arrange their controls differently. A coding of a text is admissible if it has the
 * text's characters, marks before their base, each by one of the codes that arib_encode has for it,
 * from a set then in GL or GR or single-shifted just before it, under the code's size; and anywhere
 * between characters and at either end designations, locking shifts, MSZ and NSZ. If the text
 * passes questions 1 to 6, every admissible coding of it within 65,535 bytes is read as the text,
 * with no issue and no charge, under the options and the cell table that it was coded with; so all
 * of them have one answer of arib_key at every length of its buffer, and are found together in a
 * catalogue.
 *
 * `cells` is the cell table, row by row, 0 for an empty cell: the file jis.tab, big-endian.
 * `initial` is 0 (SI) or 1 (captions), `width` 0 (by the size in effect) or 1 (Annex E.4).
 */
#ifndef ARIB_TEXT_H
#define ARIB_TEXT_H

#include <stddef.h>
#include <stdint.h>

#ifdef __cplusplus
extern "C" {
#endif

/* The numbers of an issue in their order, and how many they are. */
enum arib_issue {
    ARIB_ISSUE_OFFSET,            /* the byte of the input where the code begins; in a macro's body
                                   * that of the outermost call */
    ARIB_ISSUE_KIND,              /* one of enum arib_kind */
    ARIB_ISSUE_FIRST,             /* the two fields */
    ARIB_ISSUE_SECOND,
    ARIB_ISSUE_POSITION,          /* the bytes of text written before it */
    ARIB_ISSUE_NUMBERS
};

/* Kinds of issues, with the two fields of each; a field that is not named is 0. A code is in GL
 * form, two bytes as row + 0x20 and cell + 0x20; a set is one of enum arib_set. */
enum arib_kind {
    ARIB_UNKNOWN_ESCAPE = 1,      /* an escape that no table lists: start in the input, length */
    ARIB_UNDEFINED_CONTROL,       /* a control code that the tables leave blank: the code */
    ARIB_MALFORMED_CONTROL,       /* parameters that no table lists: the code */
    ARIB_TRUNCATED,               /* the input or a macro's body ends within a code or a macro's
                                   * definition, or a two-byte character's second byte is not in
                                   * the half of its first (24 A2) */
    ARIB_UNDEFINED_CODE,          /* blank in its set, U+FFFD stands for it: set, code */
    ARIB_UNSUPPORTED_CODE,        /* of a set that is not mapped, U+FFFD likewise: set, code */
    ARIB_DRCS,                    /* a character of DRCS-n, U+FFFD likewise: n, code */
    ARIB_MOSAIC,                  /* a mosaic, for which nothing stands: set, code */
    ARIB_UNDEFINED_MACRO,         /* a macro that has no body: the code */
    ARIB_MACRO_LIMIT,             /* a body that was not run: too deep, or over the budget */
    ARIB_LONE_SINGLE_SHIFT,       /* SS2 or SS3 before a byte that is no character */
    ARIB_DANGLING_NON_SPACING,    /* marks before a newline or the end: they stand alone */
    ARIB_REPEAT_TO_END_OF_LINE    /* RPC 04/0: the character stands once */
};

/* Graphic sets; DRCS-n is 16 + n. */
enum arib_set {
    ARIB_KANJI,
    ARIB_ALPHANUMERIC,
    ARIB_HIRAGANA,
    ARIB_KATAKANA,
    ARIB_MOSAIC_A,
    ARIB_MOSAIC_B,
    ARIB_MOSAIC_C,
    ARIB_MOSAIC_D,
    ARIB_PROPORTIONAL_ALPHANUMERIC,
    ARIB_PROPORTIONAL_HIRAGANA,
    ARIB_PROPORTIONAL_KATAKANA,
    ARIB_JIS_X0201_KATAKANA,
    ARIB_JIS_KANJI_PLANE1,
    ARIB_JIS_KANJI_PLANE2,
    ARIB_ADDITIONAL_SYMBOLS,
    ARIB_MACRO
};

/* The sizes of a catalogue. */
enum arib_catalogue {
    ARIB_CATALOGUE_BYTES = 266248,  /* of its store, whatever it holds */
    ARIB_CATALOGUE_ENTRIES = 1024,  /* at most */
    ARIB_CATALOGUE_KEY = 255        /* bytes of an entry's key, at most */
};

/* The numbers of a bookmark in their order, each 0 where there is none, and how many they are. */
enum arib_bookmark {
    ARIB_BOOKMARK_IS_SET,         /* 1 if it is set */
    ARIB_BOOKMARK_PLACE,          /* the byte of the input where it stands, or the input's length */
    ARIB_BOOKMARK_SETS,           /* in G0 to G3: four of enum arib_set */
    ARIB_BOOKMARK_GL = 6,         /* 0 to 3 for G0 to G3 */
    ARIB_BOOKMARK_GR,
    ARIB_BOOKMARK_NARROW,         /* 1 if the size is Small, Middle or SZX 60 */
    ARIB_BOOKMARK_REPEAT,         /* the repeat that waits */
    ARIB_BOOKMARK_WAITING,        /* how many marks wait */
    ARIB_BOOKMARK_WAITING_AT,     /* the offset of the first of them */
    ARIB_BOOKMARK_MARKS,          /* the marks: sixteen characters */
    ARIB_BOOKMARK_STARTS = 28,    /* by code, the bytes of the input where 128 macro bodies start,
                                   * each plus 1 */
    ARIB_BOOKMARK_LENGTHS = 156,  /* by code, the lengths of these bodies */
    ARIB_BOOKMARK_CHARGE = 284,   /* so far, as the next two */
    ARIB_BOOKMARK_TEXT,           /* bytes of text, waiting marks not counted */
    ARIB_BOOKMARK_ISSUES,
    ARIB_BOOKMARK_NUMBERS
};

/* The sizes of a store of bookmarks. */
enum arib_bookmarks {
    ARIB_BOOKMARKS = 16,          /* in it, by name from 0 on */
    ARIB_BOOKMARK_STORE = 4592    /* its numbers */
};

/* Decodes a string to UTF-8. counts: place, bytes of text, issues, charge (the bytes of the macro
 * bodies that ran), private-use characters of the text. Of these each repeat is counted; U+FFFD,
 * which stands for a code without a character, is none. A program that lends four counts gets the
 * first four. An issue is five numbers, offset, kind, two fields and position, so the buffer holds
 * a fifth of its length, rounded down; issues are in order of report. The position is the bytes of
 * text that were written when the issue was reported, before the U+FFFD or the marks that it
 * brings; marks that still waited for their character are not counted. So the text up to it is what
 * came before the issue, and cutting there never cuts a character. Positions never fall along the
 * list, and none exceeds the text's length. Questions 1, 2, 3, 8, 9. Takes at most some 14,000
 * bytes of stack on x86-64, by c/stack: macro bodies run four deep. */
uint32_t arib_decode(const uint16_t *cells, size_t cells_len, uint32_t initial, uint32_t width,
                     const uint8_t *input, size_t input_len, uint8_t *text, size_t text_len,
                     uint32_t *issues, size_t issues_len, size_t *counts, size_t counts_len);

/* The bytes of an unknown escape, by the fields of its issue, as a part of the input. part: start,
 * length. A start and length that leave the input get the empty part at its beginning. Answers the
 * part's length; puts no question. Takes less than 100 bytes of stack. */
size_t arib_unknown_escape(const uint8_t *input, size_t input_len, size_t start, size_t length,
                           size_t *part, size_t part_len);

/* Codes UTF-8. counts: place, bytes of the coding, gap: no admissible coding of the text is shorter
 * by more than the gap. A buffer of nine bytes a character always suffices. `store` is the search's
 * memory, all zero afterwards. A search has a layer for each character, and at each layer needs one
 * number for every state kept two or more layers back, and four for every state kept in the
 * previous layer or reached in this one. A title needs some thousands of numbers, a caption of
 * 7,000 bytes some two million. Questions 1 to 8 in this order. Takes at most some 63,000 bytes of
 * stack on x86-64, by c/stack. */
uint32_t arib_encode(const uint16_t *cells, size_t cells_len, uint32_t initial, uint32_t width,
                     const uint8_t *text, size_t text_len, uint32_t *store, size_t store_len,
                     uint8_t *coding, size_t coding_len, size_t *counts, size_t counts_len);

/* The key of a title: its text without newline, U+0020 and U+3000, the full-width forms of the 94
 * alphanumerics made half-width (U+FFE5 becomes U+00A5; U+FF3C stays, since backslash is not one of
 * the 94). counts: place, bytes of the key, charge. The buffer must hold the text before removal.
 * Questions 1, 2, 3, 8, 10, 11. Takes at most some 14,000 bytes of stack on x86-64, by c/stack. */
uint32_t arib_key(const uint16_t *cells, size_t cells_len, uint32_t initial, uint32_t width,
                  const uint8_t *input, size_t input_len, uint8_t *key, size_t key_len,
                  size_t *counts, size_t counts_len);

/* Whether a title reads without issue, that is, whether arib_decode with room enough counts no
 * issue; marks that wait at the very end are one. counts: place, 1 if the title is clean and 0 if
 * it is not. Stops at the first issue, however deep in macro bodies, and needs no buffers, since
 * neither text nor issues are kept. Questions 1, 2, 3. Takes at most some 14,000 bytes of stack, as
 * arib_decode does. */
uint32_t arib_clean(const uint16_t *cells, size_t cells_len, uint32_t initial, uint32_t width,
                    const uint8_t *input, size_t input_len, size_t *counts, size_t counts_len);

/* How much room a string takes: the first four counts of arib_decode in buffers that are large
 * enough. counts: place, bytes of text, issues, charge. In buffers of just those sizes,
 * ARIB_ISSUE_NUMBERS numbers an issue, arib_decode never answers 8 or 9; with a byte of text less
 * it answers 8, with an issue less 9, whatever remainder its buffer has. The bytes of text are also
 * what the buffer of arib_key must hold. Needs no buffers, since neither text nor issues are kept.
 * Questions 1, 2, 3. Takes at most some 14,000 bytes of stack, as arib_decode does. */
uint32_t arib_measure(const uint16_t *cells, size_t cells_len, uint32_t initial, uint32_t width,
                      const uint8_t *input, size_t input_len, size_t *counts, size_t counts_len);

/* A catalogue holds entries, each a number of the program's own and the key of a title, in a store
 * of ARIB_CATALOGUE_BYTES bytes that the program lends to each call. A new one is all zeros. Its
 * form, numbers big-endian: four bytes count the entries, four the distinct keys among them; then
 * come ARIB_CATALOGUE_ENTRIES places of 260 bytes, four of number, one of length and 255 of key,
 * any bytes. Entries stand first, by rising number, no two with one number, and all else is zero.
 * So what it holds decides every byte. The bytes can be kept in a file and lent again: each call
 * checks length and form first, the count of distinct keys included, and answers 12 before all
 * else where they are not right. While a call adds to a store or removes from it, no other call may
 * run over it. */

/* Adds a title under a number that no entry has. The buffer gets its key; it must hold the text
 * before removal, as that of arib_key. counts: place, bytes of the key, charge. Question 12 for the
 * store; then those of arib_key, 1, 2, 3, 8, 10, 11; then 12 for a number that is present, 13, 14.
 * Takes at most some 15,000 bytes of stack on x86-64, by c/stack. */
uint32_t arib_catalogue_add(const uint16_t *cells, size_t cells_len, uint32_t initial,
                            uint32_t width, const uint8_t *title, size_t title_len,
                            uint32_t number, uint8_t *store, size_t store_len, uint8_t *key,
                            size_t key_len, size_t *counts, size_t counts_len);

/* Removes the entry of a number. Question 12 for the store, then 12 for a number that is absent.
 * Takes at most some 11,000 bytes of stack on x86-64, by c/stack. */
uint32_t arib_catalogue_remove(uint8_t *store, size_t store_len, uint32_t number);

/* Finds the entries that have a key: of any bytes and any length, though none has one of more than
 * ARIB_CATALOGUE_KEY bytes. counts: place, how many have it, the smallest of their numbers; both
 * are 0 if none has. Question 12 for the store. Takes at most some 11,000 bytes of stack on x86-64,
 * by c/stack. */
uint32_t arib_catalogue_find(const uint8_t *store, size_t store_len, const uint8_t *key,
                             size_t key_len, size_t *counts, size_t counts_len);

/* A bookmark is a place of an input, named 0 to 15, with what a reading has there, so that it can
 * go on from it. Sixteen stand in a store of ARIB_BOOKMARK_STORE numbers that the program lends to
 * each call, ARIB_BOOKMARK_NUMBERS a name; all zeros is a store where none is set. The numbers can
 * be kept and lent again. While a call sets a bookmark in a store, no other call may run over it.
 *
 * A bookmark goes with the input, the options and the cell table that it was set with. With others,
 * or with numbers that were changed, the result is undecided but safe: the call answers 15 where
 * the numbers are none that a reading of this input can have (the place or a macro body outside the
 * input, a body with 95 4F in it, a set above 31, an element above 3, a repeat above 63, a charge
 * above 64 for each byte of the input and 4,096, a mark that is none, a text of 2^31 bytes or
 * more), and else goes on from what they say. */

/* Sets a bookmark, instead of one that has the name. It stands where a step begins (a code with
 * its parameters, a macro's definition with its body), outside macro bodies, or at the input's end.
 * Reads from the start to there with the whole input in view, so that the steps before it are those
 * of the whole reading; needs no buffers. counts: place, of a refusal, always 0. Questions 1, 2, 3,
 * 15, 16. Takes at most some 14,000 bytes of stack on x86-64, by c/stack. */
uint32_t arib_bookmark_set(const uint16_t *cells, size_t cells_len, uint32_t initial,
                           uint32_t width, const uint8_t *input, size_t input_len, size_t place,
                           uint32_t name, uint32_t *store, size_t store_len, size_t *counts,
                           size_t counts_len);

/* Returns to a bookmark: decodes the rest of the input. counts: as arib_decode, of the rest, but
 * for the charge, which is that of the whole reading. An issue is as arib_decode gives it: its
 * offset is a byte of the whole input, its position a byte of the whole text. So the text before
 * the bookmark, ARIB_BOOKMARK_TEXT bytes, and the rest are what arib_decode gives, and likewise the
 * issues. Marks that wait at the bookmark stand in the rest, behind their base; buffers in which
 * the whole fits hold it. The store is not written. Questions 1, 2, 3, 15, 8, 9 in this order.
 * Takes at most some 14,000 bytes of stack on x86-64, by c/stack. */
uint32_t arib_bookmark_return(const uint16_t *cells, size_t cells_len, uint32_t initial,
                              uint32_t width, const uint8_t *input, size_t input_len,
                              uint32_t name, const uint32_t *store, size_t store_len,
                              uint8_t *text, size_t text_len, uint32_t *issues, size_t issues_len,
                              size_t *counts, size_t counts_len);

#ifdef __cplusplus
}
#endif

#endif
