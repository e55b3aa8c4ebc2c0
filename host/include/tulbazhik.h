/* Tulbazhik's proved functions for C (C11 or C++11): lexing, feeding, reading and printing of ISLE rule files, and the settings of
   a project. Link libtulbazhik_lex.a (next_token), libtulbazhik_feed.a (fresh, feed, close), libtulbazhik_trees.a (read, print),
   libtulbazhik_windows.a (fill) and libtulbazhik_settings.a (edition, width, style, write_width, write_style), as many of them
   as are used; host/archives writes each for x86-64, into target/staticlib.

   Each function is proved to meet its contract on every input, to stay within what it is lent, and to return. No pointer is
   checked, so these are the caller's duties:
   - no pointer is null, not even with the length 0: pass the address of anything for an empty source, piece, table, file or room;
   - each one has as many bytes behind it as its length says, or one whole answer or state;
   - memory that a function writes overlaps nothing else that it is lent, and nobody else touches it during the call;
   - TULBAZHIK_STACK bytes of stack are free.
   There is no other duty: any bytes, places, widths and states are answered. No function allocates or keeps anything, and
   calls with memory of their own may run at once. */
#ifndef TULBAZHIK_H
#define TULBAZHIK_H
#include <stddef.h>
#include <stdint.h>

/* MAJOR grows when something changes that a caller relies on, MINOR when something is added. */
#define TULBAZHIK_VERSION_MAJOR 4
#define TULBAZHIK_VERSION_MINOR 0

/* Bytes of a source; bytes of a table, enough for the table of any source; bytes of a settings file; lists and bindings open at
   once. */
#define TULBAZHIK_SOURCE_LIMIT 1048576
#define TULBAZHIK_TABLE_LIMIT 16777216
#define TULBAZHIK_SETTINGS_LIMIT 65536
#define TULBAZHIK_DEPTH_LIMIT 64

/* Bytes of stack that no call exceeds, at 64 levels of nesting. It is measured, not proved: host/check paints a stack,
   makes the calls, looks how far down it was touched, and says how much that was: 20,000 bytes when this was written. */
#define TULBAZHIK_STACK 65536

#if defined(__GNUC__)
#define TULBAZHIK_NONNULL __attribute__((nonnull))
#else
#define TULBAZHIK_NONNULL
#endif

#ifdef __cplusplus
extern "C" {
#endif

/* What every function answers: eight words. What an answer's kind does not name below is 0. */
typedef struct tulbazhik_answer {
    uint64_t kind;
    union {
        uint64_t start; /* of a token, in the source */
        uint64_t place; /* of a refusal; for 14 and 18 the bytes needed; of a style name, in its file */
    };
    union {
        uint64_t length; /* of a token; of what was written into a room; of a style name */
        uint64_t number; /* of a refusal */
    };
    uint64_t high, low; /* an integer in two's complement, its high and its low 64 bits; an edition or a width is low */
    uint64_t used;      /* bytes consumed of a piece */
    uint64_t looked;    /* lists whose cost the fits test of a print looked at */
    uint64_t side;      /* of a setting: whose file it is from, or which file is at fault; below */
} tulbazhik_answer;

/* The kinds of an answer, and the fields that each has. */
enum {
    TULBAZHIK_END = 0,     /* the source's end; from tulbazhik_fill the text's, with looked */
    TULBAZHIK_LPAREN = 1,  /* start, length; from a feed also used, as with every token, refusal and MORE */
    TULBAZHIK_RPAREN = 2,  /* start, length */
    TULBAZHIK_AT = 3,      /* start, length */
    TULBAZHIK_SYMBOL = 4,  /* start, length */
    TULBAZHIK_INT = 5,     /* start, length (of the whole spelling), high, low */
    TULBAZHIK_REFUSED = 6, /* place, number; from a look-up of a setting also side */
    TULBAZHIK_MORE = 7,    /* the whole piece was consumed and no token is ready */
    TULBAZHIK_DONE = 8     /* length: a table, a text, the next part of one or the copy of a settings file was written, so many
                              bytes; from tulbazhik_print also looked. From tulbazhik_edition and tulbazhik_width low and
                              side, from tulbazhik_style place, length and side */
};

/* The side of a look-up's answer; 0 in every other. */
enum {
    TULBAZHIK_PROJECT = 1, /* the project's settings file */
    TULBAZHIK_HOUSE = 2,   /* the house's */
    TULBAZHIK_NEITHER = 3  /* the setting is in neither file: with NOT_SET alone */
};

/* The numbers of refusals, and the place that each names. No refusal changes a byte of a room. The number 17 is retired (document
   02, 6/12): it is never given, and will not be used again. */
enum {
    TULBAZHIK_TOO_LONG = 1,         /* source, table, feed or settings file too long; its limit */
    TULBAZHIK_PAST_SOURCE = 2,      /* the start is past the source; the source's length */
    TULBAZHIK_FORM_FEED = 3,        /* a form feed where a token should start; its byte */
    TULBAZHIK_OPEN_COMMENT = 4,     /* a block comment open at the end; the outermost `(;` */
    TULBAZHIK_NO_DIGITS = 5,        /* a literal without digits; the literal */
    TULBAZHIK_FOREIGN_DIGIT = 6,    /* a digit foreign to the radix; that digit */
    TULBAZHIK_TOO_LARGE = 7,        /* above 2^128-1; the digit that takes it there */
    TULBAZHIK_MINUS_LOWEST = 8,     /* `-` with 2^127; the literal */
    TULBAZHIK_NO_LIST_OPEN = 9,     /* `)` with no list open; it */
    TULBAZHIK_LIST_OPEN = 10,       /* a list open at the end; the innermost open `(` */
    TULBAZHIK_NO_SYMBOL = 11,       /* `@` with no symbol before it; it */
    TULBAZHIK_NO_TREE = 12,         /* `)` or the end after a binding's `@`; it, or the source's length */
    TULBAZHIK_TOO_DEEP = 13,        /* the 65th list or binding open; `(` or name, or record */
    TULBAZHIK_TABLE_ROOM = 14,      /* the table needs more room; the bytes needed */
    TULBAZHIK_BAD_RECORD = 15,      /* a record cut short, or its length below 6 or past the table; the record */
    TULBAZHIK_BAD_SYMBOL = 16,      /* a symbol or name that the lexer would not read as one; the record */
    TULBAZHIK_PRINT_ROOM = 18,      /* the print, or the copy of a settings file, needs more room; the bytes needed */
    TULBAZHIK_FED_AFTER_CLOSE = 19, /* fed after a close; the bytes consumed so far */
    TULBAZHIK_UNKNOWN_KIND = 20,    /* a record of unknown kind; the record */
    TULBAZHIK_WRONG_LENGTH = 21,    /* a record's length is wrong for its kind; the record */
    TULBAZHIK_MISSING_TREES = 22,   /* trees are missing; the table's length */
    TULBAZHIK_BAD_SETTINGS = 23,    /* a bad settings file; the first bad record or second of its kind, 0 if no edition is first */
    TULBAZHIK_NOT_SET = 24,         /* a setting is in neither settings file; 0 */
    TULBAZHIK_WRONG_COST = 25,      /* a list stores a wrong cost; the record, an outer list's before those inside it */
    TULBAZHIK_BAD_STYLE_NAME = 26   /* a style name not of 1 to 32 bytes; its length */
};

/* A table is records one after another: the nodes of each tree in preorder, all numbers little-endian.

   bytes 0 to 3   the length of the whole record
   bytes 4 and 5  the kind
   from byte 6    the payload:

   kind     length  payload                                             what follows
   SYMBOL   6 + n   its n bytes, at least one
   INTEGER  22      16 bytes, two's complement
   BINDING  6 + n   the name's n bytes                                  its tree
   LIST     14      the item count, then the list's cost, 4 bytes each  the items, so many trees

   The cost of a symbol or an integer is the length of its text, that of a binding its name's length, 3 and its tree's cost, that of
   a list its item count, 1 and its items' costs. tulbazhik_read stores it with each list; a table made or changed by hand has to
   store it too, for a list with another number there is refused (25).
   Up to version 3 a list was a record of kind 4 and length 10, without its cost. Kind 4 is unknown now, so a table of that time is
   refused at its first list (20): make it anew by reading its source again; where that is gone, what version 3 prints of the table
   is such a source. A table without lists is the same in both. */
enum {
    TULBAZHIK_RECORD_SYMBOL = 1,
    TULBAZHIK_RECORD_INTEGER = 2,
    TULBAZHIK_RECORD_BINDING = 3,
    TULBAZHIK_RECORD_LIST = 5
};

/* A settings file is records of the same form, TULBAZHIK_SETTINGS_LIMIT bytes at most in all:

   kind                  length      payload
   EDITION               8           2 bytes, the edition: the first record, and never absent
   WIDTH                 10          4 bytes, the width
   STYLE                 6 + n       the style name, 1 to 32 bytes of any value
   from SKIPPED up       6 and more  skipped, whatever the edition

   Other kinds are refused. Each kind, skipped ones too, is there at most once. */
enum {
    TULBAZHIK_SETTING_EDITION = 1,
    TULBAZHIK_SETTING_WIDTH = 2,
    TULBAZHIK_SETTING_STYLE = 3,
    TULBAZHIK_SETTING_SKIPPED = 32768
};

/* What a feeder keeps between two calls: plain data, which may be copied and stored. Zeros are the fresh state,
   and word[1] is the bytes consumed so far. */
typedef struct tulbazhik_state {
    uint64_t word[8];
} tulbazhik_state;

/* What a print through windows keeps between two calls: plain data, which may be copied and stored. Zeros are the fresh state.
   What the words say is the library's own, and may be another thing in another version: a print goes on in the one that it
   began in. */
typedef struct tulbazhik_print_state {
    uint64_t word[72];
} tulbazhik_print_state;

/* The next token of a source from the place `at` on, END, or REFUSED. */
void tulbazhik_next_token(const uint8_t *source, size_t length, size_t at, tulbazhik_answer *answer) TULBAZHIK_NONNULL;

/* The state before the first byte. */
void tulbazhik_fresh(tulbazhik_state *state) TULBAZHIK_NONNULL;

/* A piece of the source: a token, MORE, or REFUSED. What is left of the piece after `used` bytes is fed again. After a token
   there may be more in the piece; MORE says that all of it was consumed. The state becomes the new state, after a refusal too. */
void tulbazhik_feed(tulbazhik_state *state, const uint8_t *piece, size_t length, tulbazhik_answer *answer) TULBAZHIK_NONNULL;

/* The source's end: the token that was held, then END; or REFUSED. */
void tulbazhik_close(tulbazhik_state *state, tulbazhik_answer *answer) TULBAZHIK_NONNULL;

/* The trees of a source as a table in `table`: DONE, or REFUSED. Bytes of the room after the table stay as they were. */
void tulbazhik_read(const uint8_t *source, size_t length, uint8_t *table, size_t room, tulbazhik_answer *answer)
    TULBAZHIK_NONNULL;

/* A table laid out at a width as a text in `text`: DONE, or REFUSED: for the table's length (1), for the first record that is at
   fault (15, 20, 21, 13 or 16) or for missing trees (22), then for the first list that stores a wrong cost (25), then for want of
   room (18). Bytes of the room after the text stay as they were.
   Integers are decimal, but for -2^127: it is `0x8` and 31 zeros, for no spelling with a minus is read as it.
   With DONE, `looked` is how many lists the fits test looked at. A list is tested, an empty one too, unless it is inside one that
   fitted; a test looks at the cost that the list stores, or at nothing if the column is past the width. So the number is at most
   that of the lists in the table, however deep they stand. */
void tulbazhik_print(const uint8_t *table, size_t length, uint32_t width, uint8_t *text, size_t room,
                     tulbazhik_answer *answer) TULBAZHIK_NONNULL;

/* The text that tulbazhik_print would write, through a window of any length: DONE with as many of the next bytes as the window
   holds or as are left, whichever is fewer; END at the first call with none left and at each later one; or REFUSED. While bytes
   are left, a window of length 0 gets DONE with 0 bytes and moves nothing. The windows joined, whatever their lengths, are the
   text. Bytes of the window after those written stay as they were. With END, then and at each later call, `looked` is the number
   that tulbazhik_print would give.
   The first call, with the fresh state, refuses what tulbazhik_print does but for want of room (18), and no later one refuses;
   a refused call changes neither the state nor the window. The table and the width stay the same from the first call to the
   last. If they do not, or if no earlier call gave the state, then what is answered and written is left open; but the call
   ends, writes in the window alone, and says no more than the window holds. */
void tulbazhik_fill(const uint8_t *table, size_t length, uint32_t width, tulbazhik_print_state *state, uint8_t *window,
                    size_t room, tulbazhik_answer *answer) TULBAZHIK_NONNULL;

/* Looking a setting up: the project's if it is set there, else the house's. Both files are checked whole at each call, all of the
   project's before the house's: DONE, or REFUSED for the file that `side` names (1 or 23), or for neither (24).
   A project that has no file passes the house's in both places. An empty file is not that: it has no edition and is refused.
   With DONE, tulbazhik_edition and tulbazhik_width give a number in `low`, and tulbazhik_style says where the name stands:
   `length` bytes from `place` on, in the file that `side` names. */
void tulbazhik_edition(const uint8_t *project, size_t project_length, const uint8_t *house, size_t house_length,
                       tulbazhik_answer *answer) TULBAZHIK_NONNULL;
void tulbazhik_width(const uint8_t *project, size_t project_length, const uint8_t *house, size_t house_length,
                     tulbazhik_answer *answer) TULBAZHIK_NONNULL;
void tulbazhik_style(const uint8_t *project, size_t project_length, const uint8_t *house, size_t house_length,
                     tulbazhik_answer *answer) TULBAZHIK_NONNULL;

/* Writing a width or a style name: a copy of a settings file in `copy`, with that record replaced in its place or added at the
   end; every other record keeps its bytes. DONE with the copy's length, or REFUSED: for the file (1 or 23), for the name (26), for
   a copy above the limit (1), then for want of room (18). Bytes of the room after the copy stay as they were. */
void tulbazhik_write_width(const uint8_t *file, size_t length, uint32_t width, uint8_t *copy, size_t room,
                           tulbazhik_answer *answer) TULBAZHIK_NONNULL;
void tulbazhik_write_style(const uint8_t *file, size_t length, const uint8_t *name, size_t name_length, uint8_t *copy,
                           size_t room, tulbazhik_answer *answer) TULBAZHIK_NONNULL;

#ifdef __cplusplus
}
#endif
#endif
