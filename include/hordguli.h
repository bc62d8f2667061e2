/* hordguli: lay out bidirectional text in lines
 *
 * Lays out bidirectional text in lines of a given width (UAX #9, UAX #14). A session holds a text and its layout, and
 * keeps the layout up to date when the text is edited or the width changes. Each edit reports which lines it replaced.
 * The exact rules and limits are in share/doc/hordguli/reference.md, below the installation prefix. guide.md in the
 * same folder explains the terms and has example programs.
 *
 * ROUTES
 *
 * Each route starts by opening tables (`hordguli_tables_open_builtin`). The first calls after that are, for
 *   - one string: `hordguli_layout`
 *   - a text that is edited or resized: `hordguli_session_open`, `hordguli_insert`, `hordguli_set_width`,
 *     `hordguli_lines_utf8`
 *   - an editor: the same calls, and those listed in `Carets and edges`
 *   - text in any font: `hordguli_session_open_measured`, `hordguli_set_advances`
 *   - rows that the caller breaks, as in a terminal: `hordguli_decode`, `hordguli_base`, `hordguli_levels`,
 *     `hordguli_row`
 *   - levels, break marks or character properties: `hordguli_levels`, `hordguli_marks`, `hordguli_properties`
 *   - why a character has its level or break mark: `hordguli_reasons`, `hordguli_break_reasons`
 *
 * UNITS
 *
 * A character is a Unicode scalar value. Positions and lengths are in characters. Lengths of `char` arrays are in
 * bytes. Positions, lines, paragraphs and columns are numbered from 0. Text in `char` arrays is UTF-8,
 * without a NUL terminator. U+0000 is an ordinary character.
 *
 * PARAGRAPHS AND LINES
 *
 * A paragraph ends after a separator: U+000A, U+000D, U+001C to U+001E, U+0085 or U+2029. The pair U+000D U+000A is one
 * separator. A separator at the end of the text starts no new paragraph. An empty text has no paragraphs and no lines.
 *
 * A line ends at the end of its paragraph, after U+000B, U+000C or U+2028, or at a break opportunity
 * (UAX #14). If none of these fits the width, the line ends inside a word, at the last grapheme cluster
 * boundary that fits. If no such boundary fits either, the line ends at the first boundary, and is wider than
 * the width. The characters after this boundary go to the next line, even if only a separator is left: at
 * width 5, an emoji family of 6 columns and U+000A are two lines.
 *
 * The tail of a line is all U+0020, U+000A to U+000D, U+0085, U+2028 and U+2029 at its end. The tail is not shown. The
 * rest of the line is its shown part, to which HORDGULI_SHOW_SPACES adds spaces from the tail.
 *
 * COLUMNS
 *
 * A column is a terminal cell. The width of a line, in columns, is the sum of the widths of its shown
 * characters. Some terminals draw a grapheme cluster, such as an emoji family, narrower than this sum. Widths
 * follow Unicode 18.0. Characters of ambiguous East Asian width have width 1. Control characters have width 0
 * and are written unchanged. This includes tabs, unless HORDGULI_TAB_WIDTH is set. A program that writes to a
 * terminal must remove control characters from the output, or replace them in the text before it is laid out.
 *
 * MEASURED TEXT
 *
 * A measured session (`hordguli_session_open_measured`) lays out text in any font. Each character has an advance, in a
 * unit that the caller chooses, such as 1/64 pixel. The width of the session, and all columns, spans and widths of its
 * lines, are in this unit. A measured session differs from other sessions as follows:
 *   - An inserted character has advance 0 until `hordguli_set_advances` sets it. All other characters keep
 *     their advances, even if an edit joins or splits paragraphs.
 *   - The advances of a paragraph add up to at most 4,294,967,295. A call that would exceed this sum returns
 *     PARAGRAPH_TOO_LONG.
 *   - With HORDGULI_TAB_WIDTH, a tab moves to the next multiple of its own advance, or stays where it is if its advance
 *     is 0. The tab is written unchanged.
 *   - Lines are written without padding. `hordguli_line` stores the padding that a right-aligned line needs.
 *
 * For a ligature, or another glyph for several characters, set the advance of the first character to that of
 * the glyph, and the others to 0. Alternatively, divide the advance among the characters, so that a caret can
 * be inside a ligature of several grapheme clusters.
 *
 * ERRORS
 *
 * A function that can fail returns a status. HORDGULI_OK is 0. A call with any other status has changed
 * nothing, not even output parameters, unless documented otherwise.
 *
 * `Errors` lists the other statuses of a function, without `HORDGULI_`, in the order in which they are checked. The
 * first that applies is returned. NO_MEMORY comes last, unless documented otherwise. A function that does not list
 * NO_MEMORY allocates nothing. `Cost` is the running time and, where stated, the memory, for a session of n
 * paragraphs.
 *
 * POINTERS
 *
 * A pointer may be NULL if the function allows it, or if the length or capacity of its array is 0. The arrays, output
 * parameters and handles of a call must not overlap, but input arrays may overlap each other. An array of more than
 * PTRDIFF_MAX bytes counts as overlapping. The library cannot check the following:
 *   - A non-NULL pointer must point to as many elements as the length or capacity passed with it.
 *   - A handle must be initialized with `HORDGULI_TABLES_INIT` or `HORDGULI_SESSION_INIT`, and must not be copied.
 *     Between calls it may be moved, as `realloc` moves an array of handles.
 *
 * BUFFERS
 *
 * A function with a parameter `capacity` writes to the caller's arrays. What a NULL array means depends on the
 * function:
 *   - `hordguli_layout`, `hordguli_lines_utf8`, `hordguli_text`, `hordguli_text_utf32`, `hordguli_runs`,
 *     `hordguli_row_runs`, `hordguli_spans`, `hordguli_line_clusters`, `hordguli_clusters` and `hordguli_script_runs`
 *     write one array, and store its size in their last parameter. If the array is too small, they return NO_ROOM,
 *     leave it unchanged, and store the required size. So a call with NULL and capacity 0 requests the size.
 *   - `hordguli_line`, `hordguli_paragraph`, `hordguli_row` and `hordguli_decode` write several arrays. They
 *     skip arrays that are NULL. If any other array is too small, they return NO_ROOM. If all arrays are
 *     NULL, the call succeeds with any capacity. On success and on NO_ROOM, `hordguli_line` and
 *     `hordguli_paragraph` store the size in `*info`, and `hordguli_decode` stores it in `*count`.
 *   - `hordguli_levels`, `hordguli_marks`, `hordguli_reasons` and `hordguli_break_reasons` need an array of
 *     `count` elements. NULL returns NO_ROOM, unless `count` is 0.
 *
 * Call a function of the first kind in a loop, until the buffer is large enough. Start with a NULL buffer, and keep the
 * buffer and its capacity for the next call.
 *
 *     while ((status = hordguli_text(&session, pos, count, capacity, buffer, &length)) == HORDGULI_NO_ROOM) {
 *         char *larger = realloc(buffer, length);
 *         if (larger == NULL) break;
 *         buffer = larger;
 *         capacity = length;
 *     }
 *
 * If there was nothing to write, `buffer` may still be NULL. In that case, do not pass it to functions such
 * as `fwrite`.
 *
 * THREADS, SIGNALS AND FORK
 *
 *   - Use a handle in one call at a time, even if the calls only read. Every call moves the object out of its
 *     handle and back, as the proof of the library requires. So no function takes a `const` handle.
 *   - Different handles may be used in different threads at the same time. Sessions and tables share only memory that
 *     is never written, and an atomic reference count.
 *   - The same handle may be used in different threads, one after another. Hand it over with a lock, through
 *     a queue, or by creating or joining a thread. For example, one thread may open a session on a long text,
 *     and another may edit and close it. No call depends on the thread that makes it: the library has no
 *     global or thread-local variables.
 *   - Do not call the library from a signal handler that can interrupt the library or malloc.
 *   - After `fork`, the child has its own copies of all handles. The child must not use a handle that another
 *     thread was using during the fork.
 *
 * MEMORY
 *
 * Memory is managed with malloc, realloc and free. After a call, the library keeps no pointers to the
 * caller's memory. It writes to no stream, calls no callbacks, and has no state outside its handles. The
 * strings it returns are static; do not free them.
 *
 * A session keeps 0.1 KB for itself, 0.5 KB for each paragraph, 12 bytes for each further line of a
 * paragraph, and 19 bytes for each character. From its first edit on, it also keeps buffers: 5 KB, and up to
 * 26 bytes for each character of its longest paragraph. Opening a session uses buffers that the tables'
 * handle keeps. Tables keep 112 KB, which their sessions share. These numbers were measured with
 * `bench/memory` in the sources and glibc's malloc. */
#ifndef HORDGULI_H
#define HORDGULI_H

#include <stddef.h>
#include <stdint.h>

#ifdef __cplusplus
extern "C" {
#endif

/* ---- Statuses ---- */

/* The result of a call. The numbers never change. */
typedef int32_t hordguli_status;

/* Success. */
#define HORDGULI_OK 0
/* A position, range, line or paragraph is past the end, or a level or a count is too large. */
#define HORDGULI_OUT_OF_RANGE 1
/* The width is 0 or greater than 65,535; for a measured session, greater than 2,147,483,647. */
#define HORDGULI_WIDTH_OUT_OF_RANGE 2
/* The text would have more than 16,777,216 characters. */
#define HORDGULI_TEXT_TOO_LONG 3
/* A paragraph would have more than 1,048,576 characters, or its advances would add up to more than 4,294,967,295. */
#define HORDGULI_PARAGRAPH_TOO_LONG 4
/* Out of memory. */
#define HORDGULI_NO_MEMORY 5
/* A table file or an image is malformed. `*fault` receives the file (HORDGULI_IMAGE for an image), the line
 * and the cause. */
#define HORDGULI_TABLE_FAULT 6
/* The text is not valid UTF-8. Call `hordguli_valid_utf8` to find the first invalid byte. */
#define HORDGULI_NOT_UTF8 7
/* A number is not a Unicode scalar value. */
#define HORDGULI_NOT_A_CHARACTER 8
/* The handle is closed. */
#define HORDGULI_CLOSED 9
/* The handle to open is already open. */
#define HORDGULI_ALREADY_OPEN 10
/* An option, print flag, side, direction or Unicode version is unknown or not accepted by the function. */
#define HORDGULI_UNKNOWN_OPTION 11
/* The capacity is too small (see BUFFERS). */
#define HORDGULI_NO_ROOM 12
/* A required pointer is NULL. */
#define HORDGULI_NULL 13
/* Arrays, output parameters or handles overlap. */
#define HORDGULI_OVERLAP 14
/* A table file cannot be read. `*fault` receives the file's index, and `errno` is set to the error. */
#define HORDGULI_UNREAD_FILE 15
/* The session is not measured. Since 0.6. */
#define HORDGULI_NOT_MEASURED 16

/* Returns a short English description of a status, or "unknown status" for any other number. */
const char *hordguli_status_text(hordguli_status status);

/* ---- Version ---- */

/* The version of this header. A release that adds functions, options or statuses raises the minor version.
 * `Since` gives the first version that has the function, option or status. A program can test for the
 * functions of 0.6:
 *
 *     #if HORDGULI_VERSION_MAJOR > 0 || HORDGULI_VERSION_MINOR >= 6 */
#define HORDGULI_VERSION_MAJOR 0
#define HORDGULI_VERSION_MINOR 6
#define HORDGULI_VERSION_PATCH 0

/* Returns the version of the library, such as "0.6.0". */
const char *hordguli_version(void);

/* Returns "15.0", the Unicode version of tables that `hordguli_tables_open_builtin`, `hordguli_tables_open_folder` and
 * `hordguli_tables_read` open. */
const char *hordguli_unicode_version(void);

/* Returns the Unicode version of column widths, grapheme clusters and scripts, such as "18.0". This version
 * is fixed in the library, and does not depend on the tables.
 * Since: 0.6. */
const char *hordguli_width_unicode_version(void);

/* ---- Session options ----
 *
 * Options are one base direction and any of the other options, combined by bitwise OR (`|`). If two different
 * directions are combined, calls fail with UNKNOWN_OPTION. Without a direction, HORDGULI_WEAK_LTR applies.
 * `hordguli_row`, `hordguli_marks` and `hordguli_break_reasons` accept no direction.
 *
 * Bits 0 and 1 encode the direction. So that combined directions can be detected, the constants also set bit
 * 24 if bit 0 is 0, and bit 25 if bit 1 is 0. Bits 24 and 25 may be left out, so the numbers 0 to 3 are
 * directions too. Bits 16 to 23 are reserved. */

/* The direction of a paragraph's first strong character, or LTR if there is none. */
#define HORDGULI_WEAK_LTR UINT32_C(0x3000000)
/* The direction of a paragraph's first strong character, or RTL if there is none. */
#define HORDGULI_WEAK_RTL UINT32_C(0x2000001)
/* All paragraphs are left-to-right. */
#define HORDGULI_LTR UINT32_C(0x1000002)
/* All paragraphs are right-to-left. */
#define HORDGULI_RTL UINT32_C(0x0000003)
/* Ends lines at mandatory breaks only. */
#define HORDGULI_NOBREAK UINT32_C(4)
/* Puts nonspacing marks at odd levels after their base in visual order (UAX #9, L3). Use this option if the terminal
 * draws a mark onto the cell to its left. For example, RTL text `A mark B` is written as `B mark A` by default, so such
 * a terminal draws the mark on B. With this option, it is written as `B A mark`. */
#define HORDGULI_REORDER_NSM UINT32_C(8)
/* Does not break inside a number, such as `$(1,200)`. This option replaces LB25 (UAX #14): there is no break
 * inside a match of `(PR|PO)? (OP|HY)? NU (NU|SY|IS)* (CL|CP)? (PR|PO)?`. The option has no effect with
 * tables of Unicode 17.0. */
#define HORDGULI_WHOLE_NUMBERS UINT32_C(16)
/* Keeps adjacent characters of a grapheme cluster at the same odd level in logical order. By default they are
 * reversed, as is all RTL text. Use this option if the terminal draws each cluster, such as an emoji family,
 * a flag or a letter with marks, as a unit. HORDGULI_REORDER_NSM then has no effect. For example, RLO `man
 * ZWJ woman` is written as RLO `woman ZWJ man` by default, which no terminal draws as one emoji. For a
 * terminal that draws marks in the cell of their base, but does not join emoji sequences, choose
 * HORDGULI_REORDER_NSM instead. Since 0.6. */
#define HORDGULI_REORDER_CLUSTERS UINT32_C(32)
/* Shows the spaces at the start of a line's tail, as many as fit in the width. They then belong to the shown
 * part, also for carets, hits and spans. Lines end at the same places as without this option. A line that is
 * wider than the width shows none of these spaces, even with HORDGULI_NOBREAK. In RTL paragraphs, the spaces
 * are to the left of the text. Since 0.6. */
#define HORDGULI_SHOW_SPACES UINT32_C(64)
/* Sets a tab stop every `n` columns. `n` is from 1 to 255. Columns are counted along each line in logical
 * order. A tab (U+0009, if its bidi class is S) moves to the next stop, so it is 1 to `n` columns wide, and
 * is written as spaces. In an RTL paragraph, stops are counted from the right edge. A tab is not in the tail.
 * A tab that is wider than the width gets a line of its own. If `n` is greater than 255, calls fail with
 * UNKNOWN_OPTION. The macro evaluates `n` twice. In a measured session, each tab has its own stops (see
 * MEASURED TEXT). Since 0.6. */
#define HORDGULI_TAB_WIDTH(n) ((uint32_t)(n) > 255 ? UINT32_C(1) << 16 : (uint32_t)(n) << 8)
/* Ends paragraphs only at LF, CR and CRLF, where LSP, Git and most editors end lines. U+001C to U+001E,
 * U+0085 and U+2029 are treated as bidi class S (segment separator) if they have class B in the tables.
 * U+0085 and U+2029 still end lines, not paragraphs, as do VT, FF and U+2028. Each function with `options` or
 * `direction` accepts this option. It does not change the results of `hordguli_row`, `hordguli_marks` or
 * `hordguli_break_reasons`. Since 0.6. */
#define HORDGULI_LINE_SEPARATORS UINT32_C(0x4000000)

/* ---- Print flags ----
 *
 * Flags that select what `hordguli_lines_utf8` and `hordguli_layout` write for each line. Combine them with `|`. */

/* The shown part in visual order. */
#define HORDGULI_PRINT_VISUAL UINT32_C(1)
/* `LTR` or `RTL`, after the first line of each paragraph. */
#define HORDGULI_PRINT_BASEDIR UINT32_C(2)
/* The visual position of each logical position. */
#define HORDGULI_PRINT_LTOV UINT32_C(4)
/* The logical position of each visual position. */
#define HORDGULI_PRINT_VTOL UINT32_C(8)
/* The level of each character after L1, in logical order. */
#define HORDGULI_PRINT_LEVELS UINT32_C(16)
/* Pads visual lines of RTL paragraphs with spaces on the left, up to the width. Measured text is not padded. */
#define HORDGULI_PRINT_PADDED UINT32_C(32)
/* Mirrors characters at odd levels in visual lines (UAX #9, L4). */
#define HORDGULI_PRINT_MIRRORED UINT32_C(64)
/* Visual order, mirrored, with RTL lines on the right, as the command `fribidi` prints by default. */
#define HORDGULI_PRINT_DEFAULT (HORDGULI_PRINT_VISUAL | HORDGULI_PRINT_PADDED | HORDGULI_PRINT_MIRRORED)

/* ---- Break marks ---- */

/* No line ends after the character. */
#define HORDGULI_BREAK_NEVER 0
/* A line may end after the character. */
#define HORDGULI_BREAK_MAY 1
/* A line must end after the character. */
#define HORDGULI_BREAK_MUST 2

/* ---- Handles ----
 *
 * The member `at` is private. */

typedef struct hordguli_tables {
    void *at;
} hordguli_tables;

typedef struct hordguli_session {
    void *at;
} hordguli_session;

/* Initializers for handles. An initialized handle is closed. */
#define HORDGULI_TABLES_INIT { NULL }
#define HORDGULI_SESSION_INIT { NULL }

/* ---- Tables ----
 *
 * Tables hold character properties from seven files of the Unicode Character Database, version 15.0 or 17.0. The
 * library contains the tables of both versions as compiled images. Line breaks follow the rules of the tables'
 * version. */

/* Unicode versions, encoded as in images: 65,536 times the major version plus 256 times the minor version. */
#define HORDGULI_UNICODE_15_0 UINT32_C(0x000F0000)
#define HORDGULI_UNICODE_17_0 UINT32_C(0x00110000)

/* The number of files from which tables are read. */
#define HORDGULI_TABLE_FILES 7

/* The index of each file. In a fault, HORDGULI_IMAGE stands for an image. */
#define HORDGULI_BIDI_CLASS 0        /* DerivedBidiClass.txt */
#define HORDGULI_BIDI_BRACKETS 1     /* BidiBrackets.txt */
#define HORDGULI_BIDI_MIRRORING 2    /* BidiMirroring.txt */
#define HORDGULI_LINE_BREAK 3        /* LineBreak.txt */
#define HORDGULI_GENERAL_CATEGORY 4  /* DerivedGeneralCategory.txt */
#define HORDGULI_EAST_ASIAN_WIDTH 5  /* EastAsianWidth.txt */
#define HORDGULI_EMOJI_DATA 6        /* emoji-data.txt */
#define HORDGULI_IMAGE 7             /* a compiled image */

typedef struct hordguli_bytes {
    const void *bytes;
    size_t length;
} hordguli_bytes;

/* Why a line is malformed. If several causes apply, the first in the order 1, 4, 2, 3, 5, 6 is reported. */
#define HORDGULI_CAUSE_NOT_ASCII 1     /* a byte above 7F before the `#` */
#define HORDGULI_CAUSE_CODE_POINT 2    /* the first field is not a code point (or a range, where allowed) */
#define HORDGULI_CAUSE_REVERSED 3      /* a range ends before it starts */
#define HORDGULI_CAUSE_FIELD_COUNT 4   /* the wrong number of fields */
#define HORDGULI_CAUSE_VALUE 5         /* a value that the file does not allow */
#define HORDGULI_CAUSE_NAMED_BEFORE 6  /* an earlier line names one of its characters */

/* Why an image is invalid. If several causes apply, the first in this order is reported. But if the header
 * is complete, TRUNCATED comes after VERSION. */
#define HORDGULI_CAUSE_TRUNCATED 8     /* fewer bytes than a header has, or than its counts state */
#define HORDGULI_CAUSE_MAGIC 9         /* the first bytes are not those of an image */
#define HORDGULI_CAUSE_FORMAT 10       /* another version of the format */
#define HORDGULI_CAUSE_VERSION 11      /* a version of Unicode that is not supported */
#define HORDGULI_CAUSE_EXCESS 12       /* more bytes than the counts state */
#define HORDGULI_CAUSE_CHECKSUM 13     /* the checksum does not match */
#define HORDGULI_CAUSE_PAGE_NUMBER 14  /* a page number out of range */
#define HORDGULI_CAUSE_ENTRY 15        /* invalid properties */
#define HORDGULI_CAUSE_BRACKET 16      /* an invalid bracket */
#define HORDGULI_CAUSE_MIRROR 17       /* an invalid mirror */
#define HORDGULI_CAUSE_FLAGS 18        /* properties that do not agree with the brackets or the mirrors */

/* The first malformed line of the first malformed file, the fault in an image, or the file that cannot be
 * read. */
typedef struct hordguli_table_fault {
    size_t file;   /* 0 to 6, or HORDGULI_IMAGE */
    size_t line;   /* from 1; 0 for an image, or if the file cannot be read */
    size_t cause;  /* one of the causes; 0 if the file cannot be read */
} hordguli_table_fault;

/* Opens the built-in tables of Unicode 15.0. Reads no file.
 * Errors: NULL, ALREADY_OPEN, NO_MEMORY.
 * Cost: as for `hordguli_tables_open_image`.
 * Since: 0.6. */
hordguli_status hordguli_tables_open_builtin(hordguli_tables *tables);

/* Opens the built-in tables of Unicode `version`, such as HORDGULI_UNICODE_17_0. Reads no file.
 * Errors: NULL, UNKNOWN_OPTION (another version), ALREADY_OPEN, NO_MEMORY.
 * Cost: as for `hordguli_tables_open_image`.
 * Since: 0.6. */
hordguli_status hordguli_tables_open_builtin_version(hordguli_tables *tables, uint32_t version);

/* Opens tables from a compiled image, such as the file `tables.image` that is installed with the table files.
 * The image determines their Unicode version. `fault` may be NULL, and is set only on TABLE_FAULT. The causes
 * up to HORDGULI_CAUSE_ENTRY are checked before any memory is allocated. If memory runs out before a later
 * cause is found, NO_MEMORY is returned.
 * Errors: NULL, OVERLAP, ALREADY_OPEN, TABLE_FAULT, NO_MEMORY.
 * Cost: O(`length`), plus a pass over the code points of the pages that have separators, brackets or mirrors.
 * Since: 0.6. */
hordguli_status hordguli_tables_open_image(hordguli_tables *tables, const void *image, size_t length,
                                           hordguli_table_fault *fault);

/* Opens tables of Unicode 15.0 from the contents of the files. `fault` may be NULL, and is set only on TABLE_FAULT. NULL
 * and OVERLAP are checked for the parameters first, then for each file in turn. If memory runs out before the first
 * malformed line is found, NO_MEMORY is returned.
 * Errors: NULL, OVERLAP, ALREADY_OPEN, TABLE_FAULT, NO_MEMORY.
 * Cost: O(size of the files), plus passes over all code points. */
hordguli_status hordguli_tables_read(hordguli_tables *tables, const hordguli_bytes files[HORDGULI_TABLE_FILES],
                                     hordguli_table_fault *fault);

/* Like `hordguli_tables_read`, but reads files of Unicode `version`.
 * Errors: NULL, OVERLAP, UNKNOWN_OPTION (another version), ALREADY_OPEN, TABLE_FAULT, NO_MEMORY.
 * Cost: as for `hordguli_tables_read`.
 * Since: 0.6. */
hordguli_status hordguli_tables_read_version(hordguli_tables *tables, uint32_t version,
                                             const hordguli_bytes files[HORDGULI_TABLE_FILES],
                                             hordguli_table_fault *fault);

/* Opens tables of Unicode 15.0 from the files in a folder. `folder` is a NUL-terminated path. `fault` may be NULL, and
 * is set only on UNREAD_FILE or TABLE_FAULT. On UNREAD_FILE, `errno` is the error of the failed `open` or `read`, such
 * as ENOENT. If memory runs out before either fault is found, NO_MEMORY is returned.
 * Errors: NULL, OVERLAP, ALREADY_OPEN, UNREAD_FILE, TABLE_FAULT, NO_MEMORY.
 * Cost: as for `hordguli_tables_read`. */
hordguli_status hordguli_tables_open_folder(hordguli_tables *tables, const char *folder, hordguli_table_fault *fault);

/* Like `hordguli_tables_open_folder`, but reads files of Unicode `version`. Sets `errno` in the same way.
 * Errors: NULL, OVERLAP, UNKNOWN_OPTION (another version), ALREADY_OPEN, UNREAD_FILE, TABLE_FAULT, NO_MEMORY.
 * Cost: as for `hordguli_tables_read`.
 * Since: 0.6. */
hordguli_status hordguli_tables_open_folder_version(hordguli_tables *tables, uint32_t version, const char *folder,
                                                    hordguli_table_fault *fault);

/* Stores the Unicode version of the tables in `*version`, such as HORDGULI_UNICODE_15_0.
 * Errors: NULL, OVERLAP, CLOSED.
 * Cost: O(1).
 * Since: 0.6. */
hordguli_status hordguli_tables_version(hordguli_tables *tables, uint32_t *version);

/* Closes the handle. Safe on a closed handle or NULL. The tables are freed once no open session uses them. */
void hordguli_tables_close(hordguli_tables *tables);

/* ---- Whole texts ---- */

/* Lays out a text, and writes its lines to a buffer, as UTF-8. Stores their length, in bytes, in `*written`.
 * With NULL and capacity 0, returns NO_ROOM if there is anything to write (see BUFFERS). The bytes are those that
 * `hordguli_lines_utf8` writes for all lines of a session with these `options`, this `width` and this text.
 * `print` is as in that function. For example, to lay out a line of a log:
 *
 *     status = hordguli_layout(&tables, HORDGULI_WEAK_LTR, 80, HORDGULI_PRINT_DEFAULT, line, strlen(line),
 *                              sizeof buffer, buffer, &written);
 *
 * The handle keeps the memory that a call used. A later call that needs no more memory allocates nothing,
 * unless only one of the two calls has HORDGULI_LINE_SEPARATORS. The handle keeps at most 5 MB: memory for
 * more than 65,536 bytes of text, or of lines, is freed. `hordguli_tables_close` frees what is kept. Threads
 * that call this function at the same time each need their own tables handle.
 *
 * On NOT_UTF8, call `hordguli_valid_utf8` to find the first invalid byte. NO_MEMORY comes before NO_ROOM,
 * because the lines are collected in memory before their size is known.
 * Errors: NULL, OVERLAP, WIDTH_OUT_OF_RANGE (above 65,535), UNKNOWN_OPTION, NOT_UTF8, CLOSED, WIDTH_OUT_OF_RANGE (0),
 * TEXT_TOO_LONG, PARAGRAPH_TOO_LONG, NO_MEMORY, NO_ROOM.
 * Cost: time and memory proportional to `length` and to the lines, even with capacity 0.
 * Since: 0.6. */
hordguli_status hordguli_layout(hordguli_tables *tables, uint32_t options, uint32_t width, uint32_t print,
                                const char *text, size_t length, size_t capacity, char *buffer, size_t *written);

/* Stores in `*count` the number of characters in UTF-8 text of `length` bytes. On NOT_UTF8, call
 * `hordguli_valid_utf8` to find the first invalid byte.
 * Errors: NULL, OVERLAP, NOT_UTF8.
 * Cost: O(length). */
hordguli_status hordguli_count_utf8(const char *bytes, size_t length, size_t *count);

/* Stores in `*valid` the length of the longest prefix of `bytes` that is valid UTF-8: `length` if all bytes
 * are valid, else the index of the first invalid byte. A byte is invalid if it belongs to no complete
 * character. So an incomplete character at the end of `bytes` is invalid. After another function has returned
 * NOT_UTF8, the text before this index is valid.
 * Errors: NULL, OVERLAP.
 * Cost: O(length).
 * Since: 0.6. */
hordguli_status hordguli_valid_utf8(const char *bytes, size_t length, size_t *valid);

/* Decodes UTF-8 text of `length` bytes. Stores the number of its characters in `*count`, and this many elements in each
 * array. Each array has `capacity` elements; `length` elements are always enough. NULL arrays are skipped, so with both
 * NULL any capacity is enough (see BUFFERS). There is no call for the inverse.
 *   characters  characters, for the functions in `Clusters and scripts`, `Rows` and `Levels and properties`
 *   offsets     byte offset of each character
 *
 * On NO_ROOM, `*count` is set and the arrays are unchanged. Like all other functions, this one refuses text
 * that is not UTF-8, so that positions in the text are the same for all of them. On NOT_UTF8, call
 * `hordguli_valid_utf8` to find the first invalid byte. To replace invalid bytes with U+FFFD, decode the text
 * before the first of them, write U+FFFD, skip one byte, and repeat. Each invalid byte then becomes one
 * U+FFFD.
 * Errors: NULL, OVERLAP, NOT_UTF8, NO_ROOM.
 * Cost: O(length).
 * Since: 0.6. */
hordguli_status hordguli_decode(const char *bytes, size_t length, size_t capacity, uint32_t *characters,
                                size_t *offsets, size_t *count);

/* ---- Sessions and edits ---- */

/* What an edit replaced: `old_lines` lines from `first_line` on became `new_lines` lines, and likewise for
 * paragraphs. All other lines are unchanged but renumbered: line `first_line + old_lines` becomes line
 * `first_line + new_lines`, and so on. If there are fewer lines than before, clear the rows below the last
 * one. By design, damage consists of whole paragraphs: all those that contain or touch the edited range, even
 * if nothing is inserted or deleted. So appending text after a final separator also replaces the last
 * paragraph. `hordguli_changed_lines` stores which of these lines changed. A caller that redraws everything
 * may pass NULL as `damage`. */
typedef struct hordguli_damage {
    size_t first_line;
    size_t old_lines;
    size_t new_lines;
    size_t first_paragraph;
    size_t old_paragraphs;
    size_t new_paragraphs;
} hordguli_damage;

/* Opens a session on a text. `width` is in columns. The session shares the tables, so their handle may be
 * closed before the session. On NOT_UTF8, call `hordguli_valid_utf8` to find the first invalid byte. If 2^63
 * sessions already share the tables, NO_MEMORY is returned. This is checked directly after CLOSED.
 * Errors: NULL, OVERLAP, WIDTH_OUT_OF_RANGE (above 65,535), UNKNOWN_OPTION, NOT_UTF8, ALREADY_OPEN (the session),
 * CLOSED (the tables), WIDTH_OUT_OF_RANGE (0), TEXT_TOO_LONG, PARAGRAPH_TOO_LONG, NO_MEMORY.
 * Cost: time and memory proportional to `length`. */
hordguli_status hordguli_session_open(hordguli_session *session, hordguli_tables *tables, uint32_t options,
                                      uint32_t width, const char *text, size_t length);

/* Opens a measured session on a text (see MEASURED TEXT). `width` is in the caller's unit, from 1 to
 * 2,147,483,647. All advances are 0 until `hordguli_set_advances` sets them, so lines end at mandatory breaks
 * only. On NOT_UTF8, call `hordguli_valid_utf8` to find the first invalid byte. Otherwise like
 * `hordguli_session_open`.
 * Errors: NULL, OVERLAP, UNKNOWN_OPTION, NOT_UTF8, ALREADY_OPEN (the session), CLOSED (the tables), WIDTH_OUT_OF_RANGE,
 * TEXT_TOO_LONG, PARAGRAPH_TOO_LONG, NO_MEMORY.
 * Cost: as for `hordguli_session_open`.
 * Since: 0.6. */
hordguli_status hordguli_session_open_measured(hordguli_session *session, hordguli_tables *tables, uint32_t options,
                                               uint32_t width, const char *text, size_t length);

/* Frees the session and closes the handle. Safe on a closed handle or NULL. */
void hordguli_session_close(hordguli_session *session);

/* Inserts text before the character at `pos`, or at the end if `pos` is the length of the text. Stores in
 * `*damage` which lines were replaced. On NOT_UTF8, call `hordguli_valid_utf8` to find the first invalid
 * byte.
 * Errors: NULL, OVERLAP, NOT_UTF8, CLOSED, OUT_OF_RANGE, TEXT_TOO_LONG, PARAGRAPH_TOO_LONG, NO_MEMORY.
 * Cost: O(log n), plus O(1) per replaced paragraph, plus the layout of the new paragraphs. */
hordguli_status hordguli_insert(hordguli_session *session, size_t pos, const char *text, size_t length,
                                hordguli_damage *damage);

/* Deletes `count` characters, starting at `pos`. This can join paragraphs.
 * Errors: NULL, OVERLAP, CLOSED, OUT_OF_RANGE, PARAGRAPH_TOO_LONG, NO_MEMORY.
 * Cost: as for `hordguli_insert`. */
hordguli_status hordguli_delete(hordguli_session *session, size_t pos, size_t count, hordguli_damage *damage);

/* Replaces the `count` characters that start at `pos` with text, in one edit. On NOT_UTF8, call
 * `hordguli_valid_utf8` to find the first invalid byte.
 * Errors: NULL, OVERLAP, NOT_UTF8, CLOSED, OUT_OF_RANGE, TEXT_TOO_LONG, PARAGRAPH_TOO_LONG, NO_MEMORY.
 * Cost: as for `hordguli_insert`. */
hordguli_status hordguli_replace(hordguli_session *session, size_t pos, size_t count, const char *text, size_t length,
                                 hordguli_damage *damage);

/* Sets the width, in columns, and rewraps the paragraphs. The damage covers all lines, even if the width is
 * the same. In a measured session, the width is in the caller's unit, and also at most 65,535.
 * Errors: NULL, OVERLAP, WIDTH_OUT_OF_RANGE, CLOSED, NO_MEMORY.
 * Cost: O(n), plus wrapping each paragraph. A paragraph of one line that fits the new width is skipped, unless
 * HORDGULI_SHOW_SPACES is set and the line hides a space that fits. */
hordguli_status hordguli_set_width(hordguli_session *session, uint32_t width, hordguli_damage *damage);

/* Sets the width of a measured session, from 1 to 2,147,483,647. Otherwise like `hordguli_set_width`.
 * Errors: NULL, OVERLAP, CLOSED, NOT_MEASURED, WIDTH_OUT_OF_RANGE, NO_MEMORY.
 * Cost: as for `hordguli_set_width`.
 * Since: 0.6. */
hordguli_status hordguli_set_measured_width(hordguli_session *session, uint32_t width, hordguli_damage *damage);

/* Which lines a call changed: `old_lines` lines from `first_line` on became `new_lines` lines. All other lines are the
 * same as before, but the lines that follow are renumbered. */
typedef struct hordguli_changed {
    size_t first_line;
    size_t old_lines;
    size_t new_lines;
} hordguli_changed;

/* Stores in `*changed` which lines changed in the last successful call that edited the text, set the width or
 * set advances. The call's damage consists of whole paragraphs. The changed lines are those of the damage,
 * without the unchanged lines at its start and then those at its end. An unchanged line has the same
 * characters, levels, maps, columns, advances, base level and length as before, and is the first line of its
 * paragraph if and only if it was before. The padding, which depends on the width, is not compared: RTL lines
 * move when the width changes, so redraw all of them. After the session is opened, all lines count as
 * changed. A failed call does not change the result. The call's `damage` may have been NULL.
 * Errors: NULL, OVERLAP, CLOSED.
 * Cost: O(1).
 * Since: 0.6. */
hordguli_status hordguli_changed_lines(hordguli_session *session, hordguli_changed *changed);

/* Sets the advances of the `count` characters that start at `pos`, in a measured session, and rewraps the paragraphs
 * that contain them. Stores in `*damage` which lines were replaced: none if `count` is 0.
 *
 * After an edit, set the advances of all new paragraphs, since a shaper may choose other glyphs next to the
 * edit. `hordguli_paragraph` stores the start and the length of each. For example, with a function `measure`
 * of the caller:
 *
 *     status = hordguli_insert(&session, pos, text, length, &edited);
 *     if (!status) status = measure(edited.first_paragraph, edited.new_paragraphs, &start, &count, advances);
 *     if (!status) status = hordguli_set_advances(&session, start, count, advances, &measured);
 *
 * From line `edited.first_line` on, `edited.old_lines` lines have then become `measured.new_lines` lines.
 *
 * Errors: NULL, OVERLAP, CLOSED, NOT_MEASURED, OUT_OF_RANGE, PARAGRAPH_TOO_LONG, NO_MEMORY.
 * Cost: O(log n), plus O(`count`), plus wrapping the paragraphs. Levels and break marks are not computed
 * again.
 * Since: 0.6. */
hordguli_status hordguli_set_advances(hordguli_session *session, size_t pos, size_t count, const uint32_t *advances,
                                      hordguli_damage *damage);

typedef struct hordguli_counts {
    size_t characters;
    size_t lines;
    size_t paragraphs;
    size_t width;
} hordguli_counts;

/* Stores the numbers of characters, lines and paragraphs, and the width, in `*counts`.
 * Errors: NULL, OVERLAP, CLOSED.
 * Cost: O(1). */
hordguli_status hordguli_session_counts(hordguli_session *session, hordguli_counts *counts);

/* Work counters, for checking that edits stay incremental. Each counts the characters that were processed for
 * one purpose since the session was opened, and saturates at UINT64_MAX. */
typedef struct hordguli_work {
    uint64_t analysed;  /* to compute their levels and break marks */
    uint64_t filled;    /* to compute the starts of their lines */
    uint64_t written;   /* to put their lines into visual order */
} hordguli_work;

/* Stores the work counters in `*work`. Calls that fail with NO_MEMORY can increase them too.
 * Errors: NULL, OVERLAP, CLOSED.
 * Cost: O(1). */
hordguli_status hordguli_session_work(hordguli_session *session, hordguli_work *work);

/* ---- Lines and text ---- */

/* Stores the position of a line's first character in `*start`.
 * Errors: NULL, OVERLAP, CLOSED, OUT_OF_RANGE.
 * Cost: O(log n). */
hordguli_status hordguli_line_start(hordguli_session *session, size_t line, size_t *start);

typedef struct hordguli_line_info {
    size_t start;      /* position of its first character */
    size_t length;     /* characters, including the tail */
    size_t shown;      /* characters in the shown part */
    size_t columns;    /* columns of the shown part */
    size_t padding;    /* columns to the left of the shown part if RTL lines are padded; 0 for an LTR line */
    uint32_t base;     /* base level of its paragraph, 0 or 1 */
    uint32_t first;    /* 1 for the first line of a paragraph, else 0 */
} hordguli_line_info;

/* Stores information about a line in `*info`, and `info->shown` elements in each array. Each array has `capacity`
 * elements. NULL arrays are skipped, so with all arrays NULL any capacity is enough (see BUFFERS). Positions count from
 * the start of the line.
 *   characters  characters in visual order, mirrored
 *   levels      level of each character after L1, in logical order
 *   ltov        visual position of each logical position
 *   vtol        logical position of each visual position
 *   columns     columns of the character at each visual position
 *
 * On NO_ROOM, `*info` is set and the arrays are unchanged.
 * Errors: NULL, OVERLAP, CLOSED, OUT_OF_RANGE, NO_ROOM.
 * Cost: O(log n), plus the elements written. */
hordguli_status hordguli_line(hordguli_session *session, size_t line, hordguli_line_info *info, size_t capacity,
                              uint32_t *characters, uint8_t *levels, uint32_t *ltov, uint32_t *vtol,
                              size_t *columns);

/* The `length` characters of a line from position `start` on, all at one level. `start` counts from the start of the
 * line. The characters are read from left to right if the level is even, else from right to left. */
typedef struct hordguli_run {
    size_t start;
    size_t length;
    uint32_t level;
    uint32_t zero;  /* always 0 */
} hordguli_run;

/* Stores the directional runs of a line's shown part, from left to right, for shaping text: the longest
 * ranges of characters at one level after L1. The runs do not depend on HORDGULI_REORDER_NSM or
 * HORDGULI_REORDER_CLUSTERS, which move characters only inside runs. The number of runs is stored in
 * `*count`, and the runs in an array of `capacity` elements. With NULL and capacity 0, returns NO_ROOM if there
 * are runs (see BUFFERS). Fails with OUT_OF_RANGE if the line does not exist. To read the characters of a run
 * in logical order:
 *
 *     status = hordguli_line_start(&session, line, &start);
 *     if (!status) status = hordguli_text_utf32(&session, start + run.start, run.length, 80, characters, &length);
 *
 * Errors: NULL, OVERLAP, CLOSED, OUT_OF_RANGE, NO_ROOM.
 * Cost: O(log n), plus O(length of the line) times its highest level.
 * Since: 0.6. */
hordguli_status hordguli_runs(hordguli_session *session, size_t line, size_t capacity, hordguli_run *runs,
                              size_t *count);

/* Writes `count` lines, starting with line `first`, to a buffer, as UTF-8. With NULL and capacity 0, returns NO_ROOM if
 * there is anything to write (see BUFFERS). `print` selects what is written for each line, in the order VISUAL,
 * BASEDIR, LTOV, VTOL, LEVELS. Each of these items ends with U+000A. Numbers are decimal, separated by
 * spaces. For example, to write the lines that an edit replaced:
 *
 *     status = hordguli_lines_utf8(&session, damage.first_line, damage.new_lines,
 *                                  HORDGULI_PRINT_DEFAULT, capacity, buffer, &length);
 *
 * NO_MEMORY comes before NO_ROOM, because the output is collected in memory before its size is known.
 * Errors: NULL, OVERLAP, UNKNOWN_OPTION, CLOSED, OUT_OF_RANGE, NO_MEMORY, NO_ROOM.
 * Cost: O(log n) per paragraph, plus time and memory proportional to the output, even with capacity 0. */
hordguli_status hordguli_lines_utf8(hordguli_session *session, size_t first, size_t count, uint32_t print,
                                    size_t capacity, char *buffer, size_t *length);

/* Writes `count` characters, starting at `pos`, to a buffer, as UTF-8. With NULL and capacity 0, returns NO_ROOM,
 * unless `count` is 0 (see BUFFERS). NO_MEMORY comes before NO_ROOM, as in `hordguli_lines_utf8`.
 * Errors: NULL, OVERLAP, CLOSED, OUT_OF_RANGE, NO_MEMORY, NO_ROOM.
 * Cost: as for `hordguli_lines_utf8`. */
hordguli_status hordguli_text(hordguli_session *session, size_t pos, size_t count, size_t capacity, char *buffer,
                              size_t *length);

/* Stores `count` characters, starting at `pos`, in an array of `capacity` elements, in logical order and not mirrored,
 * as a shaper needs them. Stores `count` in `*length`. With NULL and capacity 0, returns NO_ROOM, unless `count`
 * is 0 (see BUFFERS).
 * Errors: NULL, OVERLAP, CLOSED, OUT_OF_RANGE, NO_ROOM.
 * Cost: O(log n) per paragraph, plus O(count).
 * Since: 0.6. */
hordguli_status hordguli_text_utf32(hordguli_session *session, size_t pos, size_t count, size_t capacity,
                                    uint32_t *characters, size_t *length);

/* Stores in `*length` the UTF-8 length, in bytes, of the `count` characters that start at `pos`.
 * Errors: NULL, OVERLAP, CLOSED, OUT_OF_RANGE.
 * Cost: O(log n) per paragraph, plus O(count). */
hordguli_status hordguli_utf8_length(hordguli_session *session, size_t pos, size_t count, size_t *length);

/* Stores in `*byte` the UTF-8 length, in bytes, of the text before `pos`. Fails with OUT_OF_RANGE if `pos` is past the
 * end.
 * Errors: NULL, OVERLAP, CLOSED, OUT_OF_RANGE.
 * Cost: O(log n), plus O(length of the paragraph) unless the paragraph is ASCII.
 * Since: 0.6. */
hordguli_status hordguli_byte_of(hordguli_session *session, size_t pos, size_t *byte);

/* Stores in `*unit` the length, in UTF-16 code units, of the text before `pos`. This is the default unit of
 * the Language Server Protocol. Fails with OUT_OF_RANGE if `pos` is past the end.
 * Errors: NULL, OVERLAP, CLOSED, OUT_OF_RANGE.
 * Cost: O(log n), plus O(length of the paragraph) if the paragraph has a character above U+FFFF.
 * Since: 0.6. */
hordguli_status hordguli_utf16_of(hordguli_session *session, size_t pos, size_t *unit);

/* The position `pos` of the character that contains a given byte or code unit, and the number `rest` of the
 * character's bytes or code units before the given one. */
typedef struct hordguli_position {
    size_t pos;
    size_t rest;
} hordguli_position;

/* Stores in `*position` which character contains UTF-8 byte `byte` of the text, counted from 0. At the end of
 * the text, `pos` is the number of characters and `rest` is 0. Fails with OUT_OF_RANGE if `byte` is past the
 * end.
 * Errors: NULL, OVERLAP, CLOSED, OUT_OF_RANGE.
 * Cost: as for `hordguli_byte_of`.
 * Since: 0.6. */
hordguli_status hordguli_position_of_byte(hordguli_session *session, size_t byte, hordguli_position *position);

/* Stores in `*position` which character contains UTF-16 code unit `unit` of the text, counted from 0. At the
 * end of the text, `pos` is the number of characters and `rest` is 0. Fails with OUT_OF_RANGE if `unit` is
 * past the end.
 * Errors: NULL, OVERLAP, CLOSED, OUT_OF_RANGE.
 * Cost: as for `hordguli_utf16_of`.
 * Since: 0.6. */
hordguli_status hordguli_position_of_utf16(hordguli_session *session, size_t unit, hordguli_position *position);

typedef struct hordguli_paragraph_info {
    size_t length;      /* characters, including the separator */
    size_t lines;
    uint32_t base;      /* base level, 0 or 1 */
    uint32_t zero;      /* always 0 */
    size_t start;       /* position of its first character */
    size_t first_line;  /* index of its first line */
} hordguli_paragraph_info;

/* Stores information about a paragraph in `*info`, and `info->length` elements in each array, in logical order. Each
 * array has `capacity` elements. NULL arrays are skipped, so with both NULL any capacity is enough (see BUFFERS).
 *   levels      level of each character before L1
 *   marks       break mark after each character
 *
 * On NO_ROOM, `*info` is set and the arrays are unchanged.
 * Errors: NULL, OVERLAP, CLOSED, OUT_OF_RANGE, NO_ROOM.
 * Cost: O(log n), plus the elements written. */
hordguli_status hordguli_paragraph(hordguli_session *session, size_t paragraph, hordguli_paragraph_info *info,
                                   size_t capacity, uint8_t *levels, uint8_t *marks);

/* ---- Carets and edges ----
 *
 * A position has two edges: the edge before it is the leading edge of the character at that position, and the
 * edge after it is the trailing edge of the preceding character. Where the direction changes or a line wraps,
 * the two edges are at different places on the screen. An editor keeps one of the two as its caret; edits
 * happen at `pos` either way. For example, in the text `abc `, three Hebrew letters and ` def`, the edge
 * before position 4 is at column 7, to the right of the first letter. The edge after position 4 is at column
 * 4, to the right of the space.
 *
 * In one step, a caret moves over one caret unit: a grapheme cluster or, if its characters are in several
 * level runs, its part in one of these runs. A boundary is a column where a caret unit begins or ends.
 *
 * A new program should store the caret as an edge, and call:
 *   - `hordguli_edge_caret` to draw the caret
 *   - `hordguli_step` and `hordguli_line_edges` for Left, Right, Home and End
 *   - `hordguli_nearest_edge` for clicks
 *   - `hordguli_edge_at` for Up and Down, and when Left or Right leads to another line
 *   - `hordguli_word_at` for words, and `hordguli_spans` for the selection
 *   - `hordguli_cluster_at` for the cluster that Backspace (at `pos - 1`) or Delete (at `pos`) removes
 *
 * After typing or Backspace, keep the edge after the position. But at the start of the text, and after a
 * separator, U+000B, U+000C or U+2028, keep the edge before the position. After Delete, always keep the edge
 * before the position. The guide has code for all of these cases.
 *
 * `hordguli_caret_at` and `hordguli_hit_at` are for programs that keep a position. These functions use only
 * the edge before the position, and the caller must keep positions at cluster boundaries. */

typedef struct hordguli_place {
    size_t paragraph;
    size_t line;
    size_t offset;  /* characters of the line before the place */
} hordguli_place;

/* Stores the place of the character at `pos` in `*place`. If `pos` is the end of the text, the place is after
 * the last character. But if the text is empty or ends with a separator, the place of its end is the start of
 * a new paragraph, which does not exist yet. In this case, `paragraph` and `line` are the numbers of
 * paragraphs and lines in the text.
 *
 * U+2028, U+000B and U+000C end a line, but not its paragraph. At the end of a text that ends with one of
 * these, the place and the caret stay on its line: a new line would have no character.
 * Errors: NULL, OVERLAP, CLOSED, OUT_OF_RANGE.
 * Cost: O(log n + log m) in a paragraph of m lines. */
hordguli_status hordguli_place_of(hordguli_session *session, size_t pos, hordguli_place *place);

typedef struct hordguli_caret {
    size_t line;
    size_t column;   /* columns left of the caret, without padding; can equal the width */
    uint32_t level;  /* level of the character if shown, else base level */
    uint32_t zero;   /* always 0 */
} hordguli_caret;

/* Stores in `*caret` where to draw the caret for `pos`. New programs call `hordguli_edge_caret`.
 *   - Before a shown character: at its left edge if its level is even, else at its right edge. At an odd
 *     level, with HORDGULI_REORDER_CLUSTERS or HORDGULI_REORDER_NSM, this edge can be inside the character's
 *     cluster; `hordguli_edge_caret` stores the end of the cluster.
 *   - Before a character that is not shown, and at the end of the text: at the end of the line. The end is to
 *     the right of all columns in an LTR paragraph, and at column 0 in an RTL paragraph.
 *   - At the start of a paragraph that does not exist yet (see `hordguli_place_of`): at column 0. `level` is then the
 *     base level of an empty paragraph. If this level is odd, draw the caret at the right edge of the screen.
 *
 * Errors: NULL, OVERLAP, CLOSED, OUT_OF_RANGE.
 * Cost: as for `hordguli_place_of`, plus O(length of the line). */
hordguli_status hordguli_caret_at(hordguli_session *session, size_t pos, hordguli_caret *caret);

typedef struct hordguli_hit {
    size_t pos;
    uint32_t trailing;  /* 1 if the caret goes after the character, else 0 */
    uint32_t zero;      /* always 0 */
} hordguli_hit;

/* Stores in `*hit` the character at a column of a line. New programs call `hordguli_edge_at` or `hordguli_nearest_edge`.
 * Column 0 is the left edge of the shown part, to the right of any padding.
 *   - In the shown part: the character that covers the column, with `trailing` 0.
 *   - Right of the shown part: the rightmost character of nonzero width, with `trailing` 1 if its level is even, else
 *     0.
 *   - In a line of width 0: the first character, with `trailing` 0.
 *
 * So `trailing` can be 1 only to the right of the shown part. To place the caret at screen column `x` of a
 * padded line:
 *
 *     status = hordguli_hit_at(&session, line, x - info.padding, &hit);
 *     if (!status) status = hordguli_cluster_at(&session, hit.pos, &cluster);
 *     if (!status) pos = hit.trailing ? cluster.end : cluster.start;
 *
 * If `x` is in the padding, use column 0. In that case, if the width of the line is not 0 and the level of
 * the character (see `hordguli_caret_at`) is odd, set `trailing` to 1. `cluster.end` can be the start of the
 * next line.
 *
 * Errors: NULL, OVERLAP, CLOSED, OUT_OF_RANGE.
 * Cost: O(log n), plus O(length of the line). */
hordguli_status hordguli_hit_at(hordguli_session *session, size_t line, size_t column, hordguli_hit *hit);

/* The characters from `start` up to but not including `end`. */
typedef struct hordguli_cluster {
    size_t start;
    size_t end;
} hordguli_cluster;

/* Stores the grapheme cluster of the character at `pos` in `*cluster`. Fails with OUT_OF_RANGE if `pos` is the end of
 * the text.
 * Errors: NULL, OVERLAP, CLOSED, OUT_OF_RANGE, NO_MEMORY.
 * Cost: O(log n), plus time and memory proportional to the characters around `pos`, up to the nearest places
 * where a cluster ends regardless of context. At worst, as in a paragraph of flags, these are all characters
 * of the paragraph. */
hordguli_status hordguli_cluster_at(hordguli_session *session, size_t pos, hordguli_cluster *cluster);

/* The characters from `start` up to but not including `end`. `kind` is 1 if any of them is alphabetic or numeric, such
 * as a letter, a digit, a vowel sign (U+05B8) or a fraction (U+00BD). Else `kind` is 0, as for spaces and punctuation.
 * `zero` is 0. */
typedef struct hordguli_word {
    size_t start;
    size_t end;
    uint32_t kind;
    uint32_t zero;
} hordguli_word;

/* Stores in `*word` the word that contains the character at `pos`: the segment of the paragraph from the last
 * word boundary (UAX #29) at or before `pos` to the next boundary. Fails with OUT_OF_RANGE if `pos` is the
 * end of the text.
 *
 * The next word starts at `word.end`, and the previous word contains the character at `word.start - 1`.
 *
 * Errors: NULL, OVERLAP, CLOSED, OUT_OF_RANGE, NO_MEMORY.
 * Cost: O(log n), plus time and memory proportional to the whole paragraph.
 * Since: 0.6. */
hordguli_status hordguli_word_at(hordguli_session *session, size_t pos, hordguli_word *word);

/* The columns from `left` up to but not including `right`, counted from the left edge of a line's shown part. */
typedef struct hordguli_span {
    size_t left;
    size_t right;
} hordguli_span;

/* Stores the columns that the characters from `from` up to but not including `to` cover in a line, for
 * drawing a selection: as few spans as possible, from left to right. Where the direction changes, a selection
 * can have several spans. `from` and `to` are positions in the text; characters outside the line are ignored.
 * The number of spans is stored in `*count`, and the spans in an array of `capacity` elements. NULL with
 * capacity 0 returns NO_ROOM if there are spans (see BUFFERS). Fails with OUT_OF_RANGE if the line does not
 * exist.
 *
 *     for (size_t line = first_line; line <= last_line; line++) {
 *         status = hordguli_spans(&session, line, from, to, 16, spans, &count);
 *         for (size_t k = 0; !status && k < count; k++) highlight(line, spans[k].left, spans[k].right);
 *     }
 *
 * Errors: NULL, OVERLAP, CLOSED, OUT_OF_RANGE, NO_ROOM.
 * Cost: O(log n), plus O(length of the line).
 * Since: 0.6. */
hordguli_status hordguli_spans(hordguli_session *session, size_t line, size_t from, size_t to, size_t capacity,
                               hordguli_span *spans, size_t *count);

/* The leading edge of the character at `pos`. */
#define HORDGULI_BEFORE UINT32_C(0)
/* The trailing edge of the character at `pos - 1`. */
#define HORDGULI_AFTER UINT32_C(1)

/* Directions on the screen. */
#define HORDGULI_LEFT UINT32_C(0)
#define HORDGULI_RIGHT UINT32_C(1)

typedef struct hordguli_edge {
    size_t pos;
    uint32_t side;  /* HORDGULI_BEFORE or HORDGULI_AFTER */
    uint32_t zero;  /* always 0 in results, and ignored in arguments */
} hordguli_edge;

/* Stores in `*caret` where to draw the caret at an edge: on the line of the character that the edge belongs to. This is
 * the character at `pos` for HORDGULI_BEFORE, and the character before `pos` for HORDGULI_AFTER.
 *   - For HORDGULI_BEFORE, if a caret unit begins with that character: at the start of the unit.
 *   - For HORDGULI_AFTER, if a caret unit ends with that character: at the end of the unit.
 *   - Otherwise, at a shown character: at its leading edge (HORDGULI_BEFORE) or its trailing edge
 *     (HORDGULI_AFTER). The leading edge is the left one if the level is even, else the right one.
 *   - At a character that is not shown, and for the edge before the end of the text: as in
 *     `hordguli_caret_at`.
 *
 * `level` is the level of the edge's character, or the base level if that character is not shown or does not
 * exist. In the line where a new paragraph would start, an odd `level` means that the caret is at the right
 * edge of the screen. A block cursor covers the cell at `column` if `level` is even, else the cell to the
 * left of `column`. If there is no such cell, it covers the nearest one. Fails with OUT_OF_RANGE if the
 * position is past the end of the text, and for the edge after position 0.
 *
 * Errors: NULL, OVERLAP, UNKNOWN_OPTION, CLOSED, OUT_OF_RANGE, NO_MEMORY.
 * Cost: as for `hordguli_cluster_at`, plus O(length of the line).
 * Since: 0.6. */
hordguli_status hordguli_edge_caret(hordguli_session *session, hordguli_edge edge, hordguli_caret *caret);

/* Moves a caret to the nearest boundary to the left or right on its line. Stores the edge there in `*next`,
 * and 1 in `*moved`. The stored edge is an edge of the caret unit that was passed. If there is no such
 * boundary, stores 0 in `*moved`, and leaves `*next` unchanged. The caller then calls `hordguli_edge_at` for
 * another line, with column 0 for its left end, or SIZE_MAX for its right end. In a left-to-right document,
 * the key Right leads to the left end of the line below, and Left to the right end of the line above:
 *
 *     // Right
 *     status = hordguli_step(&session, caret, HORDGULI_RIGHT, &caret, &moved);
 *     if (!status && !moved) status = hordguli_edge_at(&session, line + 1, 0, &caret);
 *     // Left
 *     status = hordguli_step(&session, caret, HORDGULI_LEFT, &caret, &moved);
 *     if (!status && !moved && line > 0) status = hordguli_edge_at(&session, line - 1, SIZE_MAX, &caret);
 *
 * In a right-to-left document, Left leads to the right end of the line below (SIZE_MAX), and Right to the left end of the
 * line above (0). Past the last line, `hordguli_edge_at` returns OUT_OF_RANGE.
 *
 * Each step changes the column. Repeated steps reach every boundary in their direction. With HORDGULI_REORDER_NSM and
 * without HORDGULI_REORDER_CLUSTERS, this is certain only if the nonspacing marks in the text have no columns. Of those of
 * Unicode 15.0, only U+2D7F and U+1171E have columns.
 *
 * Errors: NULL, OVERLAP, UNKNOWN_OPTION, CLOSED, OUT_OF_RANGE, NO_MEMORY.
 * Cost: as for `hordguli_edge_caret`.
 * Since: 0.6. */
hordguli_status hordguli_step(hordguli_session *session, hordguli_edge edge, uint32_t direction, hordguli_edge *next,
                              uint32_t *moved);

/* Stores in `*edge` the edge at a column of a line, for moving to another line, as with Up and Down. For mouse clicks,
 * see `hordguli_nearest_edge`. Column 0 is the left edge of the shown part, to the right of any padding.
 *   - In the shown part: the left end of the caret unit that covers the column.
 *   - Right of the shown part: its right end. So columns 0 and SIZE_MAX are the two ends of the line on the screen.
 *   - In a line of width 0: the edge before its start.
 *   - In the line where a new paragraph would start (see `hordguli_place_of`): the edge before the end of the
 *     text.
 *
 * Fails with OUT_OF_RANGE if `line` is past the line that contains the end of the text.
 * Errors: NULL, OVERLAP, CLOSED, OUT_OF_RANGE, NO_MEMORY.
 * Cost: as for `hordguli_edge_caret`.
 * Since: 0.6. */
hordguli_status hordguli_edge_at(hordguli_session *session, size_t line, size_t column, hordguli_edge *edge);

/* Stores in `*edge` the edge nearest to a column of a line, for mouse clicks, which may hit either half of a
 * character. Column 0 is the left edge of the shown part, to the right of any padding. In the shown part, this
 * is the nearer end of the caret unit that covers the column, or the right end if both are equally near.
 * Elsewhere, and in a unit of one column, this is the edge that `hordguli_edge_at` stores.
 *
 * Fails with OUT_OF_RANGE for the same lines as `hordguli_edge_at`.
 * Errors: NULL, OVERLAP, CLOSED, OUT_OF_RANGE, NO_MEMORY.
 * Cost: as for `hordguli_edge_caret`.
 * Since: 0.6. */
hordguli_status hordguli_nearest_edge(hordguli_session *session, size_t line, size_t column, hordguli_edge *edge);

/* Stores the first and the last edge of a line in logical order, for the keys Home and End. The first edge is
 * before the start of the line. The last edge is
 *   - before the separator that ends the line, if there is one: a character of bidi class B or of line class
 *     BK, CR, LF or NL, or the pair CR LF;
 *   - else, on the last line of the text, before the end of the text;
 *   - else before the first space that is not shown;
 *   - else after the last character of the line.
 *
 * In the line where a new paragraph would start, both edges are before the end of the text. Fails with
 * OUT_OF_RANGE if `line` is past the line that contains the end of the text.
 * Errors: NULL, OVERLAP, CLOSED, OUT_OF_RANGE.
 * Cost: O(log n).
 * Since: 0.6. */
hordguli_status hordguli_line_edges(hordguli_session *session, size_t line, hordguli_edge *first, hordguli_edge *last);

/* Stores the ends of a line's grapheme clusters, counted from the start of the line, in an array of `capacity`
 * elements, and their number in `*count`. With NULL and capacity 0, returns NO_ROOM (see BUFFERS). The last end is the
 * length of the line, even if a cluster continues on the next line. Fails with OUT_OF_RANGE if the line does not exist.
 *
 * NO_MEMORY comes before NO_ROOM.
 * Errors: NULL, OVERLAP, CLOSED, OUT_OF_RANGE, NO_MEMORY, NO_ROOM.
 * Cost: as for `hordguli_cluster_at`, plus O(length of the line).
 * Since: 0.6. */
hordguli_status hordguli_line_clusters(hordguli_session *session, size_t line, size_t capacity, size_t *ends,
                                       size_t *count);

/* ---- Clusters and scripts ---- */

/* Stores the ends of the grapheme clusters in a text of `count` characters, in an array of `capacity` elements, and
 * their number in `*cluster_count`. With NULL and capacity 0, returns NO_ROOM, unless `count` is 0 (see BUFFERS). The
 * first cluster starts at 0, each later one at the end of the cluster before it, and the last one ends at `count`. No cluster
 * continues after a separator, so the clusters are those of a session with this text (`hordguli_cluster_at`), even for
 * a text of several paragraphs. NO_MEMORY comes before NO_ROOM.
 * Errors: NULL, OVERLAP, NOT_A_CHARACTER, NO_MEMORY, NO_ROOM.
 * Cost: time and memory proportional to `count`.
 * Since: 0.6. */
hordguli_status hordguli_clusters(size_t count, const uint32_t *characters, size_t capacity, size_t *ends,
                                  size_t *cluster_count);

/* The `length` characters of a text from position `start` on, all of one script. `script` has the four letters of its
 * code (ISO 15924), with the first letter in the highest byte, such as 0x4C61746E for `Latn`. This is the value of an
 * `hb_script_t` of HarfBuzz. */
typedef struct hordguli_script_run {
    size_t start;
    size_t length;
    uint32_t script;
    uint32_t zero;  /* always 0 */
} hordguli_script_run;

/* Stores the script runs of a text of `count` characters (UAX #24), for choosing fonts and for shaping: the
 * longest ranges of characters of one script. To shape a row, split its directional runs
 * (`hordguli_row_runs`) where a script run ends.
 *   - A character has the script of its property Script, in the Unicode version that `hordguli_width_unicode_version`
 *     returns. A private-use or unassigned character has the script Unknown (`Zzzz`).
 *   - If the property is Common or Inherited, as for a space, a digit or a mark, the character has the script of the
 *     character before it. At the start of the text, such a character has the first script that follows, or Common
 *     (`Zyyy`) if none does.
 *   - But a closing bracket whose property is Common has the script of the opening bracket that it matches,
 *     if any. The tables determine which characters are brackets. If more than 63 opening brackets are
 *     nested, only the innermost 63 are matched.
 *
 * The property Script_Extensions is not used. The number of runs is stored in `*run_count`, and the runs in an array of
 * `capacity` elements. With NULL and capacity 0, returns NO_ROOM, unless `count` is 0 (see BUFFERS). NO_MEMORY comes
 * before NO_ROOM.
 * Errors: NULL, OVERLAP, CLOSED, NOT_A_CHARACTER, NO_MEMORY, NO_ROOM.
 * Cost: time and memory proportional to `count`.
 * Since: 0.6. */
hordguli_status hordguli_script_runs(hordguli_tables *tables, size_t count, const uint32_t *characters,
                                     size_t capacity, hordguli_script_run *runs, size_t *run_count);

/* ---- Rows ---- */

/* Puts a row of `count` characters into visual order. The caller chooses where the row starts and ends.
 * `base` is the base level of the row's paragraph (`hordguli_base`), and `levels` are the levels of the row's
 * characters in the whole paragraph (`hordguli_levels`). A caller that knows only the row passes it to these
 * calls as a paragraph. `options` can have HORDGULI_REORDER_NSM and HORDGULI_REORDER_CLUSTERS, but no
 * direction. The clusters depend only on the characters of the row. Stores `count` elements
 * in each array. Each array has `capacity` elements. NULL arrays are skipped, so with all arrays NULL any
 * capacity is enough (see BUFFERS). Positions count from the start of the row.
 *   visual      characters in visual order, mirrored (UAX #9, L4)
 *   row_levels  level of each character after L1, in logical order
 *   ltov        visual position of each logical position
 *   vtol        logical position of each visual position
 *
 * L1 applies to the row as to a line: separators, and white space before them and at the end of the row, get the level
 * `base`. All characters are shown, including those at the end. For example, in a terminal that shows a paragraph in
 * rows of 80 characters:
 *
 *     status = hordguli_base(&tables, HORDGULI_WEAK_LTR, characters, count, &base);
 *     if (!status) status = hordguli_levels(&tables, HORDGULI_WEAK_LTR, characters, count, count, levels);
 *     for (size_t at = 0; !status && at < count; at += length) {
 *         length = count - at < 80 ? count - at : 80;
 *         status = hordguli_row(&tables, 0, base, length, characters + at, levels + at, 80, visual, NULL, NULL, NULL);
 *     }
 *
 * OUT_OF_RANGE means that `base` is above 1, a level is above 126, or `count` is above UINT32_MAX.
 * Errors: NULL, OVERLAP, UNKNOWN_OPTION, CLOSED, NO_ROOM, NOT_A_CHARACTER, OUT_OF_RANGE, NO_MEMORY.
 * Cost: memory proportional to `count`, and time proportional to `count` times the highest level of the row.
 * Since: 0.6. */
hordguli_status hordguli_row(hordguli_tables *tables, uint32_t options, uint32_t base, size_t count,
                             const uint32_t *characters, const uint8_t *levels, size_t capacity, uint32_t *visual,
                             uint8_t *row_levels, uint32_t *ltov, uint32_t *vtol);

/* Stores the directional runs of a row, from left to right, for shaping text (see `hordguli_runs`). Positions
 * count from the start of the row. `base`, `characters` and `levels` are as in `hordguli_row`. The number of
 * runs is stored in `*run_count`, and the runs in an array of `capacity` elements. With NULL and capacity 0,
 * returns NO_ROOM, unless `count` is 0 (see BUFFERS). NO_MEMORY comes before NO_ROOM, because memory for the
 * levels after L1 is allocated first.
 * Errors: NULL, OVERLAP, CLOSED, NOT_A_CHARACTER, OUT_OF_RANGE, NO_MEMORY, NO_ROOM.
 * Cost: as for `hordguli_row`.
 * Since: 0.6. */
hordguli_status hordguli_row_runs(hordguli_tables *tables, uint32_t base, size_t count, const uint32_t *characters,
                                  const uint8_t *levels, size_t capacity, hordguli_run *runs, size_t *run_count);

/* ---- Levels and properties ----
 *
 * `hordguli_base`, `hordguli_levels`, `hordguli_marks`, `hordguli_reasons` and `hordguli_break_reasons` take
 * one paragraph of `count` characters, and do not split it at separators. `direction` is a base direction or
 * 0, optionally combined with HORDGULI_LINE_SEPARATORS. NO_ROOM means that `capacity` is less than `count`.
 *
 * To lay out text with these functions, a caller must:
 *   - split the text into paragraphs (UAX #9, P1);
 *   - choose where rows end, by break marks and the widths of characters (`hordguli_properties`);
 *   - put each row into visual order (`hordguli_row`). */

/* Stores in `*base` the base level of a paragraph, 0 or 1.
 * Errors: NULL, OVERLAP, UNKNOWN_OPTION, CLOSED, NOT_A_CHARACTER, NO_MEMORY.
 * Cost: time and memory proportional to `count`. */
hordguli_status hordguli_base(hordguli_tables *tables, uint32_t direction, const uint32_t *characters, size_t count,
                              uint32_t *base);

/* Stores in `levels` the level of each character, before L1 is applied. NULL returns NO_ROOM, unless `count`
 * is 0 (see BUFFERS).
 * Errors: NULL, OVERLAP, UNKNOWN_OPTION, CLOSED, NO_ROOM, NOT_A_CHARACTER, NO_MEMORY.
 * Cost: time and memory proportional to `count`. */
hordguli_status hordguli_levels(hordguli_tables *tables, uint32_t direction, const uint32_t *characters, size_t count,
                                size_t capacity, uint8_t *levels);

/* Stores in `marks` the break mark after each character. `options` can have HORDGULI_WHOLE_NUMBERS. NULL
 * returns NO_ROOM, unless `count` is 0 (see BUFFERS).
 * Errors: NULL, OVERLAP, UNKNOWN_OPTION, CLOSED, NO_ROOM, NOT_A_CHARACTER, NO_MEMORY.
 * Cost: time and memory proportional to `count`. */
hordguli_status hordguli_marks(hordguli_tables *tables, uint32_t options, const uint32_t *characters, size_t count,
                               size_t capacity, uint8_t *marks);

/* Which case of N0 (UAX #9) applies to a bracket, or why it is unpaired. Numbers (EN, AN) count as R, a
 * strong type. */
#define HORDGULI_BRACKET_CASE_B 1           /* a strong type of the embedding direction inside the pair */
#define HORDGULI_BRACKET_CASE_C1 2          /* only the opposite direction inside, and also before the pair */
#define HORDGULI_BRACKET_CASE_C2 3          /* only the opposite direction inside, but not before the pair */
#define HORDGULI_BRACKET_CASE_D 4           /* no strong type inside, so N0 does not change the pair */
#define HORDGULI_BRACKET_CASE_NOT_OTHER 5   /* unpaired: before N0, its type is not ON */
#define HORDGULI_BRACKET_CASE_NO_MATCH 6    /* unpaired: no bracket of its sequence matches */
#define HORDGULI_BRACKET_CASE_PAST_LIMIT 7  /* unpaired: pairing stopped with 63 brackets open (BD16) */

/* The rule that decides the type of a neutral (UAX #9). */
#define HORDGULI_NEUTRAL_N1 1
#define HORDGULI_NEUTRAL_N2 2

/* How the algorithm arrives at the level of a character (UAX #9). A position that does not exist is
 * UINT32_MAX, and a class that does not exist is 0xFF. A character that X9 removes has no `sequence`, `sos`
 * or `eos`, no classes after the original one, and no bracket case. Its `left` is the last character before
 * it that X9 keeps, which determines its level. */
typedef struct hordguli_reason {
    uint32_t opener;         /* innermost embedding, override or isolate around it that does not overflow */
    uint32_t matching;       /* matching PDI of an isolate initiator, or matching initiator of a PDI */
    uint32_t sequence;       /* first character of its isolating run sequence */
    uint32_t partner;        /* other bracket of its pair; for a mark that N0 changes, the bracket before */
    uint32_t inside;         /* the character inside a pair that determines case B, C1 or C2 */
    uint32_t left;           /* the character before a run of neutrals */
    uint32_t right;          /* the character after a run of neutrals */
    uint8_t class_after[11]; /* HORDGULI_BIDI_CLASS_..: original, after X8, W1 to W7, N0 and N2 */
    uint8_t override_class;  /* direction of the override that applies to it, L or R */
    uint8_t embedding_level; /* after X8 */
    uint8_t level;           /* as `hordguli_levels` stores it */
    uint8_t sos;             /* direction at the start of the sequence, L or R */
    uint8_t eos;             /* direction at the end of the sequence, L or R */
    uint8_t bracket_case;    /* HORDGULI_BRACKET_CASE_.., or 0 if it is not a bracket */
    uint8_t neutral;         /* HORDGULI_NEUTRAL_.., or 0 if its type after N0 is not neutral */
} hordguli_reason;

/* Stores in `reasons` how the algorithm arrives at the level of each character. The levels are those of
 * `hordguli_levels`. NULL returns NO_ROOM, unless `count` is 0 (see BUFFERS).
 * Errors: NULL, OVERLAP, UNKNOWN_OPTION, CLOSED, NO_ROOM, OUT_OF_RANGE (`count` is UINT32_MAX or more),
 * NOT_A_CHARACTER, NO_MEMORY.
 * Cost: time and memory proportional to `count`.
 * Since: 0.6. */
hordguli_status hordguli_reasons(hordguli_tables *tables, uint32_t direction, const uint32_t *characters, size_t count,
                                 size_t capacity, hordguli_reason *reasons);

/* The rule that decides a break mark (UAX #14), and the bases and classes to which it is applied. A base is a
 * character and what LB9 attaches to it. A position that does not exist is UINT32_MAX. */
typedef struct hordguli_break_reason {
    uint32_t base;           /* start of the base before the mark */
    uint32_t behind_spaces;  /* start of the last such base that is not a space, for rules with `SP*` */
    uint8_t rule;            /* number of the first rule that applies, such as 8 for LB8a */
    uint8_t letter;          /* the rule's letter, such as 'a' for LB8a, or 0 if it has none */
    uint8_t class_before;    /* HORDGULI_LINE_CLASS_.. of the base before the mark, after LB1 and LB10 */
    uint8_t class_after;     /* that of the next base or, in a base, of the next character; 0xFF at the end */
    uint8_t mark;            /* as `hordguli_marks` stores it */
} hordguli_break_reason;

/* Stores in `reasons` which rule decides the break mark after each character. The rules are those of the
 * tables' Unicode version. `options` can have HORDGULI_WHOLE_NUMBERS. NULL returns NO_ROOM, unless `count` is
 * 0 (see BUFFERS). The marks are those of `hordguli_marks`.
 * Errors: NULL, OVERLAP, UNKNOWN_OPTION, CLOSED, NO_ROOM, OUT_OF_RANGE (`count` is UINT32_MAX or more),
 * NOT_A_CHARACTER, NO_MEMORY.
 * Cost: time and memory proportional to `count`.
 * Since: 0.6. */
hordguli_status hordguli_break_reasons(hordguli_tables *tables, uint32_t options, const uint32_t *characters,
                                       size_t count, size_t capacity, hordguli_break_reason *reasons);

/* Bidi classes (UAX #9), by their short names. */
#define HORDGULI_BIDI_CLASS_L 0
#define HORDGULI_BIDI_CLASS_R 1
#define HORDGULI_BIDI_CLASS_AL 2
#define HORDGULI_BIDI_CLASS_EN 3
#define HORDGULI_BIDI_CLASS_ES 4
#define HORDGULI_BIDI_CLASS_ET 5
#define HORDGULI_BIDI_CLASS_AN 6
#define HORDGULI_BIDI_CLASS_CS 7
#define HORDGULI_BIDI_CLASS_NSM 8
#define HORDGULI_BIDI_CLASS_BN 9
#define HORDGULI_BIDI_CLASS_B 10
#define HORDGULI_BIDI_CLASS_S 11
#define HORDGULI_BIDI_CLASS_WS 12
#define HORDGULI_BIDI_CLASS_ON 13
#define HORDGULI_BIDI_CLASS_LRE 14
#define HORDGULI_BIDI_CLASS_LRO 15
#define HORDGULI_BIDI_CLASS_RLE 16
#define HORDGULI_BIDI_CLASS_RLO 17
#define HORDGULI_BIDI_CLASS_PDF 18
#define HORDGULI_BIDI_CLASS_LRI 19
#define HORDGULI_BIDI_CLASS_RLI 20
#define HORDGULI_BIDI_CLASS_FSI 21
#define HORDGULI_BIDI_CLASS_PDI 22

/* Line breaking classes (UAX #14), by their short names. Tables of Unicode 15.0 have the classes up to XX. */
#define HORDGULI_LINE_CLASS_BK 0
#define HORDGULI_LINE_CLASS_CM 1
#define HORDGULI_LINE_CLASS_CR 2
#define HORDGULI_LINE_CLASS_GL 3
#define HORDGULI_LINE_CLASS_LF 4
#define HORDGULI_LINE_CLASS_NL 5
#define HORDGULI_LINE_CLASS_SP 6
#define HORDGULI_LINE_CLASS_WJ 7
#define HORDGULI_LINE_CLASS_ZW 8
#define HORDGULI_LINE_CLASS_ZWJ 9
#define HORDGULI_LINE_CLASS_B2 10
#define HORDGULI_LINE_CLASS_BA 11
#define HORDGULI_LINE_CLASS_BB 12
#define HORDGULI_LINE_CLASS_CB 13
#define HORDGULI_LINE_CLASS_HY 14
#define HORDGULI_LINE_CLASS_CL 15
#define HORDGULI_LINE_CLASS_CP 16
#define HORDGULI_LINE_CLASS_EX 17
#define HORDGULI_LINE_CLASS_IN 18
#define HORDGULI_LINE_CLASS_NS 19
#define HORDGULI_LINE_CLASS_OP 20
#define HORDGULI_LINE_CLASS_QU 21
#define HORDGULI_LINE_CLASS_IS 22
#define HORDGULI_LINE_CLASS_NU 23
#define HORDGULI_LINE_CLASS_PO 24
#define HORDGULI_LINE_CLASS_PR 25
#define HORDGULI_LINE_CLASS_SY 26
#define HORDGULI_LINE_CLASS_AI 27
#define HORDGULI_LINE_CLASS_AL 28
#define HORDGULI_LINE_CLASS_CJ 29
#define HORDGULI_LINE_CLASS_EB 30
#define HORDGULI_LINE_CLASS_EM 31
#define HORDGULI_LINE_CLASS_H2 32
#define HORDGULI_LINE_CLASS_H3 33
#define HORDGULI_LINE_CLASS_HL 34
#define HORDGULI_LINE_CLASS_ID 35
#define HORDGULI_LINE_CLASS_JL 36
#define HORDGULI_LINE_CLASS_JT 37
#define HORDGULI_LINE_CLASS_JV 38
#define HORDGULI_LINE_CLASS_RI 39
#define HORDGULI_LINE_CLASS_SA 40
#define HORDGULI_LINE_CLASS_SG 41
#define HORDGULI_LINE_CLASS_XX 42
#define HORDGULI_LINE_CLASS_AK 43
#define HORDGULI_LINE_CLASS_AP 44
#define HORDGULI_LINE_CLASS_AS 45
#define HORDGULI_LINE_CLASS_HH 46
#define HORDGULI_LINE_CLASS_VF 47
#define HORDGULI_LINE_CLASS_VI 48

/* Flags: a mark (general category Mn or Mc); a wide character (East Asian width F, W or H). */
#define HORDGULI_MARK UINT32_C(1)
#define HORDGULI_WIDE UINT32_C(2)

/* Whether a character is an opening or a closing bracket (UAX #9, BD14 and BD15). */
#define HORDGULI_BRACKET_NONE 0
#define HORDGULI_BRACKET_OPEN 1
#define HORDGULI_BRACKET_CLOSE 2

/* The properties of a character. */
typedef struct hordguli_character {
    uint32_t mirror;     /* its mirror (UAX #9, L4), or 0 */
    uint32_t pair;       /* the other bracket of its pair, or 0 */
    uint32_t flags;      /* HORDGULI_MARK, HORDGULI_WIDE, both or 0 */
    uint8_t bidi_class;  /* HORDGULI_BIDI_CLASS_.. */
    uint8_t line_class;  /* HORDGULI_LINE_CLASS_.. */
    uint8_t columns;     /* its width, 0 to 3; 0 for a tab and other control characters */
    uint8_t bracket;     /* HORDGULI_BRACKET_.. */
} hordguli_character;

/* Stores the properties of `count` characters in `records`, an array of `count` elements. All properties are from the
 * tables, except the columns (see COLUMNS). A character that no table file names has line breaking class XX, and no
 * mirror, bracket or flags. Its bidi class is L, or with tables of Unicode 17.0 the default in DerivedBidiClass.txt.
 * Errors: NULL, OVERLAP, CLOSED, NOT_A_CHARACTER.
 * Cost: O(count).
 * Since: 0.6. */
hordguli_status hordguli_properties(hordguli_tables *tables, size_t count, const uint32_t *characters,
                                    hordguli_character *records);

#ifdef __cplusplus
}
#endif

#endif
