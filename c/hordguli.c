/* Implements hordguli.h on top of the proved crate hordguli_c. This file checks what the crate cannot: NULL pointers,
 * overlapping arrays, output parameters and handles, and widths of more than 16 bits. The crate checks everything
 * else. */
#include "core.h"

#define PUBLIC __attribute__((visibility("default")))

/* ---- Pointer checks ---- */

typedef struct part {
    const void *at;
    size_t size;
} part;

/* Returns whether a part has more than PTRDIFF_MAX bytes, or ends past the last address. */
static inline int is_too_long(part a) { return a.size > PTRDIFF_MAX || (uintptr_t)a.at > UINTPTR_MAX - a.size; }

/* Returns whether two parts overlap. A part that is too long counts as overlapping. */
static inline int overlap_2(part a, part b) {
    uintptr_t from = (uintptr_t)a.at, other = (uintptr_t)b.at;
    if (is_too_long(a) || is_too_long(b)) return 1;
    return a.size != 0 && b.size != 0 && (from < other ? other - from < a.size : from - other < b.size);
}

static inline int overlap_3(part a, part b, part c) { return overlap_2(a, b) || overlap_2(a, c) || overlap_2(b, c); }

/* Returns whether any two of the parts overlap, as overlap_2 does for two. */
static int overlap(const part *parts, size_t count) {
    for (size_t i = 0; i < count; i++) {
        if (parts[i].size == 0) continue;
        for (size_t j = 0; j < i; j++) {
            if (overlap_2(parts[i], parts[j])) return 1;
        }
    }
    return 0;
}

static size_t times(size_t count, size_t size) { return count > SIZE_MAX / size ? SIZE_MAX : count * size; }

#define OVERLAP(...) overlap((const part[]){__VA_ARGS__}, sizeof((const part[]){__VA_ARGS__}) / sizeof(part))
#define OVERLAP_2(a, b) overlap_2((part)a, (part)b)
#define OVERLAP_3(a, b, c) overlap_3((part)a, (part)b, (part)c)
#define AT(pointer) {(pointer), sizeof *(pointer)}
#define ARRAY(pointer, count) {(pointer), (pointer) == NULL ? 0 : times((count), sizeof *(pointer))}
#define LACKS(pointer, count) ((pointer) == NULL && (count) != 0)

/* The crate needs a non-NULL pointer even for an empty array, but does not read or write there. */
#define BYTES(pointer) ((const uint8_t *)((pointer) == NULL ? (const void *)"" : (const void *)(pointer)))
#define ROOM(type, pointer, none) ((pointer) == NULL ? (none) : (type *)(pointer))
#define OR(pointer, other) ((pointer) == NULL ? &(other) : (pointer))
#define LENGTH(pointer, count) ((pointer) == NULL ? 0 : (count))

/* The array that is passed instead of NULL if there are no characters or advances. */
static const uint32_t no_numbers[1] = {0};
#define NUMBERS(pointer) ((pointer) == NULL ? no_numbers : (pointer))

/* ---- Constants ---- */

PUBLIC const char *hordguli_status_text(hordguli_status status) {
    static const char *const texts[] = {
        [HORDGULI_OK] = "ok",
        [HORDGULI_OUT_OF_RANGE] = "no such position, range, line or paragraph",
        [HORDGULI_WIDTH_OUT_OF_RANGE] = "width out of range",
        [HORDGULI_TEXT_TOO_LONG] = "text too long",
        [HORDGULI_PARAGRAPH_TOO_LONG] = "paragraph too long",
        [HORDGULI_NO_MEMORY] = "out of memory",
        [HORDGULI_TABLE_FAULT] = "a table file or an image is at fault",
        [HORDGULI_NOT_UTF8] = "not UTF-8",
        [HORDGULI_NOT_A_CHARACTER] = "not a character",
        [HORDGULI_CLOSED] = "closed",
        [HORDGULI_ALREADY_OPEN] = "already open",
        [HORDGULI_UNKNOWN_OPTION] = "unknown option",
        [HORDGULI_NO_ROOM] = "buffer too small",
        [HORDGULI_NULL] = "null pointer",
        [HORDGULI_OVERLAP] = "arrays overlap",
        [HORDGULI_UNREAD_FILE] = "cannot read a table file",
        [HORDGULI_NOT_MEASURED] = "not a measured session",
    };
    return status >= 0 && status <= HORDGULI_NOT_MEASURED ? texts[status] : "unknown status";
}

PUBLIC const char *hordguli_version(void) { return HORDGULI_VERSION; }

PUBLIC const char *hordguli_unicode_version(void) { return HORDGULI_UNICODE_VERSION; }

PUBLIC const char *hordguli_width_unicode_version(void) { return HORDGULI_WIDTH_UNICODE_VERSION; }

/* ---- Tables ---- */

PUBLIC hordguli_status hordguli_tables_read_version(hordguli_tables *tables, uint32_t version,
                                                    const hordguli_bytes files[HORDGULI_TABLE_FILES],
                                                    hordguli_table_fault *fault) {
    hordguli_table_fault found = {0, 0, 0};
    const uint8_t *bytes[HORDGULI_TABLE_FILES];
    hordguli_status status;
    if (tables == NULL || files == NULL) return HORDGULI_NULL;
    if (OVERLAP_3(AT(tables), ARRAY(files, HORDGULI_TABLE_FILES), ARRAY(fault, 1))) return HORDGULI_OVERLAP;
    for (size_t k = 0; k < HORDGULI_TABLE_FILES; k++) {
        if (LACKS(files[k].bytes, files[k].length)) return HORDGULI_NULL;
        if (OVERLAP(AT(tables), ARRAY(fault, 1), {files[k].bytes, files[k].length})) return HORDGULI_OVERLAP;
        bytes[k] = BYTES(files[k].bytes);
    }
    status = (hordguli_status)hordguli_core_tables_read_version(
        tables, version, bytes[0], files[0].length, bytes[1], files[1].length, bytes[2], files[2].length, bytes[3],
        files[3].length, bytes[4], files[4].length, bytes[5], files[5].length, bytes[6], files[6].length, &found);
    if (status == HORDGULI_TABLE_FAULT && fault != NULL) *fault = found;
    return status;
}

PUBLIC hordguli_status hordguli_tables_read(hordguli_tables *tables, const hordguli_bytes files[HORDGULI_TABLE_FILES],
                                            hordguli_table_fault *fault) {
    return hordguli_tables_read_version(tables, HORDGULI_UNICODE_15_0, files, fault);
}

PUBLIC hordguli_status hordguli_tables_open_image(hordguli_tables *tables, const void *image, size_t length,
                                                  hordguli_table_fault *fault) {
    hordguli_table_fault found = {0, 0, 0};
    hordguli_status status;
    if (tables == NULL || LACKS(image, length)) return HORDGULI_NULL;
    if (OVERLAP(AT(tables), ARRAY(fault, 1), {image, length})) return HORDGULI_OVERLAP;
    status = (hordguli_status)hordguli_core_tables_open_image(tables, BYTES(image), length, &found);
    if (status == HORDGULI_TABLE_FAULT && fault != NULL) *fault = found;
    return status;
}

PUBLIC hordguli_status hordguli_tables_open_builtin_version(hordguli_tables *tables, uint32_t version) {
    if (tables == NULL) return HORDGULI_NULL;
    switch (version) {
        case HORDGULI_UNICODE_15_0:
            return hordguli_tables_open_image(tables, hordguli_image_15_0, hordguli_image_15_0_length, NULL);
        case HORDGULI_UNICODE_17_0:
            return hordguli_tables_open_image(tables, hordguli_image_17_0, hordguli_image_17_0_length, NULL);
        default: return HORDGULI_UNKNOWN_OPTION;
    }
}

PUBLIC hordguli_status hordguli_tables_open_builtin(hordguli_tables *tables) {
    return hordguli_tables_open_builtin_version(tables, HORDGULI_UNICODE_15_0);
}

PUBLIC hordguli_status hordguli_tables_version(hordguli_tables *tables, uint32_t *version) {
    if (tables == NULL || version == NULL) return HORDGULI_NULL;
    if (OVERLAP_2(AT(tables), AT(version))) return HORDGULI_OVERLAP;
    return (hordguli_status)hordguli_core_tables_version(tables, version);
}

PUBLIC void hordguli_tables_close(hordguli_tables *tables) {
    if (tables != NULL) hordguli_core_tables_close(tables);
}

/* ---- Whole texts ---- */

PUBLIC hordguli_status hordguli_layout(hordguli_tables *tables, uint32_t options, uint32_t width, uint32_t print,
                                       const char *text, size_t length, size_t capacity, char *buffer,
                                       size_t *written) {
    uint8_t none[1];
    if (tables == NULL || written == NULL || LACKS(text, length) || LACKS(buffer, capacity)) return HORDGULI_NULL;
    if (OVERLAP(AT(tables), AT(written), ARRAY(buffer, capacity), ARRAY(text, length))) return HORDGULI_OVERLAP;
    if (width > UINT16_MAX) return HORDGULI_WIDTH_OUT_OF_RANGE;
    return (hordguli_status)hordguli_core_layout(tables, options, (uint16_t)width, print, BYTES(text), length,
                                                 ROOM(uint8_t, buffer, none), capacity, written);
}

PUBLIC hordguli_status hordguli_count_utf8(const char *bytes, size_t length, size_t *count) {
    if (count == NULL || LACKS(bytes, length)) return HORDGULI_NULL;
    if (OVERLAP_2(AT(count), ARRAY(bytes, length))) return HORDGULI_OVERLAP;
    return (hordguli_status)hordguli_core_count_utf8(BYTES(bytes), length, count);
}

PUBLIC hordguli_status hordguli_valid_utf8(const char *bytes, size_t length, size_t *valid) {
    if (valid == NULL || LACKS(bytes, length)) return HORDGULI_NULL;
    if (OVERLAP_2(AT(valid), ARRAY(bytes, length))) return HORDGULI_OVERLAP;
    return (hordguli_status)hordguli_core_valid_utf8(BYTES(bytes), length, valid);
}

PUBLIC hordguli_status hordguli_decode(const char *bytes, size_t length, size_t capacity, uint32_t *characters,
                                       size_t *offsets, size_t *count) {
    uint32_t no_characters[1];
    size_t no_offsets[1];
    uint32_t wanted = (characters != NULL ? HORDGULI_CORE_DECODED_CHARACTERS : 0)
                      | (offsets != NULL ? HORDGULI_CORE_DECODED_OFFSETS : 0);
    if (count == NULL || LACKS(bytes, length)) return HORDGULI_NULL;
    if (OVERLAP(AT(count), ARRAY(characters, capacity), ARRAY(offsets, capacity), ARRAY(bytes, length)))
        return HORDGULI_OVERLAP;
    return (hordguli_status)hordguli_core_decode(
        BYTES(bytes), length, wanted, ROOM(uint32_t, characters, no_characters), LENGTH(characters, capacity),
        ROOM(size_t, offsets, no_offsets), LENGTH(offsets, capacity), count);
}

/* ---- Sessions and edits ---- */

PUBLIC hordguli_status hordguli_session_open(hordguli_session *session, hordguli_tables *tables, uint32_t options,
                                             uint32_t width, const char *text, size_t length) {
    if (session == NULL || tables == NULL || LACKS(text, length)) return HORDGULI_NULL;
    if (OVERLAP_3(AT(session), AT(tables), ARRAY(text, length))) return HORDGULI_OVERLAP;
    if (width > UINT16_MAX) return HORDGULI_WIDTH_OUT_OF_RANGE;
    return (hordguli_status)hordguli_core_session_open(session, tables, options, (uint16_t)width, BYTES(text), length);
}

PUBLIC hordguli_status hordguli_session_open_measured(hordguli_session *session, hordguli_tables *tables,
                                                      uint32_t options, uint32_t width, const char *text,
                                                      size_t length) {
    if (session == NULL || tables == NULL || LACKS(text, length)) return HORDGULI_NULL;
    if (OVERLAP_3(AT(session), AT(tables), ARRAY(text, length))) return HORDGULI_OVERLAP;
    return (hordguli_status)hordguli_core_session_open_measured(session, tables, options, width, BYTES(text), length);
}

PUBLIC void hordguli_session_close(hordguli_session *session) {
    if (session != NULL) hordguli_core_session_close(session);
}

PUBLIC hordguli_status hordguli_insert(hordguli_session *session, size_t pos, const char *text, size_t length,
                                       hordguli_damage *damage) {
    hordguli_damage unused;
    if (session == NULL || LACKS(text, length)) return HORDGULI_NULL;
    if (OVERLAP_3(AT(session), ARRAY(damage, 1), ARRAY(text, length))) return HORDGULI_OVERLAP;
    return (hordguli_status)hordguli_core_insert(session, pos, BYTES(text), length, OR(damage, unused));
}

PUBLIC hordguli_status hordguli_delete(hordguli_session *session, size_t pos, size_t count, hordguli_damage *damage) {
    hordguli_damage unused;
    if (session == NULL) return HORDGULI_NULL;
    if (OVERLAP_2(AT(session), ARRAY(damage, 1))) return HORDGULI_OVERLAP;
    return (hordguli_status)hordguli_core_delete(session, pos, count, OR(damage, unused));
}

PUBLIC hordguli_status hordguli_replace(hordguli_session *session, size_t pos, size_t count, const char *text,
                                        size_t length, hordguli_damage *damage) {
    hordguli_damage unused;
    if (session == NULL || LACKS(text, length)) return HORDGULI_NULL;
    if (OVERLAP_3(AT(session), ARRAY(damage, 1), ARRAY(text, length))) return HORDGULI_OVERLAP;
    return (hordguli_status)hordguli_core_replace(session, pos, count, BYTES(text), length, OR(damage, unused));
}

PUBLIC hordguli_status hordguli_set_width(hordguli_session *session, uint32_t width, hordguli_damage *damage) {
    hordguli_damage unused;
    if (session == NULL) return HORDGULI_NULL;
    if (OVERLAP_2(AT(session), ARRAY(damage, 1))) return HORDGULI_OVERLAP;
    if (width == 0 || width > UINT16_MAX) return HORDGULI_WIDTH_OUT_OF_RANGE;
    return (hordguli_status)hordguli_core_set_width(session, (uint16_t)width, OR(damage, unused));
}

PUBLIC hordguli_status hordguli_set_measured_width(hordguli_session *session, uint32_t width, hordguli_damage *damage) {
    hordguli_damage unused;
    if (session == NULL) return HORDGULI_NULL;
    if (OVERLAP_2(AT(session), ARRAY(damage, 1))) return HORDGULI_OVERLAP;
    return (hordguli_status)hordguli_core_set_measured_width(session, width, OR(damage, unused));
}

PUBLIC hordguli_status hordguli_set_advances(hordguli_session *session, size_t pos, size_t count,
                                             const uint32_t *advances, hordguli_damage *damage) {
    hordguli_damage unused;
    if (session == NULL || LACKS(advances, count)) return HORDGULI_NULL;
    if (OVERLAP_3(AT(session), ARRAY(damage, 1), ARRAY(advances, count))) return HORDGULI_OVERLAP;
    return (hordguli_status)hordguli_core_set_advances(session, pos, NUMBERS(advances), count, OR(damage, unused));
}

PUBLIC hordguli_status hordguli_changed_lines(hordguli_session *session, hordguli_changed *changed) {
    if (session == NULL || changed == NULL) return HORDGULI_NULL;
    if (OVERLAP_2(AT(session), AT(changed))) return HORDGULI_OVERLAP;
    return (hordguli_status)hordguli_core_changed_lines(session, changed);
}

PUBLIC hordguli_status hordguli_session_counts(hordguli_session *session, hordguli_counts *counts) {
    if (session == NULL || counts == NULL) return HORDGULI_NULL;
    if (OVERLAP_2(AT(session), AT(counts))) return HORDGULI_OVERLAP;
    return (hordguli_status)hordguli_core_session_counts(session, counts);
}

PUBLIC hordguli_status hordguli_session_work(hordguli_session *session, hordguli_work *work) {
    if (session == NULL || work == NULL) return HORDGULI_NULL;
    if (OVERLAP_2(AT(session), AT(work))) return HORDGULI_OVERLAP;
    return (hordguli_status)hordguli_core_session_work(session, work);
}

/* ---- Lines and text ---- */

PUBLIC hordguli_status hordguli_line_start(hordguli_session *session, size_t line, size_t *start) {
    if (session == NULL || start == NULL) return HORDGULI_NULL;
    if (OVERLAP_2(AT(session), AT(start))) return HORDGULI_OVERLAP;
    return (hordguli_status)hordguli_core_line_start(session, line, start);
}

PUBLIC hordguli_status hordguli_line(hordguli_session *session, size_t line, hordguli_line_info *info, size_t capacity,
                                     uint32_t *characters, uint8_t *levels, uint32_t *ltov, uint32_t *vtol,
                                     size_t *columns) {
    uint32_t none[1];
    uint8_t no_levels[1];
    size_t no_columns[1];
    uint32_t wanted = (characters != NULL ? HORDGULI_CORE_CHARACTERS : 0) | (levels != NULL ? HORDGULI_CORE_LEVELS : 0)
                      | (ltov != NULL ? HORDGULI_CORE_LTOV : 0) | (vtol != NULL ? HORDGULI_CORE_VTOL : 0)
                      | (columns != NULL ? HORDGULI_CORE_COLUMNS : 0);
    if (session == NULL || info == NULL) return HORDGULI_NULL;
    if (OVERLAP(AT(session), AT(info), ARRAY(characters, capacity), ARRAY(levels, capacity), ARRAY(ltov, capacity),
                ARRAY(vtol, capacity), ARRAY(columns, capacity)))
        return HORDGULI_OVERLAP;
    return (hordguli_status)hordguli_core_line(
        session, line, info, wanted, ROOM(uint32_t, characters, none), LENGTH(characters, capacity),
        ROOM(uint8_t, levels, no_levels), LENGTH(levels, capacity), ROOM(uint32_t, ltov, none), LENGTH(ltov, capacity),
        ROOM(uint32_t, vtol, none), LENGTH(vtol, capacity), ROOM(size_t, columns, no_columns),
        LENGTH(columns, capacity));
}

PUBLIC hordguli_status hordguli_runs(hordguli_session *session, size_t line, size_t capacity, hordguli_run *runs,
                                     size_t *count) {
    hordguli_run none[1];
    if (session == NULL || count == NULL || LACKS(runs, capacity)) return HORDGULI_NULL;
    if (OVERLAP_3(AT(session), AT(count), ARRAY(runs, capacity))) return HORDGULI_OVERLAP;
    return (hordguli_status)hordguli_core_runs(session, line, ROOM(hordguli_run, runs, none), capacity, count);
}

PUBLIC hordguli_status hordguli_lines_utf8(hordguli_session *session, size_t first, size_t count, uint32_t print,
                                           size_t capacity, char *buffer, size_t *length) {
    uint8_t none[1];
    if (session == NULL || length == NULL || LACKS(buffer, capacity)) return HORDGULI_NULL;
    if (OVERLAP_3(AT(session), AT(length), ARRAY(buffer, capacity))) return HORDGULI_OVERLAP;
    return (hordguli_status)hordguli_core_lines_utf8(session, first, count, print, ROOM(uint8_t, buffer, none),
                                                     capacity, length);
}

PUBLIC hordguli_status hordguli_text(hordguli_session *session, size_t pos, size_t count, size_t capacity, char *buffer,
                                     size_t *length) {
    uint8_t none[1];
    if (session == NULL || length == NULL || LACKS(buffer, capacity)) return HORDGULI_NULL;
    if (OVERLAP_3(AT(session), AT(length), ARRAY(buffer, capacity))) return HORDGULI_OVERLAP;
    return (hordguli_status)hordguli_core_text(session, pos, count, ROOM(uint8_t, buffer, none), capacity, length);
}

PUBLIC hordguli_status hordguli_text_utf32(hordguli_session *session, size_t pos, size_t count, size_t capacity,
                                           uint32_t *characters, size_t *length) {
    uint32_t none[1];
    if (session == NULL || length == NULL || LACKS(characters, capacity)) return HORDGULI_NULL;
    if (OVERLAP_3(AT(session), AT(length), ARRAY(characters, capacity))) return HORDGULI_OVERLAP;
    return (hordguli_status)hordguli_core_text_utf32(session, pos, count, ROOM(uint32_t, characters, none), capacity,
                                                     length);
}

PUBLIC hordguli_status hordguli_utf8_length(hordguli_session *session, size_t pos, size_t count, size_t *length) {
    if (session == NULL || length == NULL) return HORDGULI_NULL;
    if (OVERLAP_2(AT(session), AT(length))) return HORDGULI_OVERLAP;
    return (hordguli_status)hordguli_core_utf8_length(session, pos, count, length);
}

PUBLIC hordguli_status hordguli_byte_of(hordguli_session *session, size_t pos, size_t *byte) {
    if (session == NULL || byte == NULL) return HORDGULI_NULL;
    if (OVERLAP_2(AT(session), AT(byte))) return HORDGULI_OVERLAP;
    return (hordguli_status)hordguli_core_byte_of(session, pos, byte);
}

PUBLIC hordguli_status hordguli_utf16_of(hordguli_session *session, size_t pos, size_t *unit) {
    if (session == NULL || unit == NULL) return HORDGULI_NULL;
    if (OVERLAP_2(AT(session), AT(unit))) return HORDGULI_OVERLAP;
    return (hordguli_status)hordguli_core_utf16_of(session, pos, unit);
}

PUBLIC hordguli_status hordguli_position_of_byte(hordguli_session *session, size_t byte, hordguli_position *position) {
    if (session == NULL || position == NULL) return HORDGULI_NULL;
    if (OVERLAP_2(AT(session), AT(position))) return HORDGULI_OVERLAP;
    return (hordguli_status)hordguli_core_position_of_byte(session, byte, position);
}

PUBLIC hordguli_status hordguli_position_of_utf16(hordguli_session *session, size_t unit, hordguli_position *position) {
    if (session == NULL || position == NULL) return HORDGULI_NULL;
    if (OVERLAP_2(AT(session), AT(position))) return HORDGULI_OVERLAP;
    return (hordguli_status)hordguli_core_position_of_utf16(session, unit, position);
}

PUBLIC hordguli_status hordguli_paragraph(hordguli_session *session, size_t paragraph, hordguli_paragraph_info *info,
                                          size_t capacity, uint8_t *levels, uint8_t *marks) {
    uint8_t none[1];
    uint32_t wanted = (levels != NULL ? HORDGULI_CORE_PARAGRAPH_LEVELS : 0)
                      | (marks != NULL ? HORDGULI_CORE_PARAGRAPH_MARKS : 0);
    if (session == NULL || info == NULL) return HORDGULI_NULL;
    if (OVERLAP(AT(session), AT(info), ARRAY(levels, capacity), ARRAY(marks, capacity))) return HORDGULI_OVERLAP;
    return (hordguli_status)hordguli_core_paragraph(session, paragraph, info, wanted, ROOM(uint8_t, levels, none),
                                                    LENGTH(levels, capacity), ROOM(uint8_t, marks, none),
                                                    LENGTH(marks, capacity));
}

/* ---- Carets and edges ---- */

PUBLIC hordguli_status hordguli_place_of(hordguli_session *session, size_t pos, hordguli_place *place) {
    if (session == NULL || place == NULL) return HORDGULI_NULL;
    if (OVERLAP_2(AT(session), AT(place))) return HORDGULI_OVERLAP;
    return (hordguli_status)hordguli_core_place_of(session, pos, place);
}

PUBLIC hordguli_status hordguli_caret_at(hordguli_session *session, size_t pos, hordguli_caret *caret) {
    if (session == NULL || caret == NULL) return HORDGULI_NULL;
    if (OVERLAP_2(AT(session), AT(caret))) return HORDGULI_OVERLAP;
    return (hordguli_status)hordguli_core_caret_at(session, pos, caret);
}

PUBLIC hordguli_status hordguli_hit_at(hordguli_session *session, size_t line, size_t column, hordguli_hit *hit) {
    if (session == NULL || hit == NULL) return HORDGULI_NULL;
    if (OVERLAP_2(AT(session), AT(hit))) return HORDGULI_OVERLAP;
    return (hordguli_status)hordguli_core_hit_at(session, line, column, hit);
}

PUBLIC hordguli_status hordguli_cluster_at(hordguli_session *session, size_t pos, hordguli_cluster *cluster) {
    if (session == NULL || cluster == NULL) return HORDGULI_NULL;
    if (OVERLAP_2(AT(session), AT(cluster))) return HORDGULI_OVERLAP;
    return (hordguli_status)hordguli_core_cluster_at(session, pos, cluster);
}

PUBLIC hordguli_status hordguli_word_at(hordguli_session *session, size_t pos, hordguli_word *word) {
    if (session == NULL || word == NULL) return HORDGULI_NULL;
    if (OVERLAP_2(AT(session), AT(word))) return HORDGULI_OVERLAP;
    return (hordguli_status)hordguli_core_word_at(session, pos, word);
}

PUBLIC hordguli_status hordguli_spans(hordguli_session *session, size_t line, size_t from, size_t to, size_t capacity,
                                      hordguli_span *spans, size_t *count) {
    hordguli_span none[1];
    if (session == NULL || count == NULL || LACKS(spans, capacity)) return HORDGULI_NULL;
    if (OVERLAP_3(AT(session), AT(count), ARRAY(spans, capacity))) return HORDGULI_OVERLAP;
    return (hordguli_status)hordguli_core_spans(session, line, from, to, ROOM(hordguli_span, spans, none), capacity,
                                                count);
}

PUBLIC hordguli_status hordguli_edge_caret(hordguli_session *session, hordguli_edge edge, hordguli_caret *caret) {
    if (session == NULL || caret == NULL) return HORDGULI_NULL;
    if (OVERLAP_2(AT(session), AT(caret))) return HORDGULI_OVERLAP;
    return (hordguli_status)hordguli_core_edge_caret(session, edge.pos, edge.side, caret);
}

PUBLIC hordguli_status hordguli_step(hordguli_session *session, hordguli_edge edge, uint32_t direction,
                                     hordguli_edge *next, uint32_t *moved) {
    if (session == NULL || next == NULL || moved == NULL) return HORDGULI_NULL;
    if (OVERLAP_3(AT(session), AT(next), AT(moved))) return HORDGULI_OVERLAP;
    return (hordguli_status)hordguli_core_step(session, edge.pos, edge.side, direction, next, moved);
}

PUBLIC hordguli_status hordguli_edge_at(hordguli_session *session, size_t line, size_t column, hordguli_edge *edge) {
    if (session == NULL || edge == NULL) return HORDGULI_NULL;
    if (OVERLAP_2(AT(session), AT(edge))) return HORDGULI_OVERLAP;
    return (hordguli_status)hordguli_core_edge_at(session, line, column, edge);
}

PUBLIC hordguli_status hordguli_nearest_edge(hordguli_session *session, size_t line, size_t column, hordguli_edge *edge) {
    if (session == NULL || edge == NULL) return HORDGULI_NULL;
    if (OVERLAP_2(AT(session), AT(edge))) return HORDGULI_OVERLAP;
    return (hordguli_status)hordguli_core_nearest_edge(session, line, column, edge);
}

PUBLIC hordguli_status hordguli_line_edges(hordguli_session *session, size_t line, hordguli_edge *first,
                                           hordguli_edge *last) {
    if (session == NULL || first == NULL || last == NULL) return HORDGULI_NULL;
    if (OVERLAP_3(AT(session), AT(first), AT(last))) return HORDGULI_OVERLAP;
    return (hordguli_status)hordguli_core_line_edges(session, line, first, last);
}

PUBLIC hordguli_status hordguli_line_clusters(hordguli_session *session, size_t line, size_t capacity, size_t *ends,
                                              size_t *count) {
    size_t none[1];
    if (session == NULL || count == NULL || LACKS(ends, capacity)) return HORDGULI_NULL;
    if (OVERLAP_3(AT(session), AT(count), ARRAY(ends, capacity))) return HORDGULI_OVERLAP;
    return (hordguli_status)hordguli_core_line_clusters(session, line, ROOM(size_t, ends, none), capacity, count);
}

/* ---- Clusters and scripts ---- */

PUBLIC hordguli_status hordguli_clusters(size_t count, const uint32_t *characters, size_t capacity, size_t *ends,
                                         size_t *cluster_count) {
    size_t none[1];
    if (cluster_count == NULL || LACKS(characters, count) || LACKS(ends, capacity)) return HORDGULI_NULL;
    if (OVERLAP_3(AT(cluster_count), ARRAY(ends, capacity), ARRAY(characters, count))) return HORDGULI_OVERLAP;
    return (hordguli_status)hordguli_core_clusters(NUMBERS(characters), count, ROOM(size_t, ends, none), capacity,
                                                   cluster_count);
}

PUBLIC hordguli_status hordguli_script_runs(hordguli_tables *tables, size_t count, const uint32_t *characters,
                                            size_t capacity, hordguli_script_run *runs, size_t *run_count) {
    hordguli_script_run none[1];
    if (tables == NULL || run_count == NULL || LACKS(characters, count) || LACKS(runs, capacity)) return HORDGULI_NULL;
    if (OVERLAP(AT(tables), AT(run_count), ARRAY(runs, capacity), ARRAY(characters, count))) return HORDGULI_OVERLAP;
    return (hordguli_status)hordguli_core_script_runs(tables, NUMBERS(characters), count,
                                                      ROOM(hordguli_script_run, runs, none), capacity, run_count);
}

/* ---- Rows ---- */

PUBLIC hordguli_status hordguli_row(hordguli_tables *tables, uint32_t options, uint32_t base, size_t count,
                                    const uint32_t *characters, const uint8_t *levels, size_t capacity,
                                    uint32_t *visual, uint8_t *row_levels, uint32_t *ltov, uint32_t *vtol) {
    uint32_t none[1];
    uint8_t no_levels[1];
    uint32_t wanted = (visual != NULL ? HORDGULI_CORE_ROW_VISUAL : 0)
                      | (row_levels != NULL ? HORDGULI_CORE_ROW_LEVELS : 0)
                      | (ltov != NULL ? HORDGULI_CORE_ROW_LTOV : 0) | (vtol != NULL ? HORDGULI_CORE_ROW_VTOL : 0);
    if (tables == NULL || LACKS(characters, count) || LACKS(levels, count)) return HORDGULI_NULL;
    if (OVERLAP(AT(tables), ARRAY(visual, capacity), ARRAY(row_levels, capacity), ARRAY(ltov, capacity),
                ARRAY(vtol, capacity), ARRAY(characters, count))
        || OVERLAP(AT(tables), ARRAY(visual, capacity), ARRAY(row_levels, capacity), ARRAY(ltov, capacity),
                   ARRAY(vtol, capacity), ARRAY(levels, count)))
        return HORDGULI_OVERLAP;
    return (hordguli_status)hordguli_core_row(
        tables, options, base, NUMBERS(characters), count, BYTES(levels), count, wanted,
        ROOM(uint32_t, visual, none), LENGTH(visual, capacity), ROOM(uint8_t, row_levels, no_levels),
        LENGTH(row_levels, capacity), ROOM(uint32_t, ltov, none), LENGTH(ltov, capacity), ROOM(uint32_t, vtol, none),
        LENGTH(vtol, capacity));
}

PUBLIC hordguli_status hordguli_row_runs(hordguli_tables *tables, uint32_t base, size_t count,
                                         const uint32_t *characters, const uint8_t *levels, size_t capacity,
                                         hordguli_run *runs, size_t *run_count) {
    hordguli_run none[1];
    if (tables == NULL || run_count == NULL || LACKS(characters, count) || LACKS(levels, count)
        || LACKS(runs, capacity))
        return HORDGULI_NULL;
    if (OVERLAP(AT(tables), AT(run_count), ARRAY(runs, capacity), ARRAY(characters, count))
        || OVERLAP(AT(tables), AT(run_count), ARRAY(runs, capacity), ARRAY(levels, count)))
        return HORDGULI_OVERLAP;
    return (hordguli_status)hordguli_core_row_runs(tables, base, NUMBERS(characters), count, BYTES(levels), count,
                                                   ROOM(hordguli_run, runs, none), capacity, run_count);
}

/* ---- Levels and properties ---- */

PUBLIC hordguli_status hordguli_base(hordguli_tables *tables, uint32_t direction, const uint32_t *characters,
                                     size_t count, uint32_t *base) {
    if (tables == NULL || base == NULL || LACKS(characters, count)) return HORDGULI_NULL;
    if (OVERLAP_3(AT(tables), AT(base), ARRAY(characters, count))) return HORDGULI_OVERLAP;
    return (hordguli_status)hordguli_core_base(tables, direction, NUMBERS(characters), count, base);
}

PUBLIC hordguli_status hordguli_levels(hordguli_tables *tables, uint32_t direction, const uint32_t *characters,
                                       size_t count, size_t capacity, uint8_t *levels) {
    uint8_t none[1];
    if (tables == NULL || LACKS(levels, capacity) || LACKS(characters, count)) return HORDGULI_NULL;
    if (OVERLAP_3(AT(tables), ARRAY(levels, capacity), ARRAY(characters, count))) return HORDGULI_OVERLAP;
    return (hordguli_status)hordguli_core_levels(tables, direction, NUMBERS(characters), count,
                                                 ROOM(uint8_t, levels, none), capacity);
}

PUBLIC hordguli_status hordguli_marks(hordguli_tables *tables, uint32_t options, const uint32_t *characters,
                                      size_t count, size_t capacity, uint8_t *marks) {
    uint8_t none[1];
    if (tables == NULL || LACKS(marks, capacity) || LACKS(characters, count)) return HORDGULI_NULL;
    if (OVERLAP_3(AT(tables), ARRAY(marks, capacity), ARRAY(characters, count))) return HORDGULI_OVERLAP;
    return (hordguli_status)hordguli_core_marks(tables, options, NUMBERS(characters), count,
                                                ROOM(uint8_t, marks, none), capacity);
}

PUBLIC hordguli_status hordguli_reasons(hordguli_tables *tables, uint32_t direction, const uint32_t *characters,
                                        size_t count, size_t capacity, hordguli_reason *reasons) {
    hordguli_reason none[1];
    if (tables == NULL || LACKS(reasons, capacity) || LACKS(characters, count)) return HORDGULI_NULL;
    if (OVERLAP_3(AT(tables), ARRAY(reasons, capacity), ARRAY(characters, count))) return HORDGULI_OVERLAP;
    return (hordguli_status)hordguli_core_reasons(tables, direction, NUMBERS(characters), count,
                                                  ROOM(hordguli_reason, reasons, none), capacity);
}

PUBLIC hordguli_status hordguli_break_reasons(hordguli_tables *tables, uint32_t options, const uint32_t *characters,
                                              size_t count, size_t capacity, hordguli_break_reason *reasons) {
    hordguli_break_reason none[1];
    if (tables == NULL || LACKS(reasons, capacity) || LACKS(characters, count)) return HORDGULI_NULL;
    if (OVERLAP_3(AT(tables), ARRAY(reasons, capacity), ARRAY(characters, count))) return HORDGULI_OVERLAP;
    return (hordguli_status)hordguli_core_break_reasons(tables, options, NUMBERS(characters), count,
                                                        ROOM(hordguli_break_reason, reasons, none), capacity);
}

PUBLIC hordguli_status hordguli_properties(hordguli_tables *tables, size_t count, const uint32_t *characters,
                                           hordguli_character *records) {
    hordguli_character none[1];
    if (tables == NULL || LACKS(characters, count) || LACKS(records, count)) return HORDGULI_NULL;
    if (OVERLAP_3(AT(tables), ARRAY(characters, count), ARRAY(records, count))) return HORDGULI_OVERLAP;
    return (hordguli_status)hordguli_core_properties(tables, NUMBERS(characters), count,
                                                     ROOM(hordguli_character, records, none), count);
}
