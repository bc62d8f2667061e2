/* The functions of the proved crate hordguli_c, on which hordguli.c is built. Each implements the public function of the
 * same name, but relies on hordguli.c to check that pointers are not NULL, widths are below 65,536, and arrays do not
 * overlap.
 *
 * tests/c/exports checks that the parameters have the same names as in the crate. `n` is the index of a line.
 * An array is a pointer and a length. The pointer is never NULL and is aligned for its type, even if the
 * length is 0. A status is one of the numbers 0 to 12 in hordguli.h, or 16. */
#ifndef HORDGULI_CORE_H
#define HORDGULI_CORE_H

#include "hordguli.h"

/* `fault` is never NULL. */
uint32_t hordguli_core_tables_read_version(hordguli_tables *tables, uint32_t version, const uint8_t *bidi_class,
                                           size_t bidi_class_length, const uint8_t *bidi_brackets,
                                           size_t bidi_brackets_length, const uint8_t *bidi_mirroring,
                                           size_t bidi_mirroring_length, const uint8_t *line_break,
                                           size_t line_break_length, const uint8_t *general_category,
                                           size_t general_category_length, const uint8_t *east_asian_width,
                                           size_t east_asian_width_length, const uint8_t *emoji_data,
                                           size_t emoji_data_length, hordguli_table_fault *fault);
uint32_t hordguli_core_tables_open_image(hordguli_tables *tables, const uint8_t *image, size_t image_length,
                                         hordguli_table_fault *fault);
uint32_t hordguli_core_tables_version(hordguli_tables *tables, uint32_t *version);
void hordguli_core_tables_close(hordguli_tables *tables);

/* The contents of ucd/tables.image and ucd-17.0/tables.image, as tools/build_c compiles them. */
extern const uint8_t hordguli_image_15_0[];
extern const size_t hordguli_image_15_0_length;
extern const uint8_t hordguli_image_17_0[];
extern const size_t hordguli_image_17_0_length;

uint32_t hordguli_core_layout(hordguli_tables *tables, uint32_t options, uint16_t width, uint32_t print,
                              const uint8_t *text, size_t text_length, uint8_t *array, size_t array_length,
                              size_t *len);

uint32_t hordguli_core_count_utf8(const uint8_t *bytes, size_t bytes_length, size_t *count);
uint32_t hordguli_core_valid_utf8(const uint8_t *bytes, size_t bytes_length, size_t *valid);

/* Bits of `wanted`, which select the requested arrays. The other arrays have length 0 and are ignored. */
#define HORDGULI_CORE_DECODED_CHARACTERS UINT32_C(1)
#define HORDGULI_CORE_DECODED_OFFSETS UINT32_C(2)
uint32_t hordguli_core_decode(const uint8_t *bytes, size_t bytes_length, uint32_t wanted, uint32_t *characters,
                              size_t characters_length, size_t *offsets, size_t offsets_length, size_t *count);

uint32_t hordguli_core_session_open(hordguli_session *session, hordguli_tables *tables, uint32_t options,
                                    uint16_t width, const uint8_t *text, size_t text_length);
uint32_t hordguli_core_session_open_measured(hordguli_session *session, hordguli_tables *tables, uint32_t options,
                                             uint32_t width, const uint8_t *text, size_t text_length);
void hordguli_core_session_close(hordguli_session *session);

uint32_t hordguli_core_insert(hordguli_session *session, size_t pos, const uint8_t *text, size_t text_length,
                              hordguli_damage *damage);
uint32_t hordguli_core_delete(hordguli_session *session, size_t pos, size_t count, hordguli_damage *damage);
uint32_t hordguli_core_replace(hordguli_session *session, size_t pos, size_t count, const uint8_t *text,
                               size_t text_length, hordguli_damage *damage);
uint32_t hordguli_core_set_width(hordguli_session *session, uint16_t width, hordguli_damage *damage);
uint32_t hordguli_core_set_measured_width(hordguli_session *session, uint32_t width, hordguli_damage *damage);
uint32_t hordguli_core_set_advances(hordguli_session *session, size_t pos, const uint32_t *advances,
                                    size_t advances_length, hordguli_damage *damage);

uint32_t hordguli_core_session_counts(hordguli_session *session, hordguli_counts *counts);
uint32_t hordguli_core_session_work(hordguli_session *session, hordguli_work *work);
uint32_t hordguli_core_changed_lines(hordguli_session *session, hordguli_changed *changed);

uint32_t hordguli_core_line_start(hordguli_session *session, size_t line, size_t *start);

/* Bits of `wanted`, as above. */
#define HORDGULI_CORE_CHARACTERS UINT32_C(1)
#define HORDGULI_CORE_LEVELS UINT32_C(2)
#define HORDGULI_CORE_LTOV UINT32_C(4)
#define HORDGULI_CORE_VTOL UINT32_C(8)
#define HORDGULI_CORE_COLUMNS UINT32_C(16)
uint32_t hordguli_core_line(hordguli_session *session, size_t n, hordguli_line_info *out, uint32_t wanted,
                            uint32_t *characters, size_t characters_length, uint8_t *levels, size_t levels_length,
                            uint32_t *ltov, size_t ltov_length, uint32_t *vtol, size_t vtol_length, size_t *columns,
                            size_t columns_length);

uint32_t hordguli_core_runs(hordguli_session *session, size_t n, hordguli_run *array, size_t array_length,
                            size_t *count);
uint32_t hordguli_core_lines_utf8(hordguli_session *session, size_t first, size_t count, uint32_t print, uint8_t *array,
                                  size_t array_length, size_t *len);
uint32_t hordguli_core_text(hordguli_session *session, size_t pos, size_t count, uint8_t *array, size_t array_length,
                            size_t *len);
uint32_t hordguli_core_text_utf32(hordguli_session *session, size_t pos, size_t count, uint32_t *array,
                                  size_t array_length, size_t *len);
uint32_t hordguli_core_utf8_length(hordguli_session *session, size_t pos, size_t count, size_t *len);

uint32_t hordguli_core_byte_of(hordguli_session *session, size_t pos, size_t *byte);
uint32_t hordguli_core_utf16_of(hordguli_session *session, size_t pos, size_t *unit);
uint32_t hordguli_core_position_of_byte(hordguli_session *session, size_t byte, hordguli_position *position);
uint32_t hordguli_core_position_of_utf16(hordguli_session *session, size_t unit, hordguli_position *position);

/* Bits of `wanted`, as above. */
#define HORDGULI_CORE_PARAGRAPH_LEVELS UINT32_C(1)
#define HORDGULI_CORE_PARAGRAPH_MARKS UINT32_C(2)
uint32_t hordguli_core_paragraph(hordguli_session *session, size_t index, hordguli_paragraph_info *out, uint32_t wanted,
                                 uint8_t *levels, size_t levels_length, uint8_t *marks, size_t marks_length);

uint32_t hordguli_core_place_of(hordguli_session *session, size_t pos, hordguli_place *place);
uint32_t hordguli_core_caret_at(hordguli_session *session, size_t pos, hordguli_caret *caret);
uint32_t hordguli_core_hit_at(hordguli_session *session, size_t line, size_t column, hordguli_hit *hit);
uint32_t hordguli_core_cluster_at(hordguli_session *session, size_t pos, hordguli_cluster *cluster);
uint32_t hordguli_core_word_at(hordguli_session *session, size_t pos, hordguli_word *word);
uint32_t hordguli_core_spans(hordguli_session *session, size_t n, size_t from, size_t to, hordguli_span *array,
                             size_t array_length, size_t *count);
uint32_t hordguli_core_edge_caret(hordguli_session *session, size_t pos, uint32_t side, hordguli_caret *caret);
uint32_t hordguli_core_step(hordguli_session *session, size_t pos, uint32_t side, uint32_t direction,
                            hordguli_edge *next, uint32_t *moved);
uint32_t hordguli_core_edge_at(hordguli_session *session, size_t n, size_t column, hordguli_edge *edge);
uint32_t hordguli_core_nearest_edge(hordguli_session *session, size_t n, size_t column, hordguli_edge *edge);
uint32_t hordguli_core_line_edges(hordguli_session *session, size_t n, hordguli_edge *first, hordguli_edge *last);
uint32_t hordguli_core_line_clusters(hordguli_session *session, size_t n, size_t *array, size_t array_length,
                                     size_t *count);

uint32_t hordguli_core_clusters(const uint32_t *characters, size_t characters_length, size_t *array,
                                size_t array_length, size_t *count);
uint32_t hordguli_core_script_runs(hordguli_tables *tables, const uint32_t *characters, size_t characters_length,
                                   hordguli_script_run *array, size_t array_length, size_t *count);

/* Bits of `wanted`, as above. `levels` has as many elements as `characters`. */
#define HORDGULI_CORE_ROW_VISUAL UINT32_C(1)
#define HORDGULI_CORE_ROW_LEVELS UINT32_C(2)
#define HORDGULI_CORE_ROW_LTOV UINT32_C(4)
#define HORDGULI_CORE_ROW_VTOL UINT32_C(8)
uint32_t hordguli_core_row(hordguli_tables *tables, uint32_t options, uint32_t base, const uint32_t *characters,
                           size_t characters_length, const uint8_t *levels, size_t levels_length, uint32_t wanted,
                           uint32_t *visual, size_t visual_length, uint8_t *row_levels, size_t row_levels_length,
                           uint32_t *ltov, size_t ltov_length, uint32_t *vtol, size_t vtol_length);
uint32_t hordguli_core_row_runs(hordguli_tables *tables, uint32_t base, const uint32_t *characters,
                                size_t characters_length, const uint8_t *levels, size_t levels_length,
                                hordguli_run *array, size_t array_length, size_t *count);

uint32_t hordguli_core_base(hordguli_tables *tables, uint32_t direction, const uint32_t *characters,
                            size_t characters_length, uint32_t *level);
uint32_t hordguli_core_levels(hordguli_tables *tables, uint32_t direction, const uint32_t *characters,
                              size_t characters_length, uint8_t *levels, size_t levels_length);
uint32_t hordguli_core_marks(hordguli_tables *tables, uint32_t options, const uint32_t *characters,
                             size_t characters_length, uint8_t *marks, size_t marks_length);

uint32_t hordguli_core_reasons(hordguli_tables *tables, uint32_t direction, const uint32_t *characters,
                               size_t characters_length, hordguli_reason *records, size_t records_length);
uint32_t hordguli_core_break_reasons(hordguli_tables *tables, uint32_t options, const uint32_t *characters,
                                     size_t characters_length, hordguli_break_reason *records, size_t records_length);

/* Also returns NO_ROOM, checked after CLOSED, if `records_length` is less than `characters_length`. */
uint32_t hordguli_core_properties(hordguli_tables *tables, const uint32_t *characters, size_t characters_length,
                                  hordguli_character *records, size_t records_length);

#endif
