/* Compares two sessions: their printed lines, what they store for each line and paragraph, and places in their texts. Include it after
 * test.h. */
#ifndef SAME_SESSIONS_H
#define SAME_SESSIONS_H

/* The maximum numbers of elements of an array, and of the runs of a line */
enum { SAME_ELEMENTS = 1 << 20, SAME_RUNS = 2048 };

static char pages[2][2 * SAME_ELEMENTS];

#define OK(call) HOLDS((call) == HORDGULI_OK)

/* Compares the printed lines of both sessions. */
static void same_pages(hordguli_session *kept, hordguli_session *anew, const hordguli_counts *counts, uint32_t print) {
    size_t lengths[2];
    OK(hordguli_lines_utf8(kept, 0, counts->lines, print, sizeof *pages, pages[0], &lengths[0]));
    OK(hordguli_lines_utf8(anew, 0, counts->lines, print, sizeof *pages, pages[1], &lengths[1]));
    HOLDS(lengths[0] == lengths[1] && memcmp(pages[0], pages[1], lengths[0]) == 0);
}

static void same_lines(hordguli_session *kept, hordguli_session *anew, const hordguli_counts *counts) {
    static uint32_t characters[2][SAME_ELEMENTS], ltov[2][SAME_ELEMENTS], vtol[2][SAME_ELEMENTS];
    static uint8_t levels[2][SAME_ELEMENTS];
    static size_t columns[2][SAME_ELEMENTS];
    hordguli_session *both[2] = {kept, anew};
    for (size_t line = 0; line < counts->lines; line++) {
        hordguli_line_info infos[2];
        static hordguli_run runs[2][SAME_RUNS];
        size_t starts[2], shown, run_counts[2];
        for (int k = 0; k < 2; k++) {
            OK(hordguli_runs(both[k], line, SAME_RUNS, runs[k], &run_counts[k]));
            OK(hordguli_line(both[k], line, &infos[k], SAME_ELEMENTS, characters[k], levels[k], ltov[k], vtol[k], columns[k]));
            OK(hordguli_line_start(both[k], line, &starts[k]));
        }
        shown = infos[0].shown;
        HOLDS(memcmp(&infos[0], &infos[1], sizeof infos[0]) == 0 && starts[0] == starts[1] && starts[0] == infos[0].start);
        HOLDS(memcmp(characters[0], characters[1], shown * sizeof **characters) == 0);
        HOLDS(memcmp(levels[0], levels[1], shown) == 0);
        HOLDS(memcmp(ltov[0], ltov[1], shown * sizeof **ltov) == 0);
        HOLDS(memcmp(vtol[0], vtol[1], shown * sizeof **vtol) == 0);
        HOLDS(memcmp(columns[0], columns[1], shown * sizeof **columns) == 0);
        HOLDS(run_counts[0] == run_counts[1] && memcmp(runs[0], runs[1], run_counts[0] * sizeof **runs) == 0);
        for (size_t k = 0; k < shown; k++) {
            if (vtol[0][ltov[0][k]] == k) continue;
            HOLDS(!"the maps are inverse");
            break;
        }
    }
    for (size_t paragraph = 0, start = 0, line = 0; paragraph < counts->paragraphs; paragraph++) {
        hordguli_paragraph_info infos[2];
        for (int k = 0; k < 2; k++)
            OK(hordguli_paragraph(both[k], paragraph, &infos[k], SAME_ELEMENTS, levels[k], (uint8_t *)columns[k]));
        HOLDS(memcmp(&infos[0], &infos[1], sizeof infos[0]) == 0);
        HOLDS(infos[0].start == start && infos[0].first_line == line);
        start += infos[0].length;
        line += infos[0].lines;
        HOLDS(memcmp(levels[0], levels[1], infos[0].length) == 0);
        HOLDS(memcmp(columns[0], columns[1], infos[0].length) == 0);
    }
}

/* Compares carets, hits, clusters, words and offsets at random positions. */
static void same_places(hordguli_session *kept, hordguli_session *anew, const hordguli_counts *counts) {
    for (int times = 0; times < 5; times++) {
        size_t pos = below(counts->characters + 1), line = below(counts->lines + 1), column = below(90);
        hordguli_place places[2];
        hordguli_caret carets[2];
        hordguli_hit hits[2];
        hordguli_cluster clusters[2];
        hordguli_word words[2];
        hordguli_position positions[2][2];
        size_t offsets[2][2];
        hordguli_session *both[2] = {kept, anew};
        hordguli_status status[2][5];
        memset(places, 0, sizeof places);
        memset(carets, 0, sizeof carets);
        memset(hits, 0, sizeof hits);
        memset(clusters, 0, sizeof clusters);
        memset(words, 0, sizeof words);
        memset(positions, 0, sizeof positions);
        memset(offsets, 0, sizeof offsets);
        for (int k = 0; k < 2; k++) {
            status[k][0] = hordguli_place_of(both[k], pos, &places[k]);
            status[k][1] = hordguli_caret_at(both[k], pos, &carets[k]);
            status[k][2] = hordguli_hit_at(both[k], line, column, &hits[k]);
            status[k][3] = hordguli_cluster_at(both[k], pos, &clusters[k]);
            status[k][4] = hordguli_word_at(both[k], pos, &words[k]);
            OK(hordguli_byte_of(both[k], pos, &offsets[k][0]));
            OK(hordguli_utf16_of(both[k], pos, &offsets[k][1]));
            OK(hordguli_position_of_byte(both[k], offsets[k][0], &positions[k][0]));
            OK(hordguli_position_of_utf16(both[k], offsets[k][1], &positions[k][1]));
        }
        HOLDS(memcmp(status[0], status[1], sizeof status[0]) == 0);
        HOLDS(status[0][0] == HORDGULI_OK && status[0][1] == HORDGULI_OK);
        HOLDS(status[0][2] == (line < counts->lines ? HORDGULI_OK : HORDGULI_OUT_OF_RANGE));
        HOLDS(status[0][3] == (pos < counts->characters ? HORDGULI_OK : HORDGULI_OUT_OF_RANGE));
        HOLDS(memcmp(&places[0], &places[1], sizeof places[0]) == 0 && memcmp(&carets[0], &carets[1], sizeof carets[0]) == 0);
        HOLDS(memcmp(&hits[0], &hits[1], sizeof hits[0]) == 0 && memcmp(&clusters[0], &clusters[1], sizeof clusters[0]) == 0);
        HOLDS(status[0][3] != HORDGULI_OK || (clusters[0].start <= pos && pos < clusters[0].end));
        HOLDS(memcmp(offsets[0], offsets[1], sizeof offsets[0]) == 0);
        HOLDS(positions[0][0].pos == pos && positions[0][0].rest == 0 && positions[0][1].pos == pos && positions[0][1].rest == 0);
        HOLDS(memcmp(positions[0], positions[1], sizeof positions[0]) == 0);
        HOLDS(status[0][4] == status[0][3] && memcmp(&words[0], &words[1], sizeof words[0]) == 0);
        HOLDS(status[0][4] != HORDGULI_OK || (words[0].start <= pos && pos < words[0].end && words[0].kind <= 1 && words[0].zero == 0));
    }
}

#endif
