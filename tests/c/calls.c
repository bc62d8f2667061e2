/* Tests what each function returns, and each of its statuses. Usage: calls FOLDER FOLDER_17. FOLDER has the table files
 * of Unicode 15.0 and their image, and FOLDER_17 those of Unicode 17.0. */
#include "test.h"

#include <errno.h>
#include <limits.h>
#include <stddef.h>
#include <sys/stat.h>
#include <unistd.h>

static hordguli_tables tables = HORDGULI_TABLES_INIT;
static hordguli_session session = HORDGULI_SESSION_INIT;
static hordguli_tables no_tables = HORDGULI_TABLES_INIT;
static hordguli_session no_session = HORDGULI_SESSION_INIT;

#define OK(call) HOLDS((call) == HORDGULI_OK)
#define IS(call, status) HOLDS((call) == HORDGULI_##status)

static void same(const char *got, size_t length, const char *wanted) {
    HOLDS(length == strlen(wanted) && memcmp(got, wanted, length) == 0);
}

/* ---- Constants ---- */

static void constants(void) {
    char version[40];
    snprintf(version, sizeof version, "%d.%d.%d", HORDGULI_VERSION_MAJOR, HORDGULI_VERSION_MINOR, HORDGULI_VERSION_PATCH);
    HOLDS(strcmp(hordguli_version(), HORDGULI_VERSION_WANTED) == 0);
    HOLDS(strcmp(hordguli_version(), version) == 0);
    HOLDS(strcmp(hordguli_unicode_version(), "15.0") == 0);
    HOLDS(strcmp(hordguli_status_text(HORDGULI_OK), "ok") == 0);
    for (hordguli_status a = 0; a <= HORDGULI_NOT_MEASURED; a++) {
        HOLDS(hordguli_status_text(a)[0] != '\0');
        for (hordguli_status b = 0; b < a; b++) HOLDS(strcmp(hordguli_status_text(a), hordguli_status_text(b)) != 0);
    }
    HOLDS(strcmp(hordguli_status_text(-1), "unknown status") == 0);
    HOLDS(strcmp(hordguli_status_text(HORDGULI_NOT_MEASURED + 1), "unknown status") == 0);
    HOLDS(strcmp(hordguli_status_text(INT32_MIN), "unknown status") == 0);
    HOLDS(strcmp(hordguli_status_text(INT32_MAX), "unknown status") == 0);
}

/* ---- Tables ---- */

static hordguli_bytes of(const char *text) {
    hordguli_bytes bytes = {text, strlen(text)};
    return bytes;
}

static void opened_by_bytes(void) {
    hordguli_bytes files[HORDGULI_TABLE_FILES] = {{NULL, 0}};
    hordguli_tables opened = HORDGULI_TABLES_INIT;
    hordguli_table_fault fault = {77, 77, 77};
    OK(hordguli_tables_read(&opened, files, &fault));
    HOLDS(opened.at != NULL && fault.file == 77);
    IS(hordguli_tables_read(&opened, files, &fault), ALREADY_OPEN);
    hordguli_tables_close(&opened);
    HOLDS(opened.at == NULL);
    hordguli_tables_close(&opened);
    hordguli_tables_close(NULL);
    IS(hordguli_tables_read(NULL, files, &fault), NULL);
    IS(hordguli_tables_read(&opened, NULL, &fault), NULL);
    files[3].length = 1;
    IS(hordguli_tables_read(&opened, files, &fault), NULL);
    files[3] = of("0041;AL\n\n0042;none\n");
    HOLDS(fault.file == 77);
    IS(hordguli_tables_read(&opened, files, NULL), TABLE_FAULT);
    IS(hordguli_tables_read(&opened, files, &fault), TABLE_FAULT);
    HOLDS(fault.file == HORDGULI_LINE_BREAK && fault.line == 3 && fault.cause == HORDGULI_CAUSE_VALUE);
    HOLDS(opened.at == NULL);
    IS(hordguli_tables_read(&opened, files, (hordguli_table_fault *)&opened), OVERLAP);
    IS(hordguli_tables_read(&opened, files, (hordguli_table_fault *)files), OVERLAP);
    files[3] = (hordguli_bytes){&opened, sizeof opened};
    IS(hordguli_tables_read(&opened, files, NULL), OVERLAP);
    files[3] = (hordguli_bytes){"", SIZE_MAX};
    IS(hordguli_tables_read(&opened, files, NULL), OVERLAP);
}

static void table_faults(void) {
    static const struct {
        const char *line;
        uint32_t file, cause;
    } rows[] = {
        {"0041;\xC3\xA4\n", HORDGULI_BIDI_CLASS, HORDGULI_CAUSE_NOT_ASCII},
        {"41;L\n", HORDGULI_BIDI_CLASS, HORDGULI_CAUSE_CODE_POINT},
        {"0042..0041;L\n", HORDGULI_BIDI_CLASS, HORDGULI_CAUSE_REVERSED},
        {"0041;L;L\n", HORDGULI_BIDI_CLASS, HORDGULI_CAUSE_FIELD_COUNT},
        {"0028;0029;x\n", HORDGULI_BIDI_BRACKETS, HORDGULI_CAUSE_VALUE},
        {"0028;0029\n0028;0029\n", HORDGULI_BIDI_MIRRORING, HORDGULI_CAUSE_NAMED_BEFORE},
        {"0041;XY\n", HORDGULI_LINE_BREAK, HORDGULI_CAUSE_VALUE},
        {"0041\n", HORDGULI_GENERAL_CATEGORY, HORDGULI_CAUSE_FIELD_COUNT},
        {"110000;W\n", HORDGULI_EAST_ASIAN_WIDTH, HORDGULI_CAUSE_CODE_POINT},
        {"x;Emoji\n", HORDGULI_EMOJI_DATA, HORDGULI_CAUSE_CODE_POINT},
    };
    for (size_t k = 0; k < sizeof rows / sizeof *rows; k++) {
        hordguli_bytes files[HORDGULI_TABLE_FILES] = {{NULL, 0}};
        hordguli_tables opened = HORDGULI_TABLES_INIT;
        hordguli_table_fault fault = {77, 77, 77};
        files[rows[k].file] = of(rows[k].line);
        IS(hordguli_tables_read(&opened, files, &fault), TABLE_FAULT);
        HOLDS(fault.file == rows[k].file && fault.cause == rows[k].cause);
        HOLDS(fault.line == (rows[k].cause == HORDGULI_CAUSE_NAMED_BEFORE ? 2u : 1u) && opened.at == NULL);
    }
}

static void opened_by_folder(const char *folder) {
    hordguli_table_fault fault = {77, 77, 77};
    IS(hordguli_tables_open_folder(NULL, folder, &fault), NULL);
    IS(hordguli_tables_open_folder(&tables, NULL, &fault), NULL);
    HOLDS(fault.file == 77);
    IS(hordguli_tables_open_folder(&tables, "no such folder", &fault), UNREAD_FILE);
    HOLDS(fault.file == 0 && fault.cause == 0 && fault.line == 0 && tables.at == NULL);
    IS(hordguli_tables_open_folder(&tables, "", NULL), UNREAD_FILE);
    IS(hordguli_tables_open_folder(&tables, folder, (hordguli_table_fault *)&tables), OVERLAP);
    OK(hordguli_tables_open_folder(&tables, folder, &fault));
    IS(hordguli_tables_open_folder(&tables, folder, &fault), ALREADY_OPEN);
    HOLDS(tables.at != NULL);
}

/* Checks that opening the folder fails because `file` cannot be read, and sets `errno` to `why`. */
static void unread(const char *folder, uint32_t file, int why) {
    hordguli_tables opened = HORDGULI_TABLES_INIT;
    hordguli_table_fault fault = {77, 77, 77};
    errno = 0;
    IS(hordguli_tables_open_folder(&opened, folder, &fault), UNREAD_FILE);
    HOLDS(errno == why && fault.file == file && fault.line == 0 && fault.cause == 0);
    errno = 0;
    IS(hordguli_tables_open_folder_version(&opened, HORDGULI_UNICODE_17_0, folder, NULL), UNREAD_FILE);
    HOLDS(errno == why && opened.at == NULL);
}

static void unread_file_sets_errno(const char *folder) {
    char path[200], made[] = "/tmp/calls-XXXXXX", name[] = "/tmp/calls-XXXXXX/DerivedBidiClass.txt";
    FILE *file;
    unread("no such folder", 0, ENOENT);
    unread("", 0, ENOENT); /* the files are in the root folder */
    snprintf(path, sizeof path, "%s/LineBreak.txt", folder);
    unread(path, 0, ENOTDIR);
    HOLDS(mkdtemp(made) != NULL);
    memcpy(name, made, strlen(made));
    file = fopen(name, "wb");
    HOLDS(file != NULL && fclose(file) == 0);
    unread(made, 1, ENOENT);
    snprintf(path, sizeof path, "%s/BidiBrackets.txt", made);
    HOLDS(mkdir(path, 0700) == 0);
    unread(made, 1, EISDIR); /* it can be opened, but not read */
    HOLDS(rmdir(path) == 0 && remove(name) == 0 && rmdir(made) == 0);
}

/* Whether two tables have the same properties for each character. */
static int are_equal(hordguli_tables *one, hordguli_tables *other) {
    enum { PART = 2048 };
    static uint32_t characters[PART];
    static hordguli_character here[PART], there[PART];
    for (uint32_t from = 0; from < 0x110000; from += PART) {
        if (from == 0xD800) continue; /* surrogates are not characters */
        for (uint32_t k = 0; k < PART; k++) characters[k] = from + k;
        if (hordguli_properties(one, PART, characters, here) != HORDGULI_OK) return 0;
        if (hordguli_properties(other, PART, characters, there) != HORDGULI_OK) return 0;
        if (memcmp(here, there, sizeof here) != 0) return 0;
    }
    return 1;
}

/* Tables from the built-in image and from the folder's image equal those from the folder's files. */
static void opened_by_images(const char *folder) {
    static unsigned char image[1 << 18];
    char path[200];
    FILE *from;
    size_t length;
    hordguli_tables other = HORDGULI_TABLES_INIT;
    hordguli_table_fault fault = {77, 77, 77};
    IS(hordguli_tables_open_builtin(NULL), NULL);
    OK(hordguli_tables_open_builtin(&other));
    IS(hordguli_tables_open_builtin(&other), ALREADY_OPEN);
    HOLDS(are_equal(&tables, &other));
    hordguli_tables_close(&other);

    snprintf(path, sizeof path, "%s/tables.image", folder);
    from = fopen(path, "rb");
    HOLDS(from != NULL);
    if (from == NULL) return;
    length = fread(image, 1, sizeof image, from);
    fclose(from);
    OK(hordguli_tables_open_image(&other, image, length, &fault));
    HOLDS(are_equal(&tables, &other) && fault.file == 77);
    IS(hordguli_tables_open_image(&other, image, length, &fault), ALREADY_OPEN);
    hordguli_tables_close(&other);
    image[length - 9] ^= 4;
    IS(hordguli_tables_open_image(&other, image, length, NULL), TABLE_FAULT);
    IS(hordguli_tables_open_image(&other, image, length, &fault), TABLE_FAULT);
    HOLDS(fault.file == HORDGULI_IMAGE && fault.line == 0 && fault.cause == HORDGULI_CAUSE_CHECKSUM && other.at == NULL);
    IS(hordguli_tables_open_image(&other, NULL, 1, &fault), NULL);
    IS(hordguli_tables_open_image(&other, NULL, 0, &fault), TABLE_FAULT);
    HOLDS(fault.cause == HORDGULI_CAUSE_TRUNCATED);
}

/* Checks the version of tables, and two results that depend on it: the base direction of a letter, and the
 * lines of `ls -v`. */
static void has_rules(hordguli_tables *of, uint32_t wanted_version, uint32_t wanted_base, const char *wanted_lines) {
    static const uint32_t garay[] = {0x10D5A}; /* a letter of Unicode 16.0, of class R */
    char lines[20];
    size_t length = 0;
    uint32_t version = 77, base = 77;
    OK(hordguli_tables_version(of, &version));
    HOLDS(version == wanted_version);
    OK(hordguli_base(of, HORDGULI_WEAK_LTR, garay, 1, &base));
    HOLDS(base == wanted_base);
    /* LB20a: no break after the hyphen at the start of a word */
    OK(hordguli_layout(of, HORDGULI_LTR, 4, HORDGULI_PRINT_VISUAL, "ls -v", 5, sizeof lines, lines, &length));
    same(lines, length, wanted_lines);
}

static void has_rules_of_15(hordguli_tables *of) { has_rules(of, HORDGULI_UNICODE_15_0, 0, "ls -\nv\n"); }
static void has_rules_of_17(hordguli_tables *of) { has_rules(of, HORDGULI_UNICODE_17_0, 1, "ls\n-v\n"); }

/* Tests opening tables of each version: built-in ones, and those of a folder, an image and the contents of
 * files. */
static void opened_by_version(const char *folder, const char *folder_17) {
    static const uint32_t unknown[] = {0, 15, 17, 0x100000, 0xF0001, 0x110100, UINT32_MAX};
    static unsigned char image[1 << 18];
    char path[200];
    FILE *from;
    size_t length;
    uint32_t version = 77;
    hordguli_bytes files[HORDGULI_TABLE_FILES] = {{NULL, 0}};
    hordguli_tables read = HORDGULI_TABLES_INIT, other = HORDGULI_TABLES_INIT;
    hordguli_table_fault fault = {77, 77, 77};
    has_rules_of_15(&tables);
    OK(hordguli_tables_open_folder_version(&read, HORDGULI_UNICODE_17_0, folder_17, &fault));
    has_rules_of_17(&read);
    IS(hordguli_tables_open_folder_version(&read, HORDGULI_UNICODE_17_0, folder_17, &fault), ALREADY_OPEN);
    OK(hordguli_tables_open_folder_version(&other, HORDGULI_UNICODE_15_0, folder, &fault));
    has_rules_of_15(&other);
    HOLDS(are_equal(&tables, &other) && !are_equal(&read, &other) && fault.file == 77);
    hordguli_tables_close(&other);

    OK(hordguli_tables_open_builtin_version(&other, HORDGULI_UNICODE_17_0));
    IS(hordguli_tables_open_builtin_version(&other, HORDGULI_UNICODE_15_0), ALREADY_OPEN);
    has_rules_of_17(&other);
    HOLDS(are_equal(&read, &other));
    hordguli_tables_close(&other);
    OK(hordguli_tables_open_builtin_version(&other, HORDGULI_UNICODE_15_0));
    has_rules_of_15(&other);
    HOLDS(are_equal(&tables, &other));
    hordguli_tables_close(&other);
    OK(hordguli_tables_open_builtin(&other));
    has_rules_of_15(&other);
    hordguli_tables_close(&other);

    snprintf(path, sizeof path, "%s/tables.image", folder_17);
    from = fopen(path, "rb");
    HOLDS(from != NULL);
    if (from == NULL) return;
    length = fread(image, 1, sizeof image, from);
    fclose(from);
    OK(hordguli_tables_open_image(&other, image, length, &fault)); /* the version comes from the image */
    has_rules_of_17(&other);
    HOLDS(are_equal(&read, &other));
    hordguli_tables_close(&other);

    /* Unicode 15.0 has no class AK */
    files[HORDGULI_LINE_BREAK] = of("1B05;AK\n");
    IS(hordguli_tables_read(&other, files, NULL), TABLE_FAULT);
    IS(hordguli_tables_read_version(&other, HORDGULI_UNICODE_15_0, files, &fault), TABLE_FAULT);
    HOLDS(fault.file == HORDGULI_LINE_BREAK && fault.line == 1 && fault.cause == HORDGULI_CAUSE_VALUE);
    OK(hordguli_tables_read_version(&other, HORDGULI_UNICODE_17_0, files, NULL));
    OK(hordguli_tables_version(&other, &version));
    HOLDS(version == HORDGULI_UNICODE_17_0);
    IS(hordguli_tables_read_version(&other, HORDGULI_UNICODE_17_0, files, NULL), ALREADY_OPEN);
    hordguli_tables_close(&other);
    hordguli_tables_close(&read);

    version = fault.file = 77;
    for (size_t k = 0; k < sizeof unknown / sizeof *unknown; k++) {
        IS(hordguli_tables_open_builtin_version(&other, unknown[k]), UNKNOWN_OPTION);
        IS(hordguli_tables_open_builtin_version(&tables, unknown[k]), UNKNOWN_OPTION);
        IS(hordguli_tables_open_folder_version(&other, unknown[k], folder, &fault), UNKNOWN_OPTION);
        IS(hordguli_tables_open_folder_version(&tables, unknown[k], "no such folder", &fault), UNKNOWN_OPTION);
        IS(hordguli_tables_read_version(&other, unknown[k], files, &fault), UNKNOWN_OPTION);
        IS(hordguli_tables_read_version(&tables, unknown[k], files, &fault), UNKNOWN_OPTION);
    }
    IS(hordguli_tables_open_builtin_version(NULL, 0), NULL);
    IS(hordguli_tables_open_folder_version(NULL, 0, folder, &fault), NULL);
    IS(hordguli_tables_open_folder_version(&other, 0, NULL, &fault), NULL);
    IS(hordguli_tables_read_version(NULL, 0, files, &fault), NULL);
    IS(hordguli_tables_version(NULL, &version), NULL);
    IS(hordguli_tables_version(&tables, NULL), NULL);
    IS(hordguli_tables_version(&tables, (uint32_t *)&tables), OVERLAP);
    IS(hordguli_tables_version(&no_tables, &version), CLOSED);
    HOLDS(version == 77 && fault.file == 77 && other.at == NULL);
}

/* ---- Sessions ---- */

/* Three paragraphs: `abc`, a space and three Hebrew letters; an RTL paragraph; and one that ends without a
 * separator. */
static const char text[] = "abc \u05d0\u05d1\u05d2\n(\u05d0) 12\nx y";

static void opened(void) {
    size_t length = sizeof text - 1;
    IS(hordguli_session_open(NULL, &tables, 0, 80, text, length), NULL);
    IS(hordguli_session_open(&session, NULL, 0, 80, text, length), NULL);
    IS(hordguli_session_open(&session, &tables, 0, 80, NULL, 1), NULL);
    IS(hordguli_session_open(&session, &tables, 0, 80, (const char *)&session, 1), OVERLAP);
    IS(hordguli_session_open(&session, &tables, 0, 80, (const char *)&tables, 1), OVERLAP);
    IS(hordguli_session_open((hordguli_session *)&tables, &tables, 0, 80, text, length), OVERLAP);
    IS(hordguli_session_open(&session, &tables, 0, 80, text, SIZE_MAX), OVERLAP);
    IS(hordguli_session_open(&session, &no_tables, 0, 80, text, length), CLOSED);
    IS(hordguli_session_open(&session, &tables, 0, 0, text, length), WIDTH_OUT_OF_RANGE);
    IS(hordguli_session_open(&session, &tables, 0, 65536, text, length), WIDTH_OUT_OF_RANGE);
    for (uint32_t bit = 7; bit < 32; bit += bit == 7 ? 9 : bit == 23 ? 4 : 1)
        IS(hordguli_session_open(&session, &tables, UINT32_C(1) << bit, 80, text, length), UNKNOWN_OPTION);
    IS(hordguli_session_open(&session, &tables, 0, 80, "a\xFF", 2), NOT_UTF8);
    IS(hordguli_session_open(&session, &tables, 0, 80, "\xED\xA0\x80", 3), NOT_UTF8);
    HOLDS(session.at == NULL);
    for (uint32_t options = 0; options < 128; options++) {
        OK(hordguli_session_open(&session, &tables, options, 65535, text, length));
        hordguli_session_close(&session);
        HOLDS(session.at == NULL);
    }
    OK(hordguli_session_open(&session, &tables, 0, 80, NULL, 0));
    hordguli_session_close(&session);
    hordguli_session_close(&session);
    hordguli_session_close(NULL);
    OK(hordguli_session_open(&session, &tables, 0, 80, text, length));
    IS(hordguli_session_open(&session, &tables, 0, 80, text, length), ALREADY_OPEN);
}

static void too_long(void) {
    hordguli_session other = HORDGULI_SESSION_INIT;
    hordguli_damage damage = {7, 7, 7, 7, 7, 7};
    size_t most = 1048576, all = 16777216;
    char *letters = sure(malloc(all + 1));
    memset(letters, 'a', all + 1);
    IS(hordguli_session_open(&other, &tables, 0, 80, letters, most + 1), PARAGRAPH_TOO_LONG);
    IS(hordguli_session_open(&other, &tables, 0, 80, letters, all + 1), TEXT_TOO_LONG);
    OK(hordguli_session_open(&other, &tables, 0, 65535, letters, most));
    IS(hordguli_insert(&other, 3, "b", 1, &damage), PARAGRAPH_TOO_LONG);
    IS(hordguli_insert(&other, 3, letters, all, &damage), TEXT_TOO_LONG);
    IS(hordguli_replace(&other, 3, 1, "bb", 2, &damage), PARAGRAPH_TOO_LONG);
    OK(hordguli_insert(&other, most / 2, "\n", 1, &damage));
    OK(hordguli_insert(&other, 0, "bb", 2, &damage));
    damage.first_line = 7;
    IS(hordguli_delete(&other, most / 2 + 2, 1, &damage), PARAGRAPH_TOO_LONG);
    HOLDS(damage.first_line == 7);
    hordguli_session_close(&other);
    free(letters);
}

static void counted(size_t characters, size_t lines, size_t paragraphs, size_t width) {
    hordguli_counts counts;
    OK(hordguli_session_counts(&session, &counts));
    HOLDS(counts.characters == characters && counts.lines == lines && counts.paragraphs == paragraphs);
    HOLDS(counts.width == width);
}

static void damaged(const hordguli_damage *damage, size_t first, size_t old, size_t new, size_t par, size_t old_pars,
                    size_t new_pars) {
    HOLDS(damage->first_line == first && damage->old_lines == old && damage->new_lines == new);
    HOLDS(damage->first_paragraph == par && damage->old_paragraphs == old_pars && damage->new_paragraphs == new_pars);
}

static void changed(void) {
    hordguli_damage damage = {7, 7, 7, 7, 7, 7};
    /* refused edits change nothing */
    IS(hordguli_insert(NULL, 0, "a", 1, &damage), NULL);
    IS(hordguli_insert(&session, 0, NULL, 1, &damage), NULL);
    IS(hordguli_insert(&session, 0, (const char *)&damage, 1, &damage), OVERLAP);
    IS(hordguli_insert(&session, 0, (const char *)&session, 1, &damage), OVERLAP);
    IS(hordguli_insert(&session, 0, "a", SIZE_MAX, &damage), OVERLAP);
    IS(hordguli_insert(&session, 0, "a", 1, (hordguli_damage *)&session), OVERLAP);
    IS(hordguli_insert(&no_session, 0, "a", 1, &damage), CLOSED);
    IS(hordguli_insert(&session, 19, "a", 1, &damage), OUT_OF_RANGE);
    IS(hordguli_insert(&session, SIZE_MAX, "a", 1, &damage), OUT_OF_RANGE);
    IS(hordguli_insert(&session, 0, "\xC3", 1, &damage), NOT_UTF8);
    IS(hordguli_delete(NULL, 0, 1, &damage), NULL);
    IS(hordguli_delete(&session, 0, 1, (hordguli_damage *)&session), OVERLAP);
    IS(hordguli_delete(&no_session, 0, 1, &damage), CLOSED);
    IS(hordguli_delete(&session, 18, 1, &damage), OUT_OF_RANGE);
    IS(hordguli_delete(&session, 1, SIZE_MAX, &damage), OUT_OF_RANGE);
    IS(hordguli_replace(NULL, 0, 1, "a", 1, &damage), NULL);
    IS(hordguli_replace(&session, 0, 1, NULL, 1, &damage), NULL);
    IS(hordguli_replace(&session, 0, 1, (const char *)&damage + 3, 1, &damage), OVERLAP);
    IS(hordguli_replace(&no_session, 0, 1, "a", 1, &damage), CLOSED);
    IS(hordguli_replace(&session, 17, 2, "a", 1, &damage), OUT_OF_RANGE);
    IS(hordguli_replace(&session, 0, 1, "\x80", 1, &damage), NOT_UTF8);
    IS(hordguli_set_width(NULL, 80, &damage), NULL);
    IS(hordguli_set_width(&session, 80, (hordguli_damage *)&session), OVERLAP);
    IS(hordguli_set_width(&no_session, 80, &damage), CLOSED);
    IS(hordguli_set_width(&session, 0, &damage), WIDTH_OUT_OF_RANGE);
    IS(hordguli_set_width(&no_session, 0, &damage), WIDTH_OUT_OF_RANGE);
    IS(hordguli_set_width(&session, 65536, &damage), WIDTH_OUT_OF_RANGE);
    IS(hordguli_set_width(&session, UINT32_MAX, &damage), WIDTH_OUT_OF_RANGE);
    damaged(&damage, 7, 7, 7, 7, 7, 7);
    counted(18, 3, 3, 80);
    /* accepted edits, which change the second line, two lines and all lines */
    OK(hordguli_insert(&session, 9, "", 0, &damage));
    damaged(&damage, 1, 1, 1, 1, 1, 1);
    OK(hordguli_insert(&session, 9, NULL, 0, &damage));
    OK(hordguli_insert(&session, 9, "a\nb", 3, &damage));
    damaged(&damage, 1, 1, 2, 1, 1, 2);
    counted(21, 4, 4, 80);
    OK(hordguli_delete(&session, 9, 3, &damage));
    damaged(&damage, 1, 2, 1, 1, 2, 1);
    OK(hordguli_replace(&session, 16, 1, "a", 1, &damage));
    damaged(&damage, 2, 1, 1, 2, 1, 1);
    OK(hordguli_replace(&session, 16, 1, " ", 1, &damage));
    OK(hordguli_set_width(&session, 4, &damage));
    damaged(&damage, 0, 3, 5, 0, 3, 3);
    counted(18, 5, 3, 4);
    OK(hordguli_set_width(&session, 80, &damage));
    damaged(&damage, 0, 5, 3, 0, 3, 3);
}

/* If `damage` is NULL, edits return the same statuses, and change the text in the same way. */
static void changed_without_damage(void) {
    IS(hordguli_insert(NULL, 0, "a", 1, NULL), NULL);
    IS(hordguli_insert(&session, 0, NULL, 1, NULL), NULL);
    IS(hordguli_insert(&session, 0, (const char *)&session, 1, NULL), OVERLAP);
    IS(hordguli_insert(&session, 0, "\xC3", 1, NULL), NOT_UTF8);
    IS(hordguli_insert(&no_session, 0, "a", 1, NULL), CLOSED);
    IS(hordguli_insert(&session, 19, "a", 1, NULL), OUT_OF_RANGE);
    IS(hordguli_delete(NULL, 0, 1, NULL), NULL);
    IS(hordguli_delete(&no_session, 0, 1, NULL), CLOSED);
    IS(hordguli_delete(&session, 18, 1, NULL), OUT_OF_RANGE);
    IS(hordguli_replace(NULL, 0, 1, "a", 1, NULL), NULL);
    IS(hordguli_replace(&session, 0, 1, NULL, 1, NULL), NULL);
    IS(hordguli_replace(&session, 0, 1, "\x80", 1, NULL), NOT_UTF8);
    IS(hordguli_replace(&no_session, 0, 1, "a", 1, NULL), CLOSED);
    IS(hordguli_replace(&session, 17, 2, "a", 1, NULL), OUT_OF_RANGE);
    IS(hordguli_set_width(NULL, 80, NULL), NULL);
    IS(hordguli_set_width(&session, 0, NULL), WIDTH_OUT_OF_RANGE);
    IS(hordguli_set_width(&no_session, 80, NULL), CLOSED);
    counted(18, 3, 3, 80);
    OK(hordguli_insert(&session, 9, "a\nb", 3, NULL));
    counted(21, 4, 4, 80);
    OK(hordguli_delete(&session, 9, 3, NULL));
    counted(18, 3, 3, 80);
    OK(hordguli_replace(&session, 16, 1, "a", 1, NULL));
    OK(hordguli_replace(&session, 16, 1, " ", 1, NULL));
    OK(hordguli_set_width(&session, 4, NULL));
    counted(18, 5, 3, 4);
    OK(hordguli_set_width(&session, 80, NULL));
    counted(18, 3, 3, 80);
}

static int has_width(hordguli_session *of, size_t width) {
    hordguli_counts counts = {7, 7, 7, 7};
    OK(hordguli_session_counts(of, &counts));
    return counts.width == width;
}

static void opened_measured(void) {
    hordguli_session other = HORDGULI_SESSION_INIT;
    IS(hordguli_session_open_measured(NULL, &tables, 0, 80, "a", 1), NULL);
    IS(hordguli_session_open_measured(&other, NULL, 0, 80, "a", 1), NULL);
    IS(hordguli_session_open_measured(&other, &tables, 0, 80, NULL, 1), NULL);
    IS(hordguli_session_open_measured(&other, (hordguli_tables *)&other, 0, 80, "a", 1), OVERLAP);
    IS(hordguli_session_open_measured(&other, &tables, 0, 80, (const char *)&tables, 1), OVERLAP);
    IS(hordguli_session_open_measured(&other, &tables, 128, 80, "a", 1), UNKNOWN_OPTION);
    IS(hordguli_session_open_measured(&other, &tables, 0, 80, "\xff", 1), NOT_UTF8);
    IS(hordguli_session_open_measured(&session, &tables, 0, 80, "a", 1), ALREADY_OPEN);
    IS(hordguli_session_open_measured(&other, &no_tables, 0, 80, "a", 1), CLOSED);
    IS(hordguli_session_open_measured(&other, &tables, 0, 0, "a", 1), WIDTH_OUT_OF_RANGE);
    IS(hordguli_session_open_measured(&other, &tables, 0, UINT32_C(1) << 31, "a", 1), WIDTH_OUT_OF_RANGE);
    IS(hordguli_session_open_measured(&other, &tables, 0, UINT32_MAX, "a", 1), WIDTH_OUT_OF_RANGE);
    HOLDS(other.at == NULL);
    OK(hordguli_session_open_measured(&other, &tables, 0, INT32_MAX, NULL, 0));
    HOLDS(has_width(&other, INT32_MAX));
    hordguli_session_close(&other);
    OK(hordguli_session_open_measured(&other, &tables, 0, 1, "a b\nc", 5));
    HOLDS(has_width(&other, 1));
    hordguli_session_close(&other);
}

/* Tests statuses and damage of calls on a measured session. tests/c/measured.c tests the lines of such
 * sessions. */
static void measured(void) {
    hordguli_session other = HORDGULI_SESSION_INIT;
    hordguli_damage damage = {7, 7, 7, 7, 7, 7};
    static const uint32_t advances[] = {10, 10, 10, 10, 10}, wide[] = {UINT32_MAX, 1};
    hordguli_line_info info;
    OK(hordguli_session_open_measured(&other, &tables, 0, 10, "a b\nc", 5));
    IS(hordguli_set_measured_width(NULL, 80, &damage), NULL);
    IS(hordguli_set_measured_width(&other, 80, (hordguli_damage *)&other), OVERLAP);
    IS(hordguli_set_measured_width(&no_session, 80, &damage), CLOSED);
    IS(hordguli_set_measured_width(&no_session, 0, &damage), CLOSED);
    IS(hordguli_set_measured_width(&session, 80, &damage), NOT_MEASURED);
    IS(hordguli_set_measured_width(&session, 0, &damage), NOT_MEASURED);
    IS(hordguli_set_measured_width(&other, 0, &damage), WIDTH_OUT_OF_RANGE);
    IS(hordguli_set_measured_width(&other, UINT32_C(1) << 31, &damage), WIDTH_OUT_OF_RANGE);
    IS(hordguli_set_measured_width(&other, UINT32_MAX, &damage), WIDTH_OUT_OF_RANGE);
    IS(hordguli_set_advances(NULL, 0, 1, advances, &damage), NULL);
    IS(hordguli_set_advances(&other, 0, 1, NULL, &damage), NULL);
    IS(hordguli_set_advances(&other, 0, 1, advances, (hordguli_damage *)&other), OVERLAP);
    IS(hordguli_set_advances(&other, 0, 1, (const uint32_t *)&other, &damage), OVERLAP);
    IS(hordguli_set_advances(&other, 0, 1, (const uint32_t *)&damage, &damage), OVERLAP);
    IS(hordguli_set_advances(&other, 0, SIZE_MAX / 2, advances, &damage), OVERLAP);
    IS(hordguli_set_advances(&no_session, 9, 1, advances, &damage), CLOSED);
    IS(hordguli_set_advances(&session, 0, 1, advances, &damage), NOT_MEASURED);
    IS(hordguli_set_advances(&session, 0, 0, NULL, &damage), NOT_MEASURED);
    IS(hordguli_set_advances(&session, 19, 1, advances, &damage), NOT_MEASURED);
    IS(hordguli_set_advances(&other, 6, 0, NULL, &damage), OUT_OF_RANGE);
    IS(hordguli_set_advances(&other, SIZE_MAX, 2, advances, &damage), OUT_OF_RANGE);
    IS(hordguli_set_advances(&other, 4, 2, wide, &damage), OUT_OF_RANGE);
    IS(hordguli_set_advances(&other, 0, 2, wide, &damage), PARAGRAPH_TOO_LONG);
    damaged(&damage, 7, 7, 7, 7, 7, 7);
    OK(hordguli_line(&other, 0, &info, 0, NULL, NULL, NULL, NULL, NULL));
    HOLDS(info.columns == 0 && info.length == 4);
    OK(hordguli_set_advances(&other, 0, 5, advances, &damage));
    damaged(&damage, 0, 2, 3, 0, 2, 2);
    OK(hordguli_set_measured_width(&other, INT32_MAX, &damage));
    damaged(&damage, 0, 3, 2, 0, 2, 2);
    HOLDS(has_width(&other, INT32_MAX));
    OK(hordguli_set_width(&other, 10, &damage));
    damaged(&damage, 0, 2, 3, 0, 2, 2);
    HOLDS(has_width(&other, 10));
    OK(hordguli_set_measured_width(&other, 30, NULL));
    OK(hordguli_set_advances(&other, 2, 1, (const uint32_t[]){11}, NULL));
    OK(hordguli_line(&other, 0, &info, 0, NULL, NULL, NULL, NULL, NULL));
    HOLDS(info.columns == 10 && info.length == 2);
    hordguli_session_close(&other);
    counted(18, 3, 3, 80);
}

static void counts(void) {
    hordguli_counts counts;
    hordguli_work work;
    counted(18, 3, 3, 80);
    IS(hordguli_session_counts(NULL, &counts), NULL);
    IS(hordguli_session_counts(&session, NULL), NULL);
    IS(hordguli_session_counts(&session, (hordguli_counts *)&session), OVERLAP);
    IS(hordguli_session_counts(&no_session, &counts), CLOSED);
    IS(hordguli_session_work(NULL, &work), NULL);
    IS(hordguli_session_work(&session, NULL), NULL);
    IS(hordguli_session_work(&session, (hordguli_work *)&session), OVERLAP);
    IS(hordguli_session_work(&no_session, &work), CLOSED);
    OK(hordguli_session_work(&session, &work));
    HOLDS(work.analysed == 18 && work.filled == 18 && work.written == 18);
}

static hordguli_session changing = HORDGULI_SESSION_INIT;

static int has_changed(size_t first_line, size_t old_lines, size_t new_lines) {
    hordguli_changed changed = {7, 7, 7};
    OK(hordguli_changed_lines(&changing, &changed));
    return changed.first_line == first_line && changed.old_lines == old_lines && changed.new_lines == new_lines;
}

static void changed_lines(void) {
    hordguli_changed changed = {7, 7, 7};
    IS(hordguli_changed_lines(NULL, &changed), NULL);
    IS(hordguli_changed_lines(&session, NULL), NULL);
    IS(hordguli_changed_lines(&session, (hordguli_changed *)&session), OVERLAP);
    IS(hordguli_changed_lines(&no_session, &changed), CLOSED);
    HOLDS(changed.first_line == 7 && changed.old_lines == 7 && changed.new_lines == 7);
    OK(hordguli_session_open(&changing, &tables, 0, 3, "ab cd ef\nx", 10));
    HOLDS(has_changed(0, 0, 4)); /* all lines */
    OK(hordguli_insert(&changing, 4, "z", 1, NULL));
    HOLDS(has_changed(1, 1, 1));
    IS(hordguli_insert(&changing, 12, "z", 1, NULL), OUT_OF_RANGE);
    IS(hordguli_set_width(&changing, 0, NULL), WIDTH_OUT_OF_RANGE);
    IS(hordguli_set_advances(&changing, 0, 0, NULL, NULL), NOT_MEASURED);
    HOLDS(has_changed(1, 1, 1)); /* a refused call changes nothing */
    OK(hordguli_insert(&changing, 1, "", 0, NULL));
    HOLDS(has_changed(3, 0, 0));
    OK(hordguli_set_width(&changing, 3, NULL));
    HOLDS(has_changed(4, 0, 0));
    OK(hordguli_set_width(&changing, 80, NULL));
    HOLDS(has_changed(0, 3, 1));
    OK(hordguli_insert(&changing, 0, "\n", 1, NULL));
    HOLDS(has_changed(0, 0, 1)); /* the old lines follow */
    OK(hordguli_delete(&changing, 0, 12, NULL));
    HOLDS(has_changed(0, 3, 0));
    hordguli_session_close(&changing);
}

/* ---- Places ---- */

static void places(void) {
    size_t start = 77;
    hordguli_place place = {7, 7, 7};
    hordguli_caret caret = {7, 7, 7, 7};
    hordguli_hit hit = {7, 7, 7};
    hordguli_cluster cluster = {7, 7};
    hordguli_word word = {7, 7, 7, 7};
    hordguli_position position = {7, 7};
    size_t offset = 77;
    hordguli_span spans[3] = {{7, 7}, {7, 7}, {7, 7}};
    hordguli_run runs[3] = {{7, 7, 7, 7}, {7, 7, 7, 7}, {7, 7, 7, 7}};
    size_t count = 77;
    IS(hordguli_line_start(NULL, 0, &start), NULL);
    IS(hordguli_line_start(&session, 0, NULL), NULL);
    IS(hordguli_line_start(&session, 0, (size_t *)&session), OVERLAP);
    IS(hordguli_line_start(&no_session, 0, &start), CLOSED);
    IS(hordguli_line_start(&session, 3, &start), OUT_OF_RANGE);
    IS(hordguli_place_of(NULL, 0, &place), NULL);
    IS(hordguli_place_of(&session, 0, NULL), NULL);
    IS(hordguli_place_of(&session, 0, (hordguli_place *)&session), OVERLAP);
    IS(hordguli_place_of(&no_session, 0, &place), CLOSED);
    IS(hordguli_place_of(&session, 19, &place), OUT_OF_RANGE);
    IS(hordguli_caret_at(NULL, 0, &caret), NULL);
    IS(hordguli_caret_at(&session, 0, NULL), NULL);
    IS(hordguli_caret_at(&session, 0, (hordguli_caret *)&session), OVERLAP);
    IS(hordguli_caret_at(&no_session, 0, &caret), CLOSED);
    IS(hordguli_caret_at(&session, 19, &caret), OUT_OF_RANGE);
    IS(hordguli_hit_at(NULL, 0, 0, &hit), NULL);
    IS(hordguli_hit_at(&session, 0, 0, NULL), NULL);
    IS(hordguli_hit_at(&session, 0, 0, (hordguli_hit *)&session), OVERLAP);
    IS(hordguli_hit_at(&no_session, 0, 0, &hit), CLOSED);
    IS(hordguli_hit_at(&session, 3, 0, &hit), OUT_OF_RANGE);
    IS(hordguli_cluster_at(NULL, 0, &cluster), NULL);
    IS(hordguli_cluster_at(&session, 0, NULL), NULL);
    IS(hordguli_cluster_at(&session, 0, (hordguli_cluster *)&session), OVERLAP);
    IS(hordguli_cluster_at(&no_session, 0, &cluster), CLOSED);
    IS(hordguli_cluster_at(&session, 18, &cluster), OUT_OF_RANGE);
    IS(hordguli_word_at(NULL, 0, &word), NULL);
    IS(hordguli_word_at(&session, 0, NULL), NULL);
    IS(hordguli_word_at(&session, 0, (hordguli_word *)&session), OVERLAP);
    IS(hordguli_word_at(&no_session, 0, &word), CLOSED);
    IS(hordguli_word_at(&session, 18, &word), OUT_OF_RANGE);
    HOLDS(word.start == 7 && word.end == 7 && word.kind == 7 && word.zero == 7);
    IS(hordguli_byte_of(NULL, 0, &offset), NULL);
    IS(hordguli_byte_of(&session, 0, NULL), NULL);
    IS(hordguli_byte_of(&session, 0, (size_t *)&session), OVERLAP);
    IS(hordguli_byte_of(&no_session, 0, &offset), CLOSED);
    IS(hordguli_byte_of(&session, 19, &offset), OUT_OF_RANGE);
    IS(hordguli_utf16_of(NULL, 0, &offset), NULL);
    IS(hordguli_utf16_of(&session, 0, NULL), NULL);
    IS(hordguli_utf16_of(&session, 0, (size_t *)&session), OVERLAP);
    IS(hordguli_utf16_of(&no_session, 0, &offset), CLOSED);
    IS(hordguli_utf16_of(&session, 19, &offset), OUT_OF_RANGE);
    IS(hordguli_position_of_byte(NULL, 0, &position), NULL);
    IS(hordguli_position_of_byte(&session, 0, NULL), NULL);
    IS(hordguli_position_of_byte(&session, 0, (hordguli_position *)&session), OVERLAP);
    IS(hordguli_position_of_byte(&no_session, 0, &position), CLOSED);
    IS(hordguli_position_of_byte(&session, 99, &position), OUT_OF_RANGE);
    IS(hordguli_position_of_utf16(NULL, 0, &position), NULL);
    IS(hordguli_position_of_utf16(&session, 0, NULL), NULL);
    IS(hordguli_position_of_utf16(&session, 0, (hordguli_position *)&session), OVERLAP);
    IS(hordguli_position_of_utf16(&no_session, 0, &position), CLOSED);
    IS(hordguli_position_of_utf16(&session, 99, &position), OUT_OF_RANGE);
    HOLDS(offset == 77 && position.pos == 7 && position.rest == 7);
    IS(hordguli_spans(NULL, 0, 0, 9, 3, spans, &count), NULL);
    IS(hordguli_spans(&session, 0, 0, 9, 3, NULL, &count), NULL);
    IS(hordguli_spans(&session, 0, 0, 9, 3, spans, NULL), NULL);
    IS(hordguli_spans(&session, 0, 0, 9, 3, spans, (size_t *)spans), OVERLAP);
    IS(hordguli_spans(&no_session, 0, 0, 9, 3, spans, &count), CLOSED);
    IS(hordguli_spans(&session, 3, 0, 9, 3, spans, &count), OUT_OF_RANGE);
    HOLDS(count == 77 && spans[0].left == 7);
    IS(hordguli_runs(NULL, 0, 3, runs, &count), NULL);
    IS(hordguli_runs(&session, 0, 3, NULL, &count), NULL);
    IS(hordguli_runs(&session, 0, 3, runs, NULL), NULL);
    IS(hordguli_runs(&session, 0, 3, runs, (size_t *)runs), OVERLAP);
    IS(hordguli_runs(&no_session, 0, 3, runs, &count), CLOSED);
    IS(hordguli_runs(&session, 3, 3, runs, &count), OUT_OF_RANGE);
    HOLDS(count == 77 && runs[0].start == 7);
    HOLDS(start == 77 && place.line == 7 && caret.line == 7 && hit.pos == 7 && cluster.start == 7);
    OK(hordguli_line_start(&session, 2, &start));
    HOLDS(start == 15);
    OK(hordguli_place_of(&session, 12, &place));
    HOLDS(place.paragraph == 1 && place.line == 1 && place.offset == 4);
    OK(hordguli_place_of(&session, 18, &place));
    HOLDS(place.paragraph == 2 && place.line == 2 && place.offset == 3);
    OK(hordguli_caret_at(&session, 5, &caret)); /* the second of three right-to-left letters */
    HOLDS(caret.line == 0 && caret.column == 6 && caret.level == 1 && caret.zero == 0);
    OK(hordguli_caret_at(&session, 18, &caret));
    HOLDS(caret.line == 2 && caret.column == 3 && caret.level == 0);
    OK(hordguli_byte_of(&session, 5, &offset)); /* after `abc ` and a letter of two bytes */
    HOLDS(offset == 6);
    OK(hordguli_utf16_of(&session, 5, &offset));
    HOLDS(offset == 5);
    OK(hordguli_position_of_byte(&session, 7, &position)); /* the second byte of the second letter */
    HOLDS(position.pos == 5 && position.rest == 1);
    OK(hordguli_position_of_utf16(&session, 5, &position));
    HOLDS(position.pos == 5 && position.rest == 0);
    OK(hordguli_spans(&session, 0, 0, 3, 3, spans, &count)); /* the letters before them */
    HOLDS(count == 1 && spans[0].left == 0 && spans[0].right == 3 && spans[1].left == 7);
    OK(hordguli_spans(&session, 0, 2, 5, 3, spans, &count)); /* two characters, and the first right-to-left letter */
    HOLDS(count == 2 && spans[0].left == 2 && spans[0].right == 4 && spans[1].left == 6 && spans[1].right == 7);
    IS(hordguli_spans(&session, 0, 2, 5, 1, spans, &count), NO_ROOM);
    HOLDS(count == 2 && spans[0].right == 4);
    IS(hordguli_spans(&session, 0, 2, 5, 0, NULL, &count), NO_ROOM);
    HOLDS(count == 2);
    OK(hordguli_spans(&session, 0, 5, 5, 0, NULL, &count)); /* nothing */
    HOLDS(count == 0);
    OK(hordguli_spans(&session, 2, 0, 9, 3, spans, &count)); /* before the line */
    HOLDS(count == 0);
    OK(hordguli_runs(&session, 0, 3, runs, &count)); /* letters and a space, then right-to-left letters */
    HOLDS(count == 2 && runs[0].start == 0 && runs[0].length == 4 && runs[0].level == 0 && runs[0].zero == 0);
    HOLDS(runs[1].start == 4 && runs[1].length == 3 && runs[1].level == 1 && runs[1].zero == 0 && runs[2].start == 7);
    OK(hordguli_runs(&session, 1, 2, runs, &count)); /* a number, to the left of what precedes it */
    HOLDS(count == 2 && runs[0].start == 4 && runs[0].length == 2 && runs[0].level == 2 && runs[0].zero == 0);
    HOLDS(runs[1].start == 0 && runs[1].length == 4 && runs[1].level == 1 && runs[1].zero == 0);
    IS(hordguli_runs(&session, 2, 0, runs, &count), NO_ROOM);
    HOLDS(count == 1 && runs[0].start == 4);
    IS(hordguli_runs(&session, 1, 0, NULL, &count), NO_ROOM);
    HOLDS(count == 2);
    OK(hordguli_word_at(&session, 5, &word)); /* these letters */
    HOLDS(word.start == 4 && word.end == 7 && word.kind == 1 && word.zero == 0);
    OK(hordguli_word_at(&session, 3, &word)); /* the space before them */
    HOLDS(word.start == 3 && word.end == 4 && word.kind == 0 && word.zero == 0);
    OK(hordguli_hit_at(&session, 0, 4, &hit)); /* the third of these letters */
    HOLDS(hit.pos == 6 && hit.trailing == 0 && hit.zero == 0);
    OK(hordguli_hit_at(&session, 0, 99, &hit));
    HOLDS(hit.pos == 4 && hit.trailing == 0);
    OK(hordguli_hit_at(&session, 2, 99, &hit));
    HOLDS(hit.pos == 17 && hit.trailing == 1);
    OK(hordguli_cluster_at(&session, 17, &cluster));
    HOLDS(cluster.start == 17 && cluster.end == 18);
}

/* ---- Edges ---- */

#define BEFORE HORDGULI_BEFORE
#define AFTER HORDGULI_AFTER
#define LEFT HORDGULI_LEFT
#define RIGHT HORDGULI_RIGHT

static hordguli_edge edge(size_t pos, uint32_t side) { return (hordguli_edge){pos, side, 77}; }

static void edge_statuses(void) {
    hordguli_edge found = {7, 7, 7}, other = {7, 7, 7};
    hordguli_caret caret = {7, 7, 7, 7};
    uint32_t moved = 7;
    size_t ends[8] = {7, 7, 7, 7, 7, 7, 7, 7}, count = 7;
    IS(hordguli_edge_caret(NULL, edge(0, BEFORE), &caret), NULL);
    IS(hordguli_edge_caret(&session, edge(0, BEFORE), NULL), NULL);
    IS(hordguli_edge_caret(&session, edge(0, 2), (hordguli_caret *)&session), OVERLAP);
    IS(hordguli_edge_caret(&no_session, edge(0, 2), &caret), UNKNOWN_OPTION);
    IS(hordguli_edge_caret(&session, edge(0, UINT32_MAX), &caret), UNKNOWN_OPTION);
    IS(hordguli_edge_caret(&no_session, edge(19, BEFORE), &caret), CLOSED);
    IS(hordguli_edge_caret(&session, edge(19, BEFORE), &caret), OUT_OF_RANGE);
    IS(hordguli_edge_caret(&session, edge(19, AFTER), &caret), OUT_OF_RANGE);
    IS(hordguli_edge_caret(&session, edge(SIZE_MAX, AFTER), &caret), OUT_OF_RANGE);
    IS(hordguli_edge_caret(&session, edge(0, AFTER), &caret), OUT_OF_RANGE);
    IS(hordguli_step(NULL, edge(0, BEFORE), LEFT, &found, &moved), NULL);
    IS(hordguli_step(&session, edge(0, BEFORE), LEFT, NULL, &moved), NULL);
    IS(hordguli_step(&session, edge(0, BEFORE), LEFT, &found, NULL), NULL);
    IS(hordguli_step(&session, edge(0, 2), LEFT, (hordguli_edge *)&session, &moved), OVERLAP);
    IS(hordguli_step(&session, edge(0, 2), LEFT, &found, (uint32_t *)&session), OVERLAP);
    IS(hordguli_step(&session, edge(0, 2), LEFT, &found, &found.zero), OVERLAP);
    IS(hordguli_step(&no_session, edge(0, 2), LEFT, &found, &moved), UNKNOWN_OPTION);
    IS(hordguli_step(&no_session, edge(0, BEFORE), 2, &found, &moved), UNKNOWN_OPTION);
    IS(hordguli_step(&session, edge(0, BEFORE), UINT32_MAX, &found, &moved), UNKNOWN_OPTION);
    IS(hordguli_step(&no_session, edge(19, BEFORE), LEFT, &found, &moved), CLOSED);
    IS(hordguli_step(&session, edge(19, BEFORE), LEFT, &found, &moved), OUT_OF_RANGE);
    IS(hordguli_step(&session, edge(19, AFTER), RIGHT, &found, &moved), OUT_OF_RANGE);
    IS(hordguli_step(&session, edge(0, AFTER), RIGHT, &found, &moved), OUT_OF_RANGE);
    IS(hordguli_edge_at(NULL, 0, 0, &found), NULL);
    IS(hordguli_edge_at(&session, 0, 0, NULL), NULL);
    IS(hordguli_edge_at(&session, 3, 0, (hordguli_edge *)&session), OVERLAP);
    IS(hordguli_edge_at(&no_session, 3, 0, &found), CLOSED);
    IS(hordguli_edge_at(&session, 3, 0, &found), OUT_OF_RANGE);
    IS(hordguli_edge_at(&session, SIZE_MAX, SIZE_MAX, &found), OUT_OF_RANGE);
    IS(hordguli_nearest_edge(NULL, 0, 0, &found), NULL);
    IS(hordguli_nearest_edge(&session, 0, 0, NULL), NULL);
    IS(hordguli_nearest_edge(&session, 3, 0, (hordguli_edge *)&session), OVERLAP);
    IS(hordguli_nearest_edge(&no_session, 3, 0, &found), CLOSED);
    IS(hordguli_nearest_edge(&session, 3, 0, &found), OUT_OF_RANGE);
    IS(hordguli_line_edges(NULL, 0, &found, &other), NULL);
    IS(hordguli_line_edges(&session, 0, NULL, &other), NULL);
    IS(hordguli_line_edges(&session, 0, &found, NULL), NULL);
    IS(hordguli_line_edges(&session, 3, &found, &found), OVERLAP);
    IS(hordguli_line_edges(&session, 3, (hordguli_edge *)&session, &other), OVERLAP);
    IS(hordguli_line_edges(&session, 3, &found, (hordguli_edge *)&session), OVERLAP);
    IS(hordguli_line_edges(&no_session, 3, &found, &other), CLOSED);
    IS(hordguli_line_edges(&session, 3, &found, &other), OUT_OF_RANGE);
    IS(hordguli_line_clusters(NULL, 0, 8, ends, &count), NULL);
    IS(hordguli_line_clusters(&session, 0, 8, NULL, &count), NULL);
    IS(hordguli_line_clusters(&session, 0, 8, ends, NULL), NULL);
    IS(hordguli_line_clusters(&session, 3, 8, ends, &ends[7]), OVERLAP);
    IS(hordguli_line_clusters(&session, 3, 8, ends, (size_t *)&session), OVERLAP);
    IS(hordguli_line_clusters(&session, 3, 1, (size_t *)&session, &count), OVERLAP);
    IS(hordguli_line_clusters(&session, 3, SIZE_MAX, ends, &count), OVERLAP);
    IS(hordguli_line_clusters(&no_session, 3, 8, ends, &count), CLOSED);
    IS(hordguli_line_clusters(&session, 3, 8, ends, &count), OUT_OF_RANGE);
    HOLDS(found.pos == 7 && found.side == 7 && found.zero == 7 && other.pos == 7 && other.side == 7 && other.zero == 7);
    HOLDS(caret.line == 7 && caret.column == 7 && caret.level == 7 && caret.zero == 7 && moved == 7);
    HOLDS(count == 7 && ends[0] == 7);
    IS(hordguli_line_clusters(&session, 0, 7, ends, &count), NO_ROOM);
    HOLDS(count == 8 && ends[0] == 7);
    count = 7;
    IS(hordguli_line_clusters(&session, 0, 0, NULL, &count), NO_ROOM);
    HOLDS(count == 8);
    OK(hordguli_line_clusters(&session, 1, 8, ends, &count));
    HOLDS(count == 7 && ends[0] == 1 && ends[6] == 7 && ends[7] == 7);
    /* a step that does not move leaves `next` unchanged; a step may write to its own argument */
    OK(hordguli_step(&session, edge(18, AFTER), RIGHT, &found, &moved));
    HOLDS(moved == 0 && found.pos == 7 && found.side == 7 && found.zero == 7);
    found = edge(17, BEFORE);
    OK(hordguli_step(&session, found, RIGHT, &found, &moved));
    HOLDS(moved == 1 && found.pos == 18 && found.side == AFTER && found.zero == 0);
}

/* The session that `show` opens, and the macros below check. */
static hordguli_session shown = HORDGULI_SESSION_INIT;

static void show(const char *content, uint32_t options, uint32_t width) {
    hordguli_session_close(&shown);
    OK(hordguli_session_open(&shown, &tables, options, width, content, strlen(content)));
}

static void is_edge(int line, const hordguli_edge *found, size_t pos, uint32_t side) {
    holds(found->pos == pos && found->side == side && found->zero == 0, __FILE__, line, "the edge");
}

static void caret_is(int at, size_t pos, uint32_t side, size_t line, size_t column, uint32_t level) {
    hordguli_caret caret = {7, 7, 7, 7};
    holds(hordguli_edge_caret(&shown, edge(pos, side), &caret) == HORDGULI_OK, __FILE__, at, "an edge has a caret");
    holds(caret.line == line && caret.column == column, __FILE__, at, "the place of the caret");
    holds(caret.level == level && caret.zero == 0, __FILE__, at, "the level of the caret");
}

/* An edge that repeated steps reach, before ('B') or after ('A') a position, and the column of its caret. */
typedef struct stop {
    size_t pos;
    char side; /* 0 ends a list */
    size_t column;
} stop;

/* Checks that steps in a direction lead from each stop to the next, and that no step leads on from the
 * last. */
static void steps_are(int at, uint32_t direction, const stop *stops) {
    hordguli_edge from = edge(stops[0].pos, stops[0].side == 'A' ? AFTER : BEFORE);
    hordguli_caret caret = {7, 7, 7, 7};
    uint32_t moved;
    for (size_t k = 0; stops[k].side != 0; k++) {
        hordguli_caret last = caret;
        if (k > 0) {
            holds(hordguli_step(&shown, from, direction, &from, &moved) == HORDGULI_OK && moved == 1, __FILE__, at, "a step");
            is_edge(at, &from, stops[k].pos, stops[k].side == 'A' ? AFTER : BEFORE);
        }
        holds(hordguli_edge_caret(&shown, from, &caret) == HORDGULI_OK, __FILE__, at, "a stop has a caret");
        holds(caret.column == stops[k].column, __FILE__, at, "the column of a stop");
        holds(k == 0 || caret.line == last.line, __FILE__, at, "a step stays on its line");
    }
    moved = 7;
    holds(hordguli_step(&shown, from, direction, &from, &moved) == HORDGULI_OK && moved == 0, __FILE__, at, "the last stop");
}

static void at_is(int at, size_t line, size_t column, size_t pos, uint32_t side) {
    hordguli_edge found = {7, 7, 7};
    holds(hordguli_edge_at(&shown, line, column, &found) == HORDGULI_OK, __FILE__, at, "a column has an edge");
    is_edge(at, &found, pos, side);
}

static void nearest_is(int at, size_t line, size_t column, size_t pos, uint32_t side) {
    hordguli_edge found = {7, 7, 7};
    holds(hordguli_nearest_edge(&shown, line, column, &found) == HORDGULI_OK, __FILE__, at, "a column has a nearest edge");
    is_edge(at, &found, pos, side);
}

static void ends_are(int at, size_t line, size_t first, size_t last, uint32_t side) {
    hordguli_edge found[2] = {{7, 7, 7}, {7, 7, 7}};
    holds(hordguli_line_edges(&shown, line, &found[0], &found[1]) == HORDGULI_OK, __FILE__, at, "a line has two edges");
    is_edge(at, &found[0], first, BEFORE);
    is_edge(at, &found[1], last, side);
}

static void clusters_are(int at, size_t line, size_t count, const size_t *wanted) {
    size_t ends[12] = {0}, found = 77;
    holds(hordguli_line_clusters(&shown, line, 12, ends, &found) == HORDGULI_OK, __FILE__, at, "a line has clusters");
    holds(found == count && memcmp(ends, wanted, count * sizeof *ends) == 0, __FILE__, at, "the ends of clusters");
}

#define CARET(...) caret_is(__LINE__, __VA_ARGS__)
#define STEPS(direction, ...) steps_are(__LINE__, direction, (const stop[]){__VA_ARGS__, {0, 0, 0}})
#define EDGE_AT(...) at_is(__LINE__, __VA_ARGS__)
#define NEAREST(...) nearest_is(__LINE__, __VA_ARGS__)
#define ENDS(...) ends_are(__LINE__, __VA_ARGS__)
#define CLUSTERS(line, ...)                                                                                            \
    clusters_are(__LINE__, line, sizeof((const size_t[]){__VA_ARGS__}) / sizeof(size_t), (const size_t[]){__VA_ARGS__})

static void edges_where_the_direction_changes(void) {
    show("abc \u05d0\u05d1\u05d2 def", 0, 80);
    CARET(4, BEFORE, 0, 7, 1);
    CARET(4, AFTER, 0, 4, 0);
    CARET(5, BEFORE, 0, 6, 1);
    CARET(5, AFTER, 0, 6, 1);
    CARET(7, BEFORE, 0, 7, 0);
    CARET(7, AFTER, 0, 4, 1);
    CARET(0, BEFORE, 0, 0, 0);
    CARET(11, BEFORE, 0, 11, 0);
    CARET(11, AFTER, 0, 11, 0);
    STEPS(RIGHT, {0, 'B', 0}, {1, 'A', 1}, {2, 'A', 2}, {3, 'A', 3}, {4, 'A', 4}, {6, 'B', 5}, {5, 'B', 6}, {4, 'B', 7},
          {8, 'A', 8}, {9, 'A', 9}, {10, 'A', 10}, {11, 'A', 11});
    STEPS(RIGHT, {3, 'B', 3}, {4, 'A', 4}, {6, 'B', 5}, {5, 'B', 6}, {4, 'B', 7}, {8, 'A', 8}, {9, 'A', 9}, {10, 'A', 10},
          {11, 'A', 11});
    STEPS(LEFT, {8, 'A', 8}, {7, 'B', 7}, {5, 'A', 6}, {6, 'A', 5}, {7, 'A', 4}, {3, 'B', 3}, {2, 'B', 2}, {1, 'B', 1},
          {0, 'B', 0});
    EDGE_AT(0, 0, 0, BEFORE);
    EDGE_AT(0, 4, 7, AFTER);
    EDGE_AT(0, 6, 5, AFTER);
    EDGE_AT(0, 7, 7, BEFORE);
    EDGE_AT(0, 11, 11, AFTER);
    EDGE_AT(0, SIZE_MAX, 11, AFTER);
    ENDS(0, 0, 11, BEFORE);
    CLUSTERS(0, 1, 2, 3, 4, 5, 6, 7, 8, 9, 10, 11);
    /* a number, at level 2, among letters at level 1 */
    show("\u05d0\u05d1 12 \u05d2\u05d3", 0, 80);
    STEPS(RIGHT, {8, 'A', 0}, {7, 'B', 1}, {6, 'B', 2}, {5, 'B', 3}, {4, 'A', 4}, {5, 'A', 5}, {2, 'B', 6}, {1, 'B', 7},
          {0, 'B', 8});
    STEPS(LEFT, {0, 'B', 8}, {1, 'A', 7}, {2, 'A', 6}, {3, 'A', 5}, {4, 'B', 4}, {3, 'B', 3}, {6, 'A', 2}, {7, 'A', 1},
          {8, 'A', 0});
    CARET(3, BEFORE, 0, 3, 2);
    CARET(3, AFTER, 0, 5, 1);
    CARET(5, BEFORE, 0, 3, 1);
    CARET(5, AFTER, 0, 5, 2);
    CARET(8, BEFORE, 0, 0, 1);
    EDGE_AT(0, 0, 8, AFTER);
    EDGE_AT(0, SIZE_MAX, 0, BEFORE);
    ENDS(0, 0, 8, BEFORE);
}

/* `hordguli_nearest_edge` returns the nearer end of a unit, or its right end if both are equally near. */
static void nearest_edges(void) {
    hordguli_edge found;
    show("a\u6f22\u5b57\u05d0", 0, 80);
    NEAREST(0, 0, 0, BEFORE);
    NEAREST(0, 1, 1, BEFORE);
    NEAREST(0, 2, 2, AFTER);
    NEAREST(0, 3, 2, BEFORE);
    NEAREST(0, 4, 3, AFTER);
    NEAREST(0, 5, 4, AFTER);
    NEAREST(0, 6, 3, BEFORE);
    NEAREST(0, SIZE_MAX, 3, BEFORE);
    /* a tab of three columns, in each direction */
    show("a\tb", HORDGULI_TAB_WIDTH(4), 80);
    NEAREST(0, 1, 1, BEFORE);
    NEAREST(0, 2, 1, BEFORE);
    NEAREST(0, 3, 2, AFTER);
    NEAREST(0, 4, 2, BEFORE);
    show("\u05d0\t\u05d1", HORDGULI_TAB_WIDTH(4), 80);
    NEAREST(0, 0, 3, AFTER);
    NEAREST(0, 1, 2, AFTER);
    NEAREST(0, 2, 2, AFTER);
    NEAREST(0, 3, 1, BEFORE);
    NEAREST(0, 4, 1, AFTER);
    /* a tab of four columns: column 2 is equally near to both ends */
    show("\tb", HORDGULI_TAB_WIDTH(4), 80);
    NEAREST(0, 1, 0, BEFORE);
    NEAREST(0, 2, 1, AFTER);
    /* lines of width 0, and the line after a final separator */
    show("\n", 0, 80);
    NEAREST(0, 5, 0, BEFORE);
    NEAREST(1, 5, 1, BEFORE);
    IS(hordguli_nearest_edge(&shown, 2, 0, &found), OUT_OF_RANGE);
}

static void edges_of_clusters(void) {
    /* a letter and its mark, with HORDGULI_REORDER_NSM: the letter comes first in visual order */
    show("\u05d0\u05b8\u05d1", HORDGULI_REORDER_NSM, 80);
    CARET(0, BEFORE, 0, 2, 1);
    CARET(1, BEFORE, 0, 2, 1);
    CARET(1, AFTER, 0, 1, 1);
    CARET(2, BEFORE, 0, 1, 1);
    CARET(2, AFTER, 0, 1, 1);
    STEPS(LEFT, {0, 'B', 2}, {2, 'A', 1}, {3, 'A', 0});
    STEPS(RIGHT, {3, 'A', 0}, {2, 'B', 1}, {0, 'B', 2});
    CLUSTERS(0, 2, 3);
    /* a letter and its mark, without HORDGULI_REORDER_NSM: the mark comes first in visual order */
    show("\u05d0\u05b8\u05d1", 0, 80);
    CARET(1, BEFORE, 0, 1, 1);
    CARET(1, AFTER, 0, 1, 1);
    STEPS(LEFT, {0, 'B', 2}, {2, 'A', 1}, {3, 'A', 0});
    /* a cluster of a number sign, at level 2, and a letter, at level 1 */
    show("a\u0600\u05d0", HORDGULI_RTL, 80);
    STEPS(RIGHT, {3, 'A', 0}, {2, 'B', 1}, {1, 'A', 2}, {2, 'A', 3});
    STEPS(LEFT, {2, 'A', 3}, {1, 'B', 2}, {0, 'B', 1}, {3, 'A', 0});
    CARET(1, AFTER, 0, 2, 2);
    CARET(2, AFTER, 0, 3, 2);
    EDGE_AT(0, 2, 1, BEFORE);
    EDGE_AT(0, SIZE_MAX, 2, AFTER);
    CLUSTERS(0, 1, 3);
    /* a cluster of a letter, at level 1, and a vowel sign, at level 2 */
    show("\u05d0\u0903", 0, 80);
    CARET(0, BEFORE, 0, 2, 1);
    CARET(1, AFTER, 0, 1, 1);
    CARET(1, BEFORE, 0, 0, 2);
    CARET(2, AFTER, 0, 1, 2);
    STEPS(RIGHT, {1, 'B', 0}, {2, 'A', 1}, {0, 'B', 2});
    STEPS(LEFT, {0, 'B', 2}, {1, 'A', 1}, {1, 'B', 0});
    CLUSTERS(0, 2);
    /* a cluster of a number sign and a space that is not shown */
    show("\u0600 ", 0, 80);
    CARET(1, AFTER, 0, 1, 2);
    CARET(2, AFTER, 0, 1, 0);
    STEPS(RIGHT, {0, 'B', 0}, {1, 'A', 1});
    STEPS(LEFT, {2, 'A', 1}, {0, 'B', 0});
    EDGE_AT(0, 1, 1, AFTER);
    CLUSTERS(0, 2);
    /* a final joiner, which L1 resets to level 0 */
    show("abc \u05d0\u200d", 0, 80);
    CARET(5, BEFORE, 0, 5, 0);
    CARET(5, AFTER, 0, 4, 1);
    CARET(6, AFTER, 0, 4, 0);
    CARET(6, BEFORE, 0, 5, 0);
    STEPS(RIGHT, {3, 'B', 3}, {4, 'A', 4}, {4, 'B', 5});
    STEPS(LEFT, {5, 'B', 5}, {6, 'A', 4}, {3, 'B', 3}, {2, 'B', 2}, {1, 'B', 1}, {0, 'B', 0});
    /* a family of three at an odd level: each person covers two columns */
    show("\u05d0\U0001f468\u200d\U0001f469\u200d\U0001f467", 0, 80);
    CARET(1, BEFORE, 0, 6, 1);
    CARET(1, AFTER, 0, 6, 1);
    CARET(2, AFTER, 0, 4, 1);
    CARET(3, BEFORE, 0, 4, 1);
    CARET(5, BEFORE, 0, 2, 1);
    CARET(6, AFTER, 0, 0, 1);
    STEPS(RIGHT, {6, 'A', 0}, {1, 'B', 6}, {0, 'B', 7});
    STEPS(LEFT, {0, 'B', 7}, {1, 'A', 6}, {6, 'A', 0});
    STEPS(LEFT, {3, 'B', 4}, {6, 'A', 0}); /* from inside the family */
    STEPS(RIGHT, {3, 'B', 4}, {1, 'B', 6}, {0, 'B', 7});
    for (size_t column = 0; column < 6; column++) EDGE_AT(0, column, 6, AFTER);
    EDGE_AT(0, 6, 1, AFTER);
    EDGE_AT(0, 7, 0, BEFORE);
    CLUSTERS(0, 1, 6);
    /* wide characters, also in an override */
    show("\u6f22\u5b57", 0, 80);
    STEPS(RIGHT, {0, 'B', 0}, {1, 'A', 2}, {2, 'A', 4});
    STEPS(LEFT, {2, 'A', 4}, {1, 'B', 2}, {0, 'B', 0});
    EDGE_AT(0, 1, 0, BEFORE);
    EDGE_AT(0, 2, 1, BEFORE);
    EDGE_AT(0, 3, 1, BEFORE);
    EDGE_AT(0, 4, 2, AFTER);
    show("\u202e\u6f22\u5b57", 0, 80);
    STEPS(RIGHT, {3, 'A', 0}, {2, 'B', 2}, {1, 'B', 4});
    STEPS(LEFT, {1, 'B', 4}, {2, 'A', 2}, {3, 'A', 0});
    CARET(0, BEFORE, 0, 0, 0);
    CARET(1, AFTER, 0, 0, 0);
    CARET(3, BEFORE, 0, 4, 0);
    EDGE_AT(0, 1, 3, AFTER);
    EDGE_AT(0, 4, 1, BEFORE);
    CLUSTERS(0, 1, 2, 3);
    /* a cluster of a space and a mark, between which a line ends */
    show("a \u0903b", 0, 1);
    CARET(2, AFTER, 0, 1, 0);
    CARET(2, BEFORE, 1, 0, 0);
    STEPS(RIGHT, {2, 'B', 0}, {3, 'A', 1});
    CLUSTERS(0, 1, 2);
    CLUSTERS(1, 1);
    CLUSTERS(2, 1);
}

static void edges_of_lines(void) {
    hordguli_edge found[2];
    hordguli_caret caret;
    hordguli_line_info info;
    size_t count;
    /* a line that ends inside a word */
    show("abcdef", 0, 4);
    CARET(4, AFTER, 0, 4, 0);
    CARET(4, BEFORE, 1, 0, 0);
    STEPS(RIGHT, {3, 'B', 3}, {4, 'A', 4});
    STEPS(RIGHT, {4, 'B', 0}, {5, 'A', 1}, {6, 'A', 2});
    STEPS(LEFT, {6, 'A', 2}, {5, 'B', 1}, {4, 'B', 0});
    EDGE_AT(0, SIZE_MAX, 4, AFTER);
    EDGE_AT(1, 0, 4, BEFORE);
    ENDS(0, 0, 4, AFTER);
    ENDS(1, 4, 6, BEFORE);
    /* the same in an RTL paragraph, whose second line is padded: columns do not count the padding */
    show("\u05d0\u05d1\u05d2\u05d3\u05d4\u05d5", 0, 4);
    OK(hordguli_line(&shown, 1, &info, 0, NULL, NULL, NULL, NULL, NULL));
    HOLDS(info.padding == 2);
    CARET(4, AFTER, 0, 0, 1);
    CARET(4, BEFORE, 1, 2, 1);
    STEPS(LEFT, {4, 'B', 2}, {5, 'A', 1}, {6, 'A', 0});
    EDGE_AT(0, 0, 4, AFTER);
    EDGE_AT(1, 0, 6, AFTER);
    EDGE_AT(1, 2, 4, BEFORE);
    ENDS(0, 0, 4, AFTER);
    ENDS(1, 4, 6, BEFORE);
    /* spaces that are not shown */
    show("ab  cd  ", 0, 3);
    CARET(2, AFTER, 0, 2, 0);
    CARET(2, BEFORE, 0, 2, 0);
    CARET(3, AFTER, 0, 2, 0);
    CARET(4, AFTER, 0, 2, 0);
    CARET(4, BEFORE, 1, 0, 0);
    CARET(8, BEFORE, 1, 2, 0);
    CARET(8, AFTER, 1, 2, 0);
    STEPS(RIGHT, {1, 'B', 1}, {2, 'A', 2});
    STEPS(LEFT, {4, 'A', 2}, {1, 'B', 1}, {0, 'B', 0});
    EDGE_AT(0, SIZE_MAX, 2, AFTER);
    ENDS(0, 0, 2, BEFORE);
    ENDS(1, 4, 8, BEFORE);
    show("\u05d0\u05d1  \u05d2\u05d3", 0, 3);
    CARET(2, AFTER, 0, 0, 1);
    CARET(3, BEFORE, 0, 0, 1);
    CARET(4, AFTER, 0, 0, 1);
    CARET(4, BEFORE, 1, 2, 1);
    STEPS(RIGHT, {4, 'A', 0}, {1, 'B', 1}, {0, 'B', 2});
    EDGE_AT(0, 0, 2, AFTER);
    ENDS(0, 0, 2, BEFORE);
    /* empty lines */
    show("a\n\nb", 0, 80);
    CARET(1, BEFORE, 0, 1, 0);
    CARET(2, AFTER, 0, 1, 0);
    CARET(2, BEFORE, 1, 0, 0);
    CARET(3, AFTER, 1, 0, 0);
    CARET(3, BEFORE, 2, 0, 0);
    STEPS(RIGHT, {2, 'B', 0});
    STEPS(LEFT, {2, 'B', 0});
    STEPS(LEFT, {3, 'A', 0});
    EDGE_AT(1, 0, 2, BEFORE);
    EDGE_AT(1, 5, 2, BEFORE);
    ENDS(0, 0, 1, BEFORE);
    ENDS(1, 2, 2, BEFORE);
    ENDS(2, 3, 4, BEFORE);
    /* the line after a final separator: CR LF is one separator */
    show("a\r\n", 0, 80);
    CARET(2, AFTER, 0, 1, 0);
    CARET(3, AFTER, 0, 1, 0);
    CARET(3, BEFORE, 1, 0, 0);
    STEPS(RIGHT, {3, 'B', 0});
    STEPS(LEFT, {3, 'B', 0});
    EDGE_AT(0, SIZE_MAX, 1, AFTER);
    EDGE_AT(1, 0, 3, BEFORE);
    EDGE_AT(1, SIZE_MAX, 3, BEFORE);
    ENDS(0, 0, 1, BEFORE);
    ENDS(1, 3, 3, BEFORE);
    CLUSTERS(0, 1, 3);
    IS(hordguli_edge_at(&shown, 2, 0, &found[0]), OUT_OF_RANGE);
    IS(hordguli_line_edges(&shown, 2, &found[0], &found[1]), OUT_OF_RANGE);
    IS(hordguli_line_clusters(&shown, 1, 0, NULL, &count), OUT_OF_RANGE);
    /* separators that end a line, not a paragraph; and U+001C, a separator that is shown */
    show("a\u2028b\vc \f", 0, 80);
    ENDS(0, 0, 1, BEFORE);
    ENDS(1, 2, 3, BEFORE);
    ENDS(2, 4, 6, BEFORE);
    CARET(2, AFTER, 0, 1, 0);
    CARET(7, BEFORE, 2, 1, 0);
    IS(hordguli_edge_at(&shown, 3, 0, &found[0]), OUT_OF_RANGE);
    show("\u05d0\x1c", 0, 80);
    ENDS(0, 0, 1, BEFORE);
    CARET(1, BEFORE, 0, 0, 1);
    CARET(2, BEFORE, 1, 0, 0);
    EDGE_AT(1, 9, 2, BEFORE);
    /* empty text */
    for (uint32_t options = 0; options < 4; options++) {
        show("", options, 80);
        CARET(0, BEFORE, 0, 0, options % 2);
        STEPS(RIGHT, {0, 'B', 0});
        STEPS(LEFT, {0, 'B', 0});
        EDGE_AT(0, 0, 0, BEFORE);
        EDGE_AT(0, SIZE_MAX, 0, BEFORE);
        ENDS(0, 0, 0, BEFORE);
        IS(hordguli_edge_caret(&shown, edge(0, AFTER), &caret), OUT_OF_RANGE);
        IS(hordguli_edge_at(&shown, 1, 0, &found[0]), OUT_OF_RANGE);
        IS(hordguli_line_edges(&shown, 1, &found[0], &found[1]), OUT_OF_RANGE);
        IS(hordguli_line_clusters(&shown, 0, 0, NULL, &count), OUT_OF_RANGE);
    }
    /* a lone RLM covers no column */
    show("\u200f", 0, 80);
    CARET(0, BEFORE, 0, 0, 1);
    CARET(1, AFTER, 0, 0, 1);
    CARET(1, BEFORE, 0, 0, 1);
    STEPS(RIGHT, {0, 'B', 0});
    STEPS(LEFT, {1, 'A', 0});
    EDGE_AT(0, 0, 0, BEFORE);
    EDGE_AT(0, SIZE_MAX, 0, BEFORE);
    ENDS(0, 0, 1, BEFORE);
    CLUSTERS(0, 1);
    hordguli_session_close(&shown);
}

/* ---- Lines, paragraphs and text ---- */

static void line_is(int at, size_t line, size_t length, size_t visible, size_t columns, size_t padding) {
    hordguli_line_info info = {7, 7, 7, 7, 7, 7, 7};
    holds(hordguli_line(&shown, line, &info, 0, NULL, NULL, NULL, NULL, NULL) == HORDGULI_OK, __FILE__, at, "a line");
    holds(info.length == length && info.shown == visible, __FILE__, at, "the length of a line and of its shown part");
    holds(info.columns == columns && info.padding == padding, __FILE__, at, "the columns and the padding of a line");
}
#define LINE(...) line_is(__LINE__, __VA_ARGS__)

/* HORDGULI_SHOW_SPACES: as many spaces at the end of a line as fit are shown, with carets between them. */
static void spaces_at_line_ends(void) {
    show("abc  ", HORDGULI_SHOW_SPACES, 80);
    LINE(0, 5, 5, 5, 0);
    CARET(4, BEFORE, 0, 4, 0);
    CARET(5, BEFORE, 0, 5, 0);
    STEPS(RIGHT, {2, 'B', 2}, {3, 'A', 3}, {4, 'A', 4}, {5, 'A', 5});
    EDGE_AT(0, 4, 4, BEFORE);
    ENDS(0, 0, 5, BEFORE);
    /* after a change of the width, the spaces that fit the new width are shown */
    OK(hordguli_set_width(&shown, 4, NULL));
    LINE(0, 5, 4, 4, 0);
    CARET(4, BEFORE, 0, 4, 0);
    CARET(5, BEFORE, 0, 4, 0);
    STEPS(RIGHT, {3, 'B', 3}, {4, 'A', 4});
    OK(hordguli_set_width(&shown, 3, NULL));
    LINE(0, 5, 3, 3, 0);
    CARET(4, BEFORE, 0, 3, 0);
    OK(hordguli_set_width(&shown, 80, NULL));
    LINE(0, 5, 5, 5, 0);
    show("abc  ", 0, 80);
    LINE(0, 5, 3, 3, 0);
    /* spaces alone */
    show("   ", HORDGULI_SHOW_SPACES, 2);
    LINE(0, 3, 2, 2, 0);
    STEPS(RIGHT, {0, 'B', 0}, {1, 'A', 1}, {2, 'A', 2});
    ENDS(0, 0, 3, BEFORE);
    /* a wrapped line: the spaces do not move its end; at width 3 one of them is shown, and at width 5 all */
    show("ab   cd", HORDGULI_SHOW_SPACES, 3);
    LINE(0, 5, 3, 3, 0);
    LINE(1, 2, 2, 2, 0);
    CARET(4, BEFORE, 0, 3, 0);
    ENDS(0, 0, 3, BEFORE);
    OK(hordguli_set_width(&shown, 5, NULL));
    LINE(0, 5, 5, 5, 0);
    CARET(5, AFTER, 0, 5, 0);
    CARET(5, BEFORE, 1, 0, 0);
    ENDS(0, 0, 5, AFTER);
    /* a right-to-left paragraph: the spaces are to the left of the text */
    show("\u05d0  ", HORDGULI_SHOW_SPACES, 5);
    LINE(0, 3, 3, 3, 2);
    for (size_t pos = 0; pos <= 3; pos++) CARET(pos, BEFORE, 0, 3 - pos, 1);
    STEPS(LEFT, {0, 'B', 3}, {1, 'A', 2}, {2, 'A', 1}, {3, 'A', 0});
    EDGE_AT(0, 0, 3, AFTER);
    show("\u05d0  \u2028\u05d1", HORDGULI_SHOW_SPACES, 5);
    LINE(0, 4, 3, 3, 2);
    CARET(2, BEFORE, 0, 1, 1);
    CARET(3, BEFORE, 0, 0, 1);
    ENDS(0, 0, 3, BEFORE);
    /* U+3000 is never in a tail */
    for (uint32_t options = 0; options <= HORDGULI_SHOW_SPACES; options += HORDGULI_SHOW_SPACES) {
        show("abc\u3000", options, 5);
        LINE(0, 4, 4, 5, 0);
    }
    /* a shown part that is wider than the width */
    show("\u6f22 ", HORDGULI_SHOW_SPACES, 1);
    LINE(0, 1, 1, 2, 0);
    LINE(1, 1, 1, 1, 0);
    show("abcdef  ", HORDGULI_SHOW_SPACES | HORDGULI_NOBREAK, 4);
    LINE(0, 8, 6, 6, 0);
    OK(hordguli_set_width(&shown, 7, NULL));
    LINE(0, 8, 7, 7, 0);
    hordguli_session_close(&shown);
}

/* HORDGULI_TAB_WIDTH: a tab moves to the next stop, counted from the edge at which its line starts. */
static void tab_stops(void) {
    size_t columns[5] = {7, 7, 7, 7, 7};
    uint32_t vtol[5];
    hordguli_line_info info;
    show("a\tb", HORDGULI_TAB_WIDTH(8), 80);
    LINE(0, 3, 3, 9, 0);
    OK(hordguli_line(&shown, 0, &info, 5, NULL, NULL, NULL, vtol, columns));
    HOLDS(columns[0] == 1 && columns[1] == 7 && columns[2] == 1);
    CARET(1, BEFORE, 0, 1, 0);
    CARET(2, BEFORE, 0, 8, 0);
    STEPS(RIGHT, {0, 'B', 0}, {1, 'A', 1}, {2, 'A', 8}, {3, 'A', 9});
    EDGE_AT(0, 5, 1, BEFORE);
    /* a right-to-left paragraph: five columns of padding, the second letter, three columns, and the first letter */
    show("\u05d0\t\u05d1", HORDGULI_TAB_WIDTH(4), 10);
    LINE(0, 3, 3, 5, 5);
    OK(hordguli_line(&shown, 0, &info, 5, NULL, NULL, NULL, vtol, columns));
    HOLDS(vtol[0] == 2 && vtol[1] == 1 && vtol[2] == 0 && columns[0] == 1 && columns[1] == 3 && columns[2] == 1);
    CARET(0, BEFORE, 0, 5, 1);
    CARET(1, BEFORE, 0, 4, 1);
    CARET(2, BEFORE, 0, 1, 1);
    CARET(3, BEFORE, 0, 0, 1);
    /* tab stops are counted from the start of each line, so a new line start can change the width of a tab */
    show("ab cd\te", HORDGULI_TAB_WIDTH(4), 80);
    LINE(0, 7, 7, 9, 0);
    OK(hordguli_set_width(&shown, 5, NULL));
    LINE(0, 3, 2, 2, 0);
    LINE(1, 4, 4, 5, 0);
    CARET(6, BEFORE, 1, 4, 0);
    /* a tab that is wider than the width gets a line of its own */
    show("abc\td", HORDGULI_TAB_WIDTH(4), 3);
    LINE(0, 3, 3, 3, 0);
    LINE(1, 1, 1, 4, 0);
    LINE(2, 1, 1, 1, 0);
    /* without tab stops, a tab has no columns */
    show("a\tb", 0, 80);
    LINE(0, 3, 3, 2, 0);
    hordguli_session_close(&shown);
}

static void lines(void) {
    hordguli_line_info info = {7, 7, 7, 7, 7, 7, 7};
    uint32_t characters[8], ltov[8], vtol[8];
    uint8_t levels[8];
    size_t columns[8];
    static const uint32_t visual[] = {'a', 'b', 'c', ' ', 0x5D2, 0x5D1, 0x5D0}, order[] = {0, 1, 2, 3, 6, 5, 4};
    static const uint32_t mirrored[] = {'1', '2', ' ', '(', 0x5D0, ')'}, to_logical[] = {4, 5, 3, 2, 1, 0};
    static const uint8_t line_levels[] = {0, 0, 0, 0, 1, 1, 1};
    IS(hordguli_line(NULL, 0, &info, 8, characters, levels, ltov, vtol, columns), NULL);
    IS(hordguli_line(&session, 0, NULL, 8, characters, levels, ltov, vtol, columns), NULL);
    IS(hordguli_line(&session, 0, &info, 8, characters, levels, ltov, ltov + 7, columns), OVERLAP);
    IS(hordguli_line(&session, 0, &info, 8, NULL, NULL, (uint32_t *)&info, NULL, NULL), OVERLAP);
    IS(hordguli_line(&session, 0, &info, 8, NULL, NULL, NULL, (uint32_t *)&session, NULL), OVERLAP);
    IS(hordguli_line(&session, 0, &info, SIZE_MAX, NULL, NULL, NULL, vtol, NULL), OVERLAP);
    IS(hordguli_line(&session, 0, (hordguli_line_info *)&session, 0, NULL, NULL, NULL, NULL, NULL), OVERLAP);
    IS(hordguli_line(&no_session, 0, &info, 8, characters, levels, ltov, vtol, columns), CLOSED);
    IS(hordguli_line(&session, 3, &info, 8, characters, levels, ltov, vtol, columns), OUT_OF_RANGE);
    HOLDS(info.start == 7 && info.shown == 7);
    OK(hordguli_line(&session, 0, &info, 0, NULL, NULL, NULL, NULL, NULL));
    HOLDS(info.start == 0 && info.length == 8 && info.shown == 7 && info.columns == 7 && info.padding == 0);
    HOLDS(info.base == 0 && info.first == 1);
    memset(&info, 0, sizeof info);
    ltov[0] = 77;
    IS(hordguli_line(&session, 0, &info, 6, NULL, NULL, ltov, NULL, NULL), NO_ROOM);
    HOLDS(info.shown == 7 && ltov[0] == 77);
    levels[7] = 77;
    OK(hordguli_line(&session, 0, &info, 8, characters, levels, ltov, vtol, columns));
    HOLDS(memcmp(characters, visual, sizeof visual) == 0 && memcmp(ltov, order, sizeof order) == 0);
    HOLDS(memcmp(vtol, order, sizeof order) == 0 && memcmp(levels, line_levels, sizeof line_levels) == 0);
    for (size_t k = 0; k < 7; k++) HOLDS(columns[k] == 1);
    HOLDS(levels[7] == 77);
    memset(levels, 77, sizeof levels);
    OK(hordguli_line(&session, 0, &info, 7, NULL, levels, NULL, NULL, NULL));
    HOLDS(memcmp(levels, line_levels, sizeof line_levels) == 0 && levels[7] == 77);
    OK(hordguli_line(&session, 1, &info, 6, characters, NULL, NULL, vtol, NULL));
    HOLDS(info.start == 8 && info.length == 7 && info.shown == 6 && info.base == 1 && info.padding == 74);
    HOLDS(memcmp(characters, mirrored, sizeof mirrored) == 0 && memcmp(vtol, to_logical, sizeof to_logical) == 0);
}

static void printed(void) {
    char bytes[500];
    size_t length = 77;
    hordguli_work works[2];
    static const char all[] = "abc \u05d2\u05d1\u05d0\n12 (\u05d0)\nx y\n";
    static const char first_line[] = "LTR\n0 1 2 3 6 5 4\n0 1 2 3 6 5 4\n0 0 0 0 1 1 1\n";
    uint32_t plain = HORDGULI_PRINT_VISUAL | HORDGULI_PRINT_MIRRORED;
    IS(hordguli_lines_utf8(NULL, 0, 1, plain, 500, bytes, &length), NULL);
    IS(hordguli_lines_utf8(&session, 0, 1, plain, 500, NULL, &length), NULL);
    IS(hordguli_lines_utf8(&session, 0, 1, plain, 500, bytes, NULL), NULL);
    IS(hordguli_lines_utf8(&session, 0, 1, plain, 4, (char *)&length, &length), OVERLAP);
    IS(hordguli_lines_utf8(&session, 0, 1, plain, 4, (char *)&session, &length), OVERLAP);
    IS(hordguli_lines_utf8(&session, 0, 1, plain, 4, bytes, (size_t *)&session), OVERLAP);
    IS(hordguli_lines_utf8(&session, 0, 1, plain, SIZE_MAX, bytes, &length), OVERLAP);
    IS(hordguli_lines_utf8(&no_session, 0, 1, plain, 500, bytes, &length), CLOSED);
    IS(hordguli_lines_utf8(&session, 0, 4, plain, 500, bytes, &length), OUT_OF_RANGE);
    IS(hordguli_lines_utf8(&session, 4, 0, plain, 500, bytes, &length), OUT_OF_RANGE);
    IS(hordguli_lines_utf8(&session, 1, SIZE_MAX, plain, 500, bytes, &length), OUT_OF_RANGE);
    for (uint32_t bit = 7; bit < 32; bit++)
        IS(hordguli_lines_utf8(&session, 0, 1, UINT32_C(1) << bit, 500, bytes, &length), UNKNOWN_OPTION);
    HOLDS(length == 77);
    OK(hordguli_session_work(&session, &works[0]));
    bytes[0] = '?';
    IS(hordguli_lines_utf8(&session, 0, 3, plain, sizeof all - 2, bytes, &length), NO_ROOM);
    HOLDS(length == sizeof all - 1 && bytes[0] == '?');
    length = 77;
    IS(hordguli_lines_utf8(&session, 0, 3, plain, 0, NULL, &length), NO_ROOM);
    HOLDS(length == sizeof all - 1);
    OK(hordguli_lines_utf8(&session, 0, 3, plain, sizeof all - 1, bytes, &length));
    same(bytes, length, all);
    OK(hordguli_lines_utf8(&session, 0, 1, 30, 500, bytes, &length));
    same(bytes, length, first_line);
    OK(hordguli_lines_utf8(&session, 1, 1, HORDGULI_PRINT_VISUAL, 500, bytes, &length));
    same(bytes, length, "12 )\u05d0(\n");
    OK(hordguli_lines_utf8(&session, 1, 1, HORDGULI_PRINT_DEFAULT, 500, bytes, &length));
    HOLDS(length == 74 + 8 && bytes[0] == ' ' && bytes[73] == ' ' && bytes[74] == '1');
    OK(hordguli_lines_utf8(&session, 3, 0, plain, 0, NULL, &length));
    HOLDS(length == 0);
    /* printing does not change the work counters */
    OK(hordguli_session_work(&session, &works[1]));
    HOLDS(memcmp(&works[0], &works[1], sizeof works[0]) == 0);
}

/* A text, the arguments for `hordguli_layout`, and the lines that it must store. */
typedef struct page_row {
    const char *text;
    uint32_t options, width, print;
    const char *lines;
} page_row;

enum { SHOWN = HORDGULI_PRINT_VISUAL | HORDGULI_PRINT_MIRRORED };

static void laid_out_without_session(void) {
    enum { BASE = HORDGULI_PRINT_BASEDIR };
    enum { MAPS = SHOWN | HORDGULI_PRINT_LTOV | HORDGULI_PRINT_VTOL, LEVELS = HORDGULI_PRINT_LEVELS };
    static const page_row rows[] = {
        {"", 0, 80, 127, ""},
        {"abc\n", 0, 80, BASE, "LTR\n"},
        {"\u05d0\na", 0, 80, BASE, "RTL\nLTR\n"},
        {"1", HORDGULI_WEAK_RTL, 80, BASE, "RTL\n"},
        {"\u2067a\u2069\u05d0", 0, 80, BASE, "RTL\n"},
        {"\u2067a\nb", HORDGULI_WEAK_RTL, 80, BASE, "RTL\nLTR\n"},
        {"\r\n", 0, 80, BASE, "LTR\n"},
        {"\n\r", 0, 80, BASE, "LTR\nLTR\n"},
        {"\u0627 1", 0, 80, LEVELS, "1 1 2\n"},
        {"\u05d01++2", 0, 80, LEVELS, "1 2 1 1 2\n"},
        {"a1$\u05d0", HORDGULI_RTL, 80, LEVELS, "2 2 2 1\n"},
        {"\u05d0(\u05d1(a)", HORDGULI_LTR, 80, LEVELS, "1 1 1 0 0 0\n"},
        {"abcdefgh", 0, 3, SHOWN, "abc\ndef\ngh\n"},
        {"ab cd ef", 0, 1, SHOWN, "a\nb\nc\nd\ne\nf\n"},
        {"   a", 0, 1, SHOWN, "\na\n"},
        {"a\u2028b", 0, 80, SHOWN, "a\nb\n"},
        {"ab cd", HORDGULI_NOBREAK, 1, SHOWN, "ab cd\n"},
        {"$(a", 0, 2, SHOWN, "$(\na\n"},
        {"$(a", HORDGULI_WHOLE_NUMBERS, 2, SHOWN, "$\n(a\n"},
        {"ab\u05d0\u05d1c", 0, 80, MAPS, "ab\u05d1\u05d0c\n0 1 3 2 4\n0 1 3 2 4\n"},
        {"\u05d0  ", 0, 5, HORDGULI_PRINT_DEFAULT | LEVELS, "    \u05d0\n1\n"},
        {"\u05d0(", HORDGULI_RTL, 2, HORDGULI_PRINT_VISUAL, "(\u05d0\n"},
        {"\u05d0(", HORDGULI_RTL, 2, SHOWN, ")\u05d0\n"},
        {"\u05d0\u0300\u05d1", 0, 80, MAPS, "\u05d1\u0300\u05d0\n2 1 0\n2 1 0\n"},
        {"\u05d0\u0300\u05d1", HORDGULI_REORDER_NSM, 80, MAPS, "\u05d1\u05d0\u0300\n1 2 0\n2 0 1\n"},
        {text, 0, 80, SHOWN, "abc \u05d2\u05d1\u05d0\n12 (\u05d0)\nx y\n"},
        {"a", 0, 65535, 0, ""},
    };
    char bytes[200];
    size_t written = 77;
    for (size_t k = 0; k < sizeof rows / sizeof *rows; k++) {
        const page_row *row = &rows[k];
        size_t length = strlen(row->text), wanted = strlen(row->lines);
        memset(bytes, '?', sizeof bytes);
        OK(hordguli_layout(&tables, row->options, row->width, row->print, row->text, length, wanted, bytes, &written));
        HOLDS(bytes[wanted] == '?');
        same(bytes, written, row->lines);
    }
    written = 77;
    bytes[0] = '?';
    IS(hordguli_layout(NULL, 0, 80, SHOWN, "ab", 2, 200, bytes, &written), NULL);
    IS(hordguli_layout(&tables, 0, 80, SHOWN, NULL, 2, 200, bytes, &written), NULL);
    IS(hordguli_layout(&tables, 0, 80, SHOWN, "ab", 2, 200, NULL, &written), NULL);
    IS(hordguli_layout(&tables, 0, 80, SHOWN, "ab", 2, 200, bytes, NULL), NULL);
    IS(hordguli_layout(&tables, 0, 80, SHOWN, "ab", 2, 4, (char *)&written, &written), OVERLAP);
    IS(hordguli_layout(&tables, 0, 80, SHOWN, "ab", 2, 4, (char *)&tables, &written), OVERLAP);
    IS(hordguli_layout(&tables, 0, 80, SHOWN, "ab", 2, 200, bytes, (size_t *)&tables), OVERLAP);
    IS(hordguli_layout(&tables, 0, 80, SHOWN, bytes, 2, 200, bytes, &written), OVERLAP);
    IS(hordguli_layout(&tables, 0, 80, SHOWN, "ab", 2, SIZE_MAX, bytes, &written), OVERLAP);
    IS(hordguli_layout(&tables, 0, 65536, SHOWN, "ab", 2, 200, bytes, &written), WIDTH_OUT_OF_RANGE);
    for (uint32_t bit = 7; bit < 32; bit += bit == 7 ? 9 : bit == 23 ? 4 : 1)
        IS(hordguli_layout(&tables, UINT32_C(1) << bit, 80, SHOWN, "ab", 2, 200, bytes, &written), UNKNOWN_OPTION);
    for (uint32_t bit = 7; bit < 32; bit++)
        IS(hordguli_layout(&tables, 0, 80, UINT32_C(1) << bit, "ab", 2, 200, bytes, &written), UNKNOWN_OPTION);
    IS(hordguli_layout(&tables, 0, 80, SHOWN, "a\nb\xFF", 4, 200, bytes, &written), NOT_UTF8);
    IS(hordguli_layout(&tables, 0, 80, SHOWN, "a\n\xE4\xB8", 4, 200, bytes, &written), NOT_UTF8);
    IS(hordguli_layout(&no_tables, 0, 80, SHOWN, "ab", 2, 200, bytes, &written), CLOSED);
    IS(hordguli_layout(&tables, 0, 0, SHOWN, "ab", 2, 200, bytes, &written), WIDTH_OUT_OF_RANGE);
    IS(hordguli_layout(&tables, 0, 0, SHOWN, "", 0, 200, bytes, &written), WIDTH_OUT_OF_RANGE);
    HOLDS(written == 77 && bytes[0] == '?');
    IS(hordguli_layout(&tables, 0, 80, SHOWN, "ab\nc", 4, 4, bytes, &written), NO_ROOM);
    HOLDS(written == 5 && bytes[0] == '?');
    written = 77;
    IS(hordguli_layout(&tables, 0, 80, SHOWN, "ab\nc", 4, 0, NULL, &written), NO_ROOM);
    HOLDS(written == 5);
    /* a later call with a shorter text stores nothing of the longer one */
    OK(hordguli_layout(&tables, 0, 80, SHOWN, "x", 1, 200, bytes, &written));
    same(bytes, written, "x\n");
    OK(hordguli_layout(&tables, 0, 80, SHOWN, NULL, 0, 0, NULL, &written));
    HOLDS(written == 0);
}

static void text_of_ranges(void) {
    char bytes[100];
    size_t length = 77;
    IS(hordguli_text(NULL, 0, 1, 100, bytes, &length), NULL);
    IS(hordguli_text(&session, 0, 1, 100, NULL, &length), NULL);
    IS(hordguli_text(&session, 0, 1, 100, bytes, NULL), NULL);
    IS(hordguli_text(&session, 0, 1, 4, (char *)&length, &length), OVERLAP);
    IS(hordguli_text(&no_session, 0, 1, 100, bytes, &length), CLOSED);
    IS(hordguli_text(&session, 0, 19, 100, bytes, &length), OUT_OF_RANGE);
    IS(hordguli_text(&session, 2, SIZE_MAX - 1, 100, bytes, &length), OUT_OF_RANGE);
    HOLDS(length == 77);
    bytes[0] = '?';
    IS(hordguli_text(&session, 3, 3, 4, bytes, &length), NO_ROOM);
    HOLDS(length == 5 && bytes[0] == '?');
    OK(hordguli_text(&session, 3, 3, 5, bytes, &length));
    same(bytes, length, " \u05d0\u05d1");
    OK(hordguli_text(&session, 0, 18, 100, bytes, &length));
    same(bytes, length, text);
    OK(hordguli_text(&session, 18, 0, 0, NULL, &length));
    HOLDS(length == 0);
    IS(hordguli_utf8_length(NULL, 0, 1, &length), NULL);
    IS(hordguli_utf8_length(&session, 0, 1, NULL), NULL);
    IS(hordguli_utf8_length(&session, 0, 1, (size_t *)&session), OVERLAP);
    IS(hordguli_utf8_length(&no_session, 0, 1, &length), CLOSED);
    IS(hordguli_utf8_length(&session, 0, 19, &length), OUT_OF_RANGE);
    HOLDS(length == 0);
    OK(hordguli_utf8_length(&session, 0, 18, &length));
    HOLDS(length == sizeof text - 1);
    OK(hordguli_utf8_length(&session, 3, 3, &length));
    HOLDS(length == 5);
    IS(hordguli_count_utf8(NULL, 1, &length), NULL);
    IS(hordguli_count_utf8(text, 1, NULL), NULL);
    IS(hordguli_count_utf8((const char *)&length, 1, &length), OVERLAP);
    IS(hordguli_count_utf8(text, SIZE_MAX, &length), OVERLAP);
    IS(hordguli_count_utf8("a\xC3", 2, &length), NOT_UTF8);
    HOLDS(length == 5);
    OK(hordguli_count_utf8(text, sizeof text - 1, &length));
    HOLDS(length == 18);
    OK(hordguli_count_utf8(NULL, 0, &length));
    HOLDS(length == 0);
    IS(hordguli_valid_utf8(NULL, 1, &length), NULL);
    IS(hordguli_valid_utf8(text, 1, NULL), NULL);
    IS(hordguli_valid_utf8((const char *)&length, 1, &length), OVERLAP);
    IS(hordguli_valid_utf8(text, SIZE_MAX, &length), OVERLAP);
    OK(hordguli_valid_utf8("a\xC3", 2, &length));
    HOLDS(length == 1);
    OK(hordguli_valid_utf8("\xff", 1, &length));
    HOLDS(length == 0);
    OK(hordguli_valid_utf8(text, sizeof text - 1, &length));
    HOLDS(length == sizeof text - 1);
    OK(hordguli_valid_utf8(NULL, 0, &length));
    HOLDS(length == 0);
}

static void decoded_text(void) {
    static const char bytes[] = "a\u00e9\u05d0\u4e00\U0001F600\0b"; /* 1 to 4 bytes, and U+0000 */
    static const uint32_t wanted[] = {'a', 0xE9, 0x5D0, 0x4E00, 0x1F600, 0, 'b'};
    static const size_t at[] = {0, 1, 3, 5, 8, 12, 13};
    uint32_t characters[8] = {7, 7, 7, 7, 7, 7, 7, 7};
    size_t offsets[8] = {7, 7, 7, 7, 7, 7, 7, 7}, count = 77;
    IS(hordguli_decode(NULL, 1, 8, characters, offsets, &count), NULL);
    IS(hordguli_decode(bytes, 14, 8, characters, offsets, NULL), NULL);
    IS(hordguli_decode(bytes, 14, 8, characters, offsets, &offsets[7]), OVERLAP);
    IS(hordguli_decode(bytes, 14, 8, (uint32_t *)offsets, offsets, &count), OVERLAP);
    IS(hordguli_decode((const char *)characters, 1, 8, characters, NULL, &count), OVERLAP);
    IS(hordguli_decode((const char *)offsets, 1, 8, NULL, offsets, &count), OVERLAP);
    IS(hordguli_decode(bytes, SIZE_MAX, 8, characters, offsets, &count), OVERLAP);
    IS(hordguli_decode(bytes, 14, SIZE_MAX, characters, NULL, &count), OVERLAP);
    IS(hordguli_decode("a\xC3", 2, 8, characters, offsets, &count), NOT_UTF8);
    HOLDS(count == 77);
    IS(hordguli_decode(bytes, 14, 6, characters, NULL, &count), NO_ROOM);
    HOLDS(count == 7), count = 77;
    IS(hordguli_decode(bytes, 14, 6, NULL, offsets, &count), NO_ROOM);
    HOLDS(count == 7 && characters[0] == 7 && offsets[0] == 7);
    OK(hordguli_decode(bytes, 14, 7, characters, NULL, &count)); /* exactly large enough */
    HOLDS(memcmp(characters, wanted, sizeof wanted) == 0 && characters[7] == 7 && offsets[0] == 7);
    memset(characters, 0xFF, sizeof characters);
    OK(hordguli_decode(bytes, 14, 8, NULL, offsets, &count));
    HOLDS(memcmp(offsets, at, sizeof at) == 0 && offsets[7] == 7 && characters[0] == UINT32_MAX);
    OK(hordguli_decode(bytes, 14, 8, characters, offsets, &count));
    HOLDS(count == 7 && memcmp(characters, wanted, sizeof wanted) == 0 && memcmp(offsets, at, sizeof at) == 0);
    OK(hordguli_decode(NULL, 0, 0, NULL, NULL, &count));
    HOLDS(count == 0);
}

#define CODE(letters) \
    ((uint32_t)(letters)[0] << 24 | (uint32_t)(letters)[1] << 16 | (uint32_t)(letters)[2] << 8 | (uint32_t)(letters)[3])

/* Compares the script runs of a text with a string such as `3 Latn 2 Hebr `. */
static void runs_are(const char *bytes, const char *wanted) {
    uint32_t characters[300];
    hordguli_script_run runs[100];
    char found[1000] = "";
    size_t count = 0, run_count = 0, at = 0;
    OK(hordguli_decode(bytes, strlen(bytes), 300, characters, NULL, &count));
    OK(hordguli_script_runs(&tables, count, characters, 100, runs, &run_count));
    for (size_t k = 0; k < run_count; at += runs[k++].length) {
        uint32_t code = runs[k].script;
        size_t length = strlen(found);
        HOLDS(runs[k].start == at && runs[k].length > 0 && runs[k].zero == 0);
        snprintf(found + length, sizeof found - length, "%zu %c%c%c%c ", runs[k].length, (char)(code >> 24),
                 (char)(code >> 16 & 255), (char)(code >> 8 & 255), (char)(code & 255));
    }
    holds(at == count && strcmp(found, wanted) == 0, __FILE__, __LINE__, bytes);
}

static void script_runs(void) {
    static const uint32_t characters[] = {'a', 0x5D0, ' '}, no_character[] = {'a', 0xD800, ' '};
    hordguli_script_run runs[3] = {{7, 7, 7, 7}, {7, 7, 7, 7}, {7, 7, 7, 7}};
    uint32_t both[12] = {'a'};
    size_t count = 77;
    runs_are("", "");
    runs_are("abc, \u05d0\u05d1.", "5 Latn 3 Hebr ");
    runs_are("a (\u05d0) b", "3 Latn 1 Hebr 3 Latn ");             /* the brackets have the script of `a` */
    runs_are("(\u05d0) abc", "4 Hebr 3 Latn ");                    /* a leading bracket has the script that follows */
    runs_are("a[\u05d0(\u05d1]c", "2 Latn 3 Hebr 2 Latn ");        /* an outer bracket closes an inner one */
    runs_are("a)\u05d0)", "2 Latn 2 Hebr ");                       /* closing brackets without an opening one */
    runs_are("a(\u05d0))", "2 Latn 1 Hebr 2 Latn ");               /* a pair matches once */
    runs_are("12 + 3", "6 Zyyy ");                                 /* all characters are Common */
    runs_are("\u0301a\u0301\u05d0\u0301", "3 Latn 2 Hebr ");      /* marks */
    runs_are("\u0e01\u0628\u3042\u30a2\u4e00\U00010E80", "1 Thai 1 Arab 1 Hira 1 Kana 1 Hani 1 Yezi ");
    runs_are("\ue000 \u0378", "3 Zzzz ");                         /* a private-use character and an unassigned one */
    runs_are("a\u0f3a\u05d0\u0f3b", "1 Latn 1 Tibt 1 Hebr 1 Tibt "); /* brackets of a script */
    IS(hordguli_script_runs(NULL, 3, characters, 3, runs, &count), NULL);
    IS(hordguli_script_runs(&tables, 3, NULL, 3, runs, &count), NULL);
    IS(hordguli_script_runs(&tables, 3, characters, 3, NULL, &count), NULL);
    IS(hordguli_script_runs(&tables, 3, characters, 3, runs, NULL), NULL);
    IS(hordguli_script_runs(&tables, 3, characters, 3, runs, (size_t *)runs), OVERLAP);
    IS(hordguli_script_runs(&tables, 12, both, 1, (hordguli_script_run *)both, &count), OVERLAP);
    IS(hordguli_script_runs(&no_tables, 3, characters, 3, runs, &count), CLOSED);
    IS(hordguli_script_runs(&tables, 3, no_character, 3, runs, &count), NOT_A_CHARACTER);
    HOLDS(count == 77 && runs[0].start == 7);
    IS(hordguli_script_runs(&tables, 3, characters, 1, runs, &count), NO_ROOM);
    HOLDS(count == 2 && runs[0].start == 7);
    OK(hordguli_script_runs(&tables, 3, characters, 2, runs, &count)); /* exactly large enough */
    HOLDS(count == 2 && runs[0].start == 0 && runs[0].length == 1 && runs[0].script == CODE("Latn") && runs[0].zero == 0);
    HOLDS(runs[1].start == 1 && runs[1].length == 2 && runs[1].script == CODE("Hebr") && runs[2].start == 7);
    OK(hordguli_script_runs(&tables, 0, NULL, 0, NULL, &count));
    HOLDS(count == 0);
}

static void clusters_of_text(void) {
    /* a letter with a mark, CR LF, a Devanagari conjunct, a flag, an emoji family */
    static const uint32_t characters[] = {'e', 0x301, '\r', '\n', 0x915, 0x94D, 0x937, 0x1F1F3, 0x1F1F1, 0x1F468, 0x200D, 0x1F469, 'a'};
    static const uint32_t no_character[] = {'a', 0xD800};
    static const size_t wanted[] = {2, 4, 7, 9, 12, 13};
    size_t ends[7] = {7, 7, 7, 7, 7, 7, 7}, count = 77;
    IS(hordguli_clusters(13, NULL, 7, ends, &count), NULL);
    IS(hordguli_clusters(13, characters, 7, NULL, &count), NULL);
    IS(hordguli_clusters(13, characters, 7, ends, NULL), NULL);
    IS(hordguli_clusters(13, characters, 7, ends, &ends[6]), OVERLAP);
    IS(hordguli_clusters(2, (const uint32_t *)ends, 7, ends, &count), OVERLAP);
    IS(hordguli_clusters(1, (const uint32_t *)&count, 7, ends, &count), OVERLAP);
    IS(hordguli_clusters(SIZE_MAX, characters, 7, ends, &count), OVERLAP);
    IS(hordguli_clusters(13, characters, SIZE_MAX, ends, &count), OVERLAP);
    IS(hordguli_clusters(2, no_character, 7, ends, &count), NOT_A_CHARACTER);
    HOLDS(count == 77 && ends[0] == 7);
    IS(hordguli_clusters(13, characters, 5, ends, &count), NO_ROOM);
    HOLDS(count == 6 && ends[0] == 7), count = 77;
    OK(hordguli_clusters(13, characters, 6, ends, &count)); /* exactly large enough */
    HOLDS(count == 6 && memcmp(ends, wanted, sizeof wanted) == 0 && ends[6] == 7);
    OK(hordguli_clusters(0, NULL, 0, NULL, &count));
    HOLDS(count == 0);
}

static void characters_of_ranges(void) {
    uint32_t characters[18], seven = 7;
    size_t length = 77;
    static const uint32_t wanted[] = {' ', 0x5D0, 0x5D1, 0x5D2, '\n', '(', 0x5D0, ')', ' '};
    characters[0] = characters[9] = 7;
    IS(hordguli_text_utf32(NULL, 0, 1, 18, characters, &length), NULL);
    IS(hordguli_text_utf32(&session, 0, 1, 18, NULL, &length), NULL);
    IS(hordguli_text_utf32(&session, 0, 1, 18, characters, NULL), NULL);
    IS(hordguli_text_utf32(&session, 0, 1, 2, (uint32_t *)&length, &length), OVERLAP);
    IS(hordguli_text_utf32(&session, 0, 1, SIZE_MAX, characters, &length), OVERLAP);
    IS(hordguli_text_utf32(&no_session, 0, 1, 18, characters, &length), CLOSED);
    IS(hordguli_text_utf32(&session, 0, 19, 18, characters, &length), OUT_OF_RANGE);
    IS(hordguli_text_utf32(&session, 2, SIZE_MAX - 1, 18, characters, &length), OUT_OF_RANGE);
    IS(hordguli_text_utf32(&session, 19, 0, 18, characters, &length), OUT_OF_RANGE);
    HOLDS(length == 77 && characters[0] == 7);
    IS(hordguli_text_utf32(&session, 3, 9, 8, characters, &length), NO_ROOM);
    HOLDS(length == 9 && characters[0] == 7);
    OK(hordguli_text_utf32(&session, 3, 9, 9, characters, &length)); /* unmirrored, across two paragraphs */
    HOLDS(length == 9 && memcmp(characters, wanted, sizeof wanted) == 0);
    OK(hordguli_text_utf32(&session, 17, 1, 1, &seven, &length));
    HOLDS(length == 1 && seven == 'y');
    OK(hordguli_text_utf32(&session, 0, 18, 18, characters, &length));
    HOLDS(length == 18 && characters[0] == 'a' && characters[17] == 'y');
    OK(hordguli_text_utf32(&session, 18, 0, 0, NULL, &length));
    HOLDS(length == 0);
}

static void paragraphs(void) {
    hordguli_paragraph_info info = {7, 7, 7, 7, 7, 7};
    uint8_t levels[8], marks[8];
    static const uint8_t wanted_levels[] = {1, 1, 1, 1, 2, 2, 1}, wanted_marks[] = {0, 0, 0, 1, 0, 0, 2};
    IS(hordguli_paragraph(NULL, 1, &info, 8, levels, marks), NULL);
    IS(hordguli_paragraph(&session, 1, NULL, 8, levels, marks), NULL);
    IS(hordguli_paragraph(&session, 1, &info, 8, levels, levels), OVERLAP);
    IS(hordguli_paragraph(&session, 1, &info, 8, (uint8_t *)&info, marks), OVERLAP);
    IS(hordguli_paragraph(&session, 1, &info, 8, NULL, (uint8_t *)&session), OVERLAP);
    IS(hordguli_paragraph(&no_session, 1, &info, 8, levels, marks), CLOSED);
    IS(hordguli_paragraph(&session, 3, &info, 8, levels, marks), OUT_OF_RANGE);
    HOLDS(info.length == 7 && info.start == 7 && info.first_line == 7);
    OK(hordguli_paragraph(&session, 0, &info, 0, NULL, NULL));
    HOLDS(info.length == 8 && info.lines == 1 && info.base == 0 && info.zero == 0);
    HOLDS(info.start == 0 && info.first_line == 0);
    levels[0] = marks[0] = 77;
    IS(hordguli_paragraph(&session, 1, &info, 6, levels, marks), NO_ROOM);
    HOLDS(info.length == 7 && info.base == 1 && info.start == 8 && info.first_line == 1);
    HOLDS(levels[0] == 77 && marks[0] == 77);
    OK(hordguli_paragraph(&session, 1, &info, 7, levels, marks));
    HOLDS(memcmp(levels, wanted_levels, 7) == 0 && memcmp(marks, wanted_marks, 7) == 0);
    memset(marks, 77, sizeof marks);
    OK(hordguli_paragraph(&session, 1, &info, 8, NULL, marks));
    HOLDS(memcmp(marks, wanted_marks, 7) == 0 && marks[7] == 77);
}

/* ---- Without a session ---- */

/* A single direction is accepted, also as a number from 0 to 3. Two different directions are refused, and so are
 * reserved bits. */
static void directions_are_one_or_refused(void) {
    static const uint32_t directions[] = {HORDGULI_WEAK_LTR, HORDGULI_WEAK_RTL, HORDGULI_LTR, HORDGULI_RTL};
    static const uint32_t letters[] = {'a', 0x5D0}, number = '1', wanted[][3] = {{0, 1, 0}, {0, 1, 1}, {0, 0, 0}, {1, 1, 1}};
    hordguli_session other = HORDGULI_SESSION_INIT;
    uint32_t base, vtol[1];
    uint8_t numbers[1] = {0};
    char buffer[8];
    size_t written;
    for (uint32_t i = 0; i < 4; i++) {
        for (uint32_t form = 0; form < 2; form++) {
            uint32_t direction = form == 0 ? directions[i] : i;
            for (uint32_t k = 0; k < 3; k++) {
                OK(hordguli_base(&tables, direction, k < 2 ? letters + k : &number, 1, &base));
                HOLDS(base == wanted[i][k]);
            }
            OK(hordguli_levels(&tables, direction, letters, 1, 1, numbers));
            OK(hordguli_layout(&tables, direction | HORDGULI_SHOW_SPACES, 80, SHOWN, "a", 1, sizeof buffer, buffer, &written));
            OK(hordguli_session_open(&other, &tables, direction | HORDGULI_TAB_WIDTH(255), 80, "a", 1));
            hordguli_session_close(&other);
        }
        for (uint32_t j = 0; j < 4; j++) {
            uint32_t two = directions[i] | directions[j];
            if (i == j) continue;
            IS(hordguli_session_open(&other, &tables, two, 80, "a", 1), UNKNOWN_OPTION);
            IS(hordguli_layout(&tables, two | HORDGULI_NOBREAK, 80, SHOWN, "a", 1, sizeof buffer, buffer, &written), UNKNOWN_OPTION);
            IS(hordguli_base(&tables, two, letters, 1, &base), UNKNOWN_OPTION);
            IS(hordguli_levels(&tables, two, letters, 1, 1, numbers), UNKNOWN_OPTION);
        }
        for (uint32_t bit = 16; bit < 32; bit += bit == 23 ? 4 : 1)
            IS(hordguli_base(&tables, directions[i] | UINT32_C(1) << bit, letters, 1, &base), UNKNOWN_OPTION);
        if (directions[i] < 4) continue;
        IS(hordguli_marks(&tables, directions[i] & ~UINT32_C(3), letters, 1, 1, numbers), UNKNOWN_OPTION);
        IS(hordguli_row(&tables, directions[i] & ~UINT32_C(3), 0, 1, letters, numbers, 1, NULL, NULL, NULL, vtol), UNKNOWN_OPTION);
    }
}

/* Checks how many paragraphs and lines a text has, in a session and in a measured session. */
static void has_parts(const char *of, size_t size, uint32_t options, size_t wanted_paragraphs, size_t wanted_lines) {
    hordguli_session other = HORDGULI_SESSION_INIT;
    hordguli_counts counts;
    OK(hordguli_session_open(&other, &tables, options, 80, of, size));
    OK(hordguli_session_counts(&other, &counts));
    HOLDS(counts.paragraphs == wanted_paragraphs && counts.lines == wanted_lines);
    hordguli_session_close(&other);
    OK(hordguli_session_open_measured(&other, &tables, options, 80, of, size));
    OK(hordguli_session_counts(&other, &counts));
    HOLDS(counts.paragraphs == wanted_paragraphs && counts.lines == wanted_lines);
    hordguli_session_close(&other);
}

/* HORDGULI_LINE_SEPARATORS: paragraphs end at LF, CR and CRLF only. */
static void line_separators_alone_end_paragraphs(void) {
    static const struct {
        const char *separator;
        uint32_t character;
        size_t paragraphs, lines, paragraphs_of_lines, lines_of_lines;
    } all[] = {
        {"\x1B", 0x1B, 1, 1, 1, 1},       {"\x1C", 0x1C, 2, 2, 1, 1},       {"\x1D", 0x1D, 2, 2, 1, 1},
        {"\x1E", 0x1E, 2, 2, 1, 1},       {"\x1F", 0x1F, 1, 1, 1, 1},       {"\xC2\x85", 0x85, 2, 2, 1, 2},
        {"\u2029", 0x2029, 2, 2, 1, 2},   {"\n", '\n', 2, 2, 2, 2},          {"\r", '\r', 2, 2, 2, 2},
        {"\r\n", 0, 2, 2, 2, 2},          {"\n\r", 0, 3, 3, 3, 3},          {"\v", '\v', 1, 2, 1, 2},
        {"\f", '\f', 1, 2, 1, 2},         {"\u2028", 0x2028, 1, 2, 1, 2},
    };
    static const uint32_t only = HORDGULI_LINE_SEPARATORS;
    hordguli_damage damage;
    hordguli_session other = HORDGULI_SESSION_INIT;
    char of[16], page[64];
    size_t written;
    for (size_t k = 0; k < sizeof all / sizeof *all; k++) {
        size_t size = (size_t)snprintf(of, sizeof of, "a%sb", all[k].separator);
        uint32_t inside[] = {0x202B, 'a', all[k].character, 'b'};
        uint8_t levels[4], marks[2][4];
        has_parts(of, size, 0, all[k].paragraphs, all[k].lines);
        has_parts(of, size, only, all[k].paragraphs_of_lines, all[k].lines_of_lines);
        if (all[k].character == 0) continue;
        /* A paragraph separator is a level run of its own between two runs of the embedding. So its sos
         * and eos are R, and its level before L1 is 1. Any other character is between two letters of
         * the embedding. */
        OK(hordguli_levels(&tables, HORDGULI_LTR, inside, 4, 4, levels));
        HOLDS((levels[2] == 1) == (all[k].paragraphs == 2));
        OK(hordguli_levels(&tables, HORDGULI_LTR | only, inside, 4, 4, levels));
        HOLDS((levels[2] == 1) == (all[k].paragraphs_of_lines == 2));
        OK(hordguli_marks(&tables, 0, inside, 4, 4, marks[0]));
        OK(hordguli_marks(&tables, only, inside, 4, 4, marks[1]));
        HOLDS(memcmp(marks[0], marks[1], 4) == 0);
    }
    OK(hordguli_layout(&tables, HORDGULI_NOBREAK, 80, HORDGULI_PRINT_BASEDIR, "a\u2029\u05d0", 6, sizeof page, page, &written));
    same(page, written, "LTR\nRTL\n");
    OK(hordguli_layout(&tables, only, 80, HORDGULI_PRINT_BASEDIR, "a\u2029\u05d0", 6, sizeof page, page, &written));
    same(page, written, "LTR\n");
    OK(hordguli_session_open(&other, &tables, only, 80, "ab\ncd", 5));
    OK(hordguli_insert(&other, 1, "\u2029", 3, &damage));
    HOLDS(damage.old_paragraphs == 1 && damage.new_paragraphs == 1 && damage.old_lines == 1 && damage.new_lines == 2);
    OK(hordguli_insert(&other, 1, "\r", 1, &damage));
    HOLDS(damage.old_paragraphs == 1 && damage.new_paragraphs == 2);
    hordguli_session_close(&other);
}

static void without_session(void) {
    static const uint32_t characters[] = {'(', 0x5D0, ')', ' ', '1', '2', '\n'}, number[] = {'a', '1', ',', '2'};
    static const uint32_t no_character[] = {'a', 0xD800}, too_great[] = {0x110000};
    static const uint8_t wanted_levels[] = {1, 1, 1, 1, 2, 2, 1}, wanted_marks[] = {0, 0, 0, 1, 0, 0, 2};
    uint32_t base = 77, both[4] = {'a', 'b', 'c', 'd'};
    uint8_t levels[8], marks[8];
    IS(hordguli_base(NULL, 0, characters, 7, &base), NULL);
    IS(hordguli_base(&tables, 0, NULL, 7, &base), NULL);
    IS(hordguli_base(&tables, 0, characters, 7, NULL), NULL);
    IS(hordguli_base(&tables, 0, both, 4, both + 3), OVERLAP);
    IS(hordguli_base(&tables, 0, characters, SIZE_MAX / 2, &base), OVERLAP);
    IS(hordguli_base(&tables, 0, characters, 7, (uint32_t *)&tables), OVERLAP);
    IS(hordguli_base(&tables, 4, characters, 7, &base), UNKNOWN_OPTION);
    IS(hordguli_base(&no_tables, 0, characters, 7, &base), CLOSED);
    IS(hordguli_base(&tables, 0, no_character, 2, &base), NOT_A_CHARACTER);
    IS(hordguli_base(&tables, 0, too_great, 1, &base), NOT_A_CHARACTER);
    HOLDS(base == 77);
    OK(hordguli_base(&tables, HORDGULI_WEAK_LTR, characters, 7, &base));
    HOLDS(base == 1);
    OK(hordguli_base(&tables, HORDGULI_LTR, characters, 7, &base));
    HOLDS(base == 0);
    OK(hordguli_base(&tables, HORDGULI_WEAK_RTL, number, 4, &base));
    HOLDS(base == 0);
    OK(hordguli_base(&tables, HORDGULI_WEAK_RTL, number + 1, 3, &base));
    HOLDS(base == 1);
    OK(hordguli_base(&tables, HORDGULI_RTL, NULL, 0, &base));
    HOLDS(base == 1);

    IS(hordguli_levels(NULL, 0, characters, 7, 8, levels), NULL);
    IS(hordguli_levels(&tables, 0, NULL, 7, 8, levels), NULL);
    IS(hordguli_levels(&tables, 0, characters, 7, 8, NULL), NULL);
    IS(hordguli_levels(&tables, 0, both, 4, 8, (uint8_t *)both), OVERLAP);
    IS(hordguli_levels(&tables, 32, characters, 7, 8, levels), UNKNOWN_OPTION);
    IS(hordguli_levels(&no_tables, 0, characters, 7, 8, levels), CLOSED);
    levels[0] = 77;
    IS(hordguli_levels(&tables, 0, characters, 7, 6, levels), NO_ROOM);
    IS(hordguli_levels(&tables, 0, no_character, 2, 8, levels), NOT_A_CHARACTER);
    HOLDS(levels[0] == 77);
    levels[7] = 77;
    OK(hordguli_levels(&tables, 0, characters, 7, 8, levels));
    HOLDS(memcmp(levels, wanted_levels, 7) == 0 && levels[7] == 77);
    OK(hordguli_levels(&tables, 0, NULL, 0, 0, NULL));

    IS(hordguli_marks(NULL, 0, characters, 7, 8, marks), NULL);
    IS(hordguli_marks(&tables, 0, NULL, 7, 8, marks), NULL);
    IS(hordguli_marks(&tables, 0, characters, 7, 8, NULL), NULL);
    IS(hordguli_marks(&tables, 0, both, 4, 8, (uint8_t *)both), OVERLAP);
    IS(hordguli_marks(&tables, 1, characters, 7, 8, marks), UNKNOWN_OPTION);
    IS(hordguli_marks(&no_tables, 0, characters, 7, 8, marks), CLOSED);
    marks[0] = 77;
    IS(hordguli_marks(&tables, 0, characters, 7, 6, marks), NO_ROOM);
    IS(hordguli_marks(&tables, 0, no_character, 2, 8, marks), NOT_A_CHARACTER);
    HOLDS(marks[0] == 77);
    marks[7] = 77;
    OK(hordguli_marks(&tables, 0, characters, 7, 8, marks));
    HOLDS(memcmp(marks, wanted_marks, 7) == 0 && marks[7] == 77);
    OK(hordguli_marks(&tables, 0, number, 4, 8, marks));
    HOLDS(marks[2] == 0 && marks[3] == 2);
    OK(hordguli_marks(&tables, HORDGULI_WHOLE_NUMBERS, (const uint32_t[]){'a', ',', '1'}, 3, 8, marks));
    HOLDS(marks[1] == 1);
    OK(hordguli_marks(&tables, 0, (const uint32_t[]){'a', ',', '1'}, 3, 8, marks));
    HOLDS(marks[1] == 0);
    OK(hordguli_marks(&tables, 0, NULL, 0, 0, NULL));
}

/* ---- Reasons ---- */

/* Short names for bidi classes, for no class (NC) and for no position (NP) */
enum {
    L = HORDGULI_BIDI_CLASS_L, R = HORDGULI_BIDI_CLASS_R, AL_ = HORDGULI_BIDI_CLASS_AL, EN = HORDGULI_BIDI_CLASS_EN,
    ES = HORDGULI_BIDI_CLASS_ES, ET = HORDGULI_BIDI_CLASS_ET, AN = HORDGULI_BIDI_CLASS_AN, NSM = HORDGULI_BIDI_CLASS_NSM,
    BN = HORDGULI_BIDI_CLASS_BN, ON = HORDGULI_BIDI_CLASS_ON, LRO = HORDGULI_BIDI_CLASS_LRO, RLE = HORDGULI_BIDI_CLASS_RLE,
    RLO = HORDGULI_BIDI_CLASS_RLO, PDF = HORDGULI_BIDI_CLASS_PDF, RLI = HORDGULI_BIDI_CLASS_RLI, FSI = HORDGULI_BIDI_CLASS_FSI,
    PDI = HORDGULI_BIDI_CLASS_PDI, NC = 0xFF
};
#define NP UINT32_MAX
#define B_ HORDGULI_BRACKET_CASE_B
#define C1 HORDGULI_BRACKET_CASE_C1
#define C2 HORDGULI_BRACKET_CASE_C2
#define D_ HORDGULI_BRACKET_CASE_D
#define NOT_OTHER HORDGULI_BRACKET_CASE_NOT_OTHER
#define NO_MATCH HORDGULI_BRACKET_CASE_NO_MATCH
#define N1 HORDGULI_NEUTRAL_N1
#define N2 HORDGULI_NEUTRAL_N2
#define ALL(c) {c, c, c, c, c, c, c, c, c, c, c}
#define TO_N0(c, n) {c, c, c, c, c, c, c, c, c, n, n}
#define TO_N(c, n) {c, c, c, c, c, c, c, c, c, c, n}
#define REMOVED(c) {c, NC, NC, NC, NC, NC, NC, NC, NC, NC, NC}

/* A text, a direction, and the reason for the level of the character at `at`. The fields are in the order of the
 * header: opener, matching, sequence, partner, inside, left, right, class_after, override_class, embedding_level, level,
 * sos, eos, bracket_case, neutral. */
static const struct {
    const char *text;
    uint32_t direction;
    size_t at;
    hordguli_reason wanted;
} reason_rows[] = {
    {"a(\u05d0)", 0, 0, {NP, NP, 0, NP, NP, NP, NP, ALL(L), NC, 0, 0, L, L, 0, 0}},
    {"a(\u05d0)", 0, 1, {NP, NP, 0, 3, 2, NP, NP, TO_N0(ON, L), NC, 0, 0, L, L, C2, 0}},
    {"a(\u05d0)", 0, 2, {NP, NP, 0, NP, NP, NP, NP, ALL(R), NC, 0, 1, L, L, 0, 0}},
    {"a(\u05d0)", 0, 3, {NP, NP, 0, 1, 2, NP, NP, TO_N0(ON, L), NC, 0, 0, L, L, C2, 0}},
    {"\u05d0(a)", HORDGULI_LTR, 1, {NP, NP, 0, 3, 2, NP, NP, TO_N0(ON, L), NC, 0, 0, L, L, B_, 0}},
    {"\u05d0(\u05d1)", HORDGULI_LTR, 1, {NP, NP, 0, 3, 2, NP, NP, TO_N0(ON, R), NC, 0, 1, L, L, C1, 0}},
    {"\u05d0(!)\u05d0", HORDGULI_LTR, 1, {NP, NP, 0, 3, NP, 0, 4, TO_N(ON, R), NC, 0, 1, L, L, D_, N1}},
    {"\u05d0(!)\u05d0", HORDGULI_LTR, 2, {NP, NP, 0, NP, NP, 0, 4, TO_N(ON, R), NC, 0, 1, L, L, 0, N1}},
    {")a", 0, 0, {NP, NP, 0, NP, NP, NP, 1, TO_N(ON, L), NC, 0, 0, L, L, NO_MATCH, N1}},
    {"\u05d0!a", HORDGULI_LTR, 1, {NP, NP, 0, NP, NP, 0, 2, TO_N(ON, L), NC, 0, 0, L, L, 0, N2}},
    /* X4 and X6: the override before the letter and the bracket applies to both. */
    {"\u202ea(\u202c", 0, 0, {NP, NP, NP, NP, NP, NP, NP, REMOVED(RLO), NC, 0, 0, NC, NC, 0, 0}},
    {"\u202ea(\u202c", 0, 1, {0, NP, 1, NP, NP, NP, NP, {L, R, R, R, R, R, R, R, R, R, R}, R, 1, 1, R, R, 0, 0}},
    {"\u202ea(\u202c", 0, 2, {0, NP, 1, NP, NP, NP, NP, {ON, R, R, R, R, R, R, R, R, R, R}, R, 1, 1, R, R, NOT_OTHER, 0}},
    {"\u202ea(\u202c", 0, 3, {0, NP, NP, NP, NP, 2, NP, REMOVED(PDF), R, 1, 1, NC, NC, 0, 0}},
    {"\u202d\u05d0", HORDGULI_RTL, 1, {0, NP, 1, NP, NP, NP, NP, {R, L, L, L, L, L, L, L, L, L, L}, L, 2, 2, L, L, 0, 0}},
    /* Positions count from the start of the text, also in the second sequence, which has only the letter. */
    {"\u2067a\u2069(b)", 0, 0, {NP, 2, 0, NP, NP, NP, 3, TO_N(RLI, L), NC, 0, 0, L, L, 0, N1}},
    {"\u2067a\u2069(b)", 0, 1, {0, NP, 1, NP, NP, NP, NP, ALL(L), NC, 1, 2, R, R, 0, 0}},
    {"\u2067a\u2069(b)", 0, 2, {NP, 0, 0, NP, NP, NP, 3, TO_N(PDI, L), NC, 0, 0, L, L, 0, N1}},
    {"\u2067a\u2069(b)", 0, 5, {NP, NP, 0, 3, 4, NP, NP, TO_N0(ON, L), NC, 0, 0, L, L, B_, 0}},
    {"\u2068\u05d0\u2069", 0, 0, {NP, 2, 0, NP, NP, NP, NP, {FSI, RLI, RLI, RLI, RLI, RLI, RLI, RLI, RLI, RLI, L}, NC, 0, 0, L, L, 0, N1}},
    /* X9: a removed character has the level of the character before it, which can differ from its embedding level. */
    {"\u202b\u05d0\u00ad", HORDGULI_LTR, 0, {NP, NP, NP, NP, NP, NP, NP, REMOVED(RLE), NC, 0, 0, NC, NC, 0, 0}},
    {"\u202b\u05d0\u00ad", HORDGULI_LTR, 2, {0, NP, NP, NP, NP, 1, NP, REMOVED(BN), NC, 1, 1, NC, NC, 0, 0}},
    {"\u2067\u202c\u2069", HORDGULI_LTR, 1, {0, NP, NP, NP, NP, 0, NP, REMOVED(PDF), NC, 1, 0, NC, NC, 0, 0}},
    /* N0: a mark after a bracket changes to the bracket's type. */
    {"\u05d0(a)\u0300", HORDGULI_LTR, 4, {NP, NP, 0, 3, NP, NP, NP, {NSM, NSM, ON, ON, ON, ON, ON, ON, ON, L, L}, NC, 0, 0, L, L, 0, 0}},
    /* In each row, one of W2 to W7 changes the type, at that rule's index of `class_after`. */
    {"\u06271", 0, 1, {NP, NP, 0, NP, NP, NP, NP, {EN, EN, EN, AN, AN, AN, AN, AN, AN, AN, AN}, NC, 1, 2, R, R, 0, 0}},
    {"\u0627", HORDGULI_LTR, 0, {NP, NP, 0, NP, NP, NP, NP, {AL_, AL_, AL_, AL_, R, R, R, R, R, R, R}, NC, 0, 1, L, L, 0, 0}},
    {"1+2", HORDGULI_RTL, 1, {NP, NP, 0, NP, NP, NP, NP, {ES, ES, ES, ES, ES, EN, EN, EN, EN, EN, EN}, NC, 1, 2, R, R, 0, 0}},
    {"$1", HORDGULI_RTL, 0, {NP, NP, 0, NP, NP, NP, NP, {ET, ET, ET, ET, ET, ET, EN, EN, EN, EN, EN}, NC, 1, 2, R, R, 0, 0}},
    {"+", HORDGULI_RTL, 0, {NP, NP, 0, NP, NP, NP, NP, {ES, ES, ES, ES, ES, ES, ES, ON, ON, ON, R}, NC, 1, 1, R, R, 0, N1}},
    {"a1", 0, 1, {NP, NP, 0, NP, NP, NP, NP, {EN, EN, EN, EN, EN, EN, EN, EN, L, L, L}, NC, 0, 0, L, L, 0, 0}},
};

/* Returns an address at which nothing is mapped, for arrays that a call must refuse without accessing
 * them. */
static void *far_away(uintptr_t number) { return (void *)(number << 40); }

static void reasons(void) {
    static const uint32_t characters[] = {'a', '(', 0x5D0, ')'}, no_character[] = {'a', 0xD800};
    static const uint32_t separators[] = {0x5D0, 0x85};
    enum { WITHOUT_PADDING = offsetof(hordguli_reason, neutral) + 1 };
    hordguli_reason found[130];
    uint32_t text_characters[130];
    for (size_t k = 0; k < sizeof reason_rows / sizeof *reason_rows; k++) {
        size_t count = decoded(reason_rows[k].text, text_characters);
        memset(found, 77, sizeof found);
        OK(hordguli_reasons(&tables, reason_rows[k].direction, text_characters, count, 130, found));
        if (!HOLDS(memcmp(&found[reason_rows[k].at], &reason_rows[k].wanted, WITHOUT_PADDING) == 0))
            fprintf(stderr, "calls.c: row %zu of the reasons\n", k);
        HOLDS(found[count].opener == 0x4D4D4D4D && found[count].neutral == 77);
    }
    /* BD16: all of 63 nested pairs of brackets are found, but none of 64. */
    for (size_t open = 63; open <= 64; open++) {
        for (size_t k = 0; k < 2 * open; k++) text_characters[k] = k < open ? '(' : ')';
        OK(hordguli_reasons(&tables, 0, text_characters, 2 * open, 130, found));
        for (size_t k = 0; k < 2 * open; k++) {
            HOLDS(found[k].bracket_case == (open == 63 ? D_ : HORDGULI_BRACKET_CASE_PAST_LIMIT));
            HOLDS(found[k].partner == (open == 63 ? 125 - k : NP));
        }
    }
    OK(hordguli_reasons(&tables, 0, separators, 2, 130, found));
    HOLDS(found[1].class_after[0] == HORDGULI_BIDI_CLASS_B);
    OK(hordguli_reasons(&tables, HORDGULI_LINE_SEPARATORS, separators, 2, 130, found));
    HOLDS(found[1].class_after[0] == HORDGULI_BIDI_CLASS_S);

    found[0].opener = 77;
    IS(hordguli_reasons(NULL, 0, characters, 4, 4, found), NULL);
    IS(hordguli_reasons(&tables, 0, NULL, 4, 4, found), NULL);
    IS(hordguli_reasons(&tables, 0, characters, 4, 4, NULL), NULL);
    IS(hordguli_reasons(&tables, 0, text_characters, 4, 1, (hordguli_reason *)text_characters), OVERLAP);
    IS(hordguli_reasons(&tables, 0, characters, 4, 1, (hordguli_reason *)&tables), OVERLAP);
    IS(hordguli_reasons(&tables, 0, characters, SIZE_MAX / 2, 4, found), OVERLAP);
    IS(hordguli_reasons(&tables, HORDGULI_WHOLE_NUMBERS, characters, 4, 4, found), UNKNOWN_OPTION);
    IS(hordguli_reasons(&tables, HORDGULI_LTR | HORDGULI_RTL, characters, 4, 4, found), UNKNOWN_OPTION);
    IS(hordguli_reasons(&no_tables, 0, characters, 4, 4, found), CLOSED);
    IS(hordguli_reasons(&tables, 0, characters, 4, 3, found), NO_ROOM);
    IS(hordguli_reasons(&tables, 0, characters, 4, 0, NULL), NO_ROOM);
    IS(hordguli_reasons(&tables, 0, no_character, 2, 4, found), NOT_A_CHARACTER);
    IS(hordguli_reasons(&tables, 0, far_away(1), UINT32_MAX, UINT32_MAX, far_away(2)), OUT_OF_RANGE);
    HOLDS(found[0].opener == 77);
    OK(hordguli_reasons(&tables, 0, NULL, 0, 0, NULL));
}

/* A text, options, and the reason for the break mark after the character at `at`: base, behind_spaces, rule, letter,
 * class_before, class_after, mark. */
#define CLASS(c) HORDGULI_LINE_CLASS_##c
static const struct {
    uint32_t version;
    const char *text;
    uint32_t options;
    size_t at;
    hordguli_break_reason wanted;
} break_reason_rows[] = {
    {15, "a\u0301  (", 0, 0, {0, 0, 9, 0, CLASS(AL), CLASS(CM), HORDGULI_BREAK_NEVER}},
    {15, "a\u0301  (", 0, 1, {0, 0, 7, 0, CLASS(AL), CLASS(SP), HORDGULI_BREAK_NEVER}},
    {15, "a\u0301  (", 0, 2, {2, 0, 7, 0, CLASS(SP), CLASS(SP), HORDGULI_BREAK_NEVER}},
    {15, "a\u0301  (", 0, 3, {3, 0, 18, 0, CLASS(SP), CLASS(OP), HORDGULI_BREAK_MAY}},
    {15, "a\u0301  (", 0, 4, {4, 4, 3, 0, CLASS(OP), 0xFF, HORDGULI_BREAK_MUST}},
    {15, " ", 0, 0, {0, NP, 3, 0, CLASS(SP), 0xFF, HORDGULI_BREAK_MUST}},
    {15, "a(", 0, 0, {0, 0, 30, 0, CLASS(AL), CLASS(OP), HORDGULI_BREAK_NEVER}},
    {15, "( a", 0, 1, {1, 0, 14, 0, CLASS(SP), CLASS(AL), HORDGULI_BREAK_NEVER}},
    {15, "\u200da", 0, 0, {0, 0, 8, 'a', CLASS(AL), CLASS(AL), HORDGULI_BREAK_NEVER}},
    {15, "a\u200d\u0301b", 0, 0, {0, 0, 9, 0, CLASS(AL), CLASS(ZWJ), HORDGULI_BREAK_NEVER}},
    {15, "a\u200d\u0301b", 0, 1, {0, 0, 8, 'a', CLASS(AL), CLASS(CM), HORDGULI_BREAK_NEVER}},
    {15, "a\u200d\u0301b", 0, 2, {0, 0, 28, 0, CLASS(AL), CLASS(AL), HORDGULI_BREAK_NEVER}},
    {15, "\u4e00\u4e00", 0, 0, {0, 0, 31, 0, CLASS(ID), CLASS(ID), HORDGULI_BREAK_MAY}},
    {15, "\u3041a", 0, 0, {0, 0, 31, 0, CLASS(NS), CLASS(AL), HORDGULI_BREAK_MAY}}, /* (LB1: CJ is NS) */
    {15, "\u261d\U0001f3fb", 0, 0, {0, 0, 30, 'b', CLASS(EB), CLASS(EM), HORDGULI_BREAK_NEVER}},
    {15, "1/%", 0, 1, {1, 1, 31, 0, CLASS(SY), CLASS(PO), HORDGULI_BREAK_MAY}},
    {15, "1/%", HORDGULI_WHOLE_NUMBERS, 1, {1, 1, 25, 0, CLASS(SY), CLASS(PO), HORDGULI_BREAK_NEVER}},
    {17, "1/%", 0, 1, {1, 1, 25, 0, CLASS(SY), CLASS(PO), HORDGULI_BREAK_NEVER}},
    {15, "\u00aba", 0, 0, {0, 0, 19, 0, CLASS(QU), CLASS(AL), HORDGULI_BREAK_NEVER}},
    {17, "\u00aba", 0, 0, {0, 0, 15, 'a', CLASS(QU), CLASS(AL), HORDGULI_BREAK_NEVER}},
    {15, "'(", 0, 0, {0, 0, 15, 0, CLASS(QU), CLASS(OP), HORDGULI_BREAK_NEVER}},
    {15, " \u00bb", 0, 0, {0, NP, 18, 0, CLASS(SP), CLASS(QU), HORDGULI_BREAK_MAY}},
    {17, " \u00bb", 0, 0, {0, NP, 15, 'b', CLASS(SP), CLASS(QU), HORDGULI_BREAK_NEVER}},
    {17, " .5", 0, 0, {0, NP, 15, 'c', CLASS(SP), CLASS(IS), HORDGULI_BREAK_MAY}},
    {15, "a.", 0, 0, {0, 0, 13, 0, CLASS(AL), CLASS(IS), HORDGULI_BREAK_NEVER}},
    {17, "a.", 0, 0, {0, 0, 15, 'd', CLASS(AL), CLASS(IS), HORDGULI_BREAK_NEVER}},
};

static void break_reasons(void) {
    static const uint32_t characters[] = {'a', '(', 0x5D0, ')'}, no_character[] = {'a', 0x110000};
    enum { WITHOUT_PADDING = offsetof(hordguli_break_reason, mark) + 1 };
    hordguli_tables of_17 = HORDGULI_TABLES_INIT;
    hordguli_break_reason found[8];
    uint32_t text_characters[8];
    OK(hordguli_tables_open_builtin_version(&of_17, HORDGULI_UNICODE_17_0));
    for (size_t k = 0; k < sizeof break_reason_rows / sizeof *break_reason_rows; k++) {
        size_t count = decoded(break_reason_rows[k].text, text_characters);
        hordguli_tables *chosen = break_reason_rows[k].version == 17 ? &of_17 : &tables;
        memset(found, 77, sizeof found);
        OK(hordguli_break_reasons(chosen, break_reason_rows[k].options, text_characters, count, 8, found));
        if (!HOLDS(memcmp(&found[break_reason_rows[k].at], &break_reason_rows[k].wanted, WITHOUT_PADDING) == 0))
            fprintf(stderr, "calls.c: row %zu of the reasons of breaks\n", k);
        HOLDS(found[count].base == 0x4D4D4D4D && found[count].mark == 77);
    }
    hordguli_tables_close(&of_17);

    found[0].base = 77;
    IS(hordguli_break_reasons(NULL, 0, characters, 4, 4, found), NULL);
    IS(hordguli_break_reasons(&tables, 0, NULL, 4, 4, found), NULL);
    IS(hordguli_break_reasons(&tables, 0, characters, 4, 4, NULL), NULL);
    IS(hordguli_break_reasons(&tables, 0, text_characters, 4, 1, (hordguli_break_reason *)text_characters), OVERLAP);
    IS(hordguli_break_reasons(&tables, 0, characters, 4, 1, (hordguli_break_reason *)&tables), OVERLAP);
    IS(hordguli_break_reasons(&tables, 0, characters, SIZE_MAX / 2, 4, found), OVERLAP);
    IS(hordguli_break_reasons(&tables, HORDGULI_LTR, characters, 4, 4, found), UNKNOWN_OPTION);
    IS(hordguli_break_reasons(&no_tables, 0, characters, 4, 4, found), CLOSED);
    IS(hordguli_break_reasons(&tables, 0, characters, 4, 3, found), NO_ROOM);
    IS(hordguli_break_reasons(&tables, 0, characters, 4, 0, NULL), NO_ROOM);
    IS(hordguli_break_reasons(&tables, 0, no_character, 2, 4, found), NOT_A_CHARACTER);
    IS(hordguli_break_reasons(&tables, 0, far_away(1), UINT32_MAX, UINT32_MAX, far_away(2)), OUT_OF_RANGE);
    HOLDS(found[0].base == 77);
    OK(hordguli_break_reasons(&tables, 0, NULL, 0, 0, NULL));
}

static void properties(void) {
    static const uint32_t characters[] = {'a', '(', ')', '<', 0x5D0, 0x5B8, 0x4E00, 0x3008, '\t', 0x378};
    static const hordguli_character wanted[] = {
        {0, 0, 0, HORDGULI_BIDI_CLASS_L, HORDGULI_LINE_CLASS_AL, 1, HORDGULI_BRACKET_NONE},
        {')', ')', 0, HORDGULI_BIDI_CLASS_ON, HORDGULI_LINE_CLASS_OP, 1, HORDGULI_BRACKET_OPEN},
        {'(', '(', 0, HORDGULI_BIDI_CLASS_ON, HORDGULI_LINE_CLASS_CP, 1, HORDGULI_BRACKET_CLOSE},
        {'>', 0, 0, HORDGULI_BIDI_CLASS_ON, HORDGULI_LINE_CLASS_AL, 1, HORDGULI_BRACKET_NONE},
        {0, 0, 0, HORDGULI_BIDI_CLASS_R, HORDGULI_LINE_CLASS_HL, 1, HORDGULI_BRACKET_NONE},
        {0, 0, HORDGULI_MARK, HORDGULI_BIDI_CLASS_NSM, HORDGULI_LINE_CLASS_CM, 0, HORDGULI_BRACKET_NONE},
        {0, 0, HORDGULI_WIDE, HORDGULI_BIDI_CLASS_L, HORDGULI_LINE_CLASS_ID, 2, HORDGULI_BRACKET_NONE},
        {0x3009, 0x3009, HORDGULI_WIDE, HORDGULI_BIDI_CLASS_ON, HORDGULI_LINE_CLASS_OP, 2, HORDGULI_BRACKET_OPEN},
        {0, 0, 0, HORDGULI_BIDI_CLASS_S, HORDGULI_LINE_CLASS_BA, 0, HORDGULI_BRACKET_NONE},
        {0, 0, 0, HORDGULI_BIDI_CLASS_L, HORDGULI_LINE_CLASS_XX, 1, HORDGULI_BRACKET_NONE},
    };
    hordguli_character records[11];
    uint32_t both[8] = {'a', 'b'};
    static const uint32_t no_character[] = {'a', 0xDFFF};
    memset(records, 7, sizeof records);
    IS(hordguli_properties(NULL, 10, characters, records), NULL);
    IS(hordguli_properties(&tables, 10, NULL, records), NULL);
    IS(hordguli_properties(&tables, 10, characters, NULL), NULL);
    IS(hordguli_properties(&tables, 2, both, (hordguli_character *)both), OVERLAP);
    IS(hordguli_properties(&tables, 1, characters, (hordguli_character *)&tables), OVERLAP);
    IS(hordguli_properties(&tables, SIZE_MAX / 2, characters, records), OVERLAP);
    IS(hordguli_properties(&no_tables, 10, characters, records), CLOSED);
    IS(hordguli_properties(&tables, 2, no_character, records), NOT_A_CHARACTER);
    HOLDS(records[0].mirror == 0x07070707 && records[0].columns == 7);
    OK(hordguli_properties(&tables, 10, characters, records));
    HOLDS(memcmp(records, wanted, sizeof wanted) == 0 && records[10].flags == 0x07070707);
    OK(hordguli_properties(&tables, 0, NULL, NULL));
}

/* Characters that Unicode 18.0 adds, a wide emoji and a nonspacing mark, have their widths even with tables
 * of 17.0. */
static void widths_are_of_their_version(void) {
    static const uint32_t characters[] = {0x1FACC, 0x5C8};
    hordguli_tables newest = HORDGULI_TABLES_INIT;
    hordguli_character records[2];
    HOLDS(strcmp(hordguli_width_unicode_version(), "18.0") == 0);
    OK(hordguli_tables_open_builtin_version(&newest, HORDGULI_UNICODE_17_0));
    OK(hordguli_properties(&newest, 2, characters, records));
    HOLDS(records[0].columns == 2 && records[0].flags == 0);
    HOLDS(records[1].columns == 0 && records[1].flags == 0);
    hordguli_tables_close(&newest);
}

/* Arguments for `hordguli_row`, and what it must store. Levels and positions are digits. */
typedef struct row {
    const char *name;
    uint32_t base, options;
    const char *levels, *row_levels, *ltov, *vtol;
    uint32_t characters[8], visual[8];
} row;

/* Returns whether digit k equals `number`. */
static int is_digit(const char *digits, size_t k, size_t number) { return (size_t)(digits[k] - '0') == number; }

static void is_row(const row *r) {
    size_t count = strlen(r->levels);
    uint8_t levels[8], row_levels[8];
    uint32_t visual[8], ltov[8], vtol[8];
    for (size_t k = 0; k < count; k++) levels[k] = (uint8_t)(r->levels[k] - '0');
    OK(hordguli_row(&tables, r->options, r->base, count, r->characters, levels, count, visual, row_levels, ltov, vtol));
    for (size_t k = 0; k < count; k++)
        holds(visual[k] == r->visual[k] && is_digit(r->row_levels, k, row_levels[k]) && is_digit(r->ltov, k, ltov[k])
                  && is_digit(r->vtol, k, vtol[k]),
              __FILE__, __LINE__, r->name);
}

static void rows(void) {
    static const row all[] = {
        {"all of a right-to-left paragraph", 1, 0, "11122", "11122", "43201", "34210", {0x5D0, 0x5D1, ' ', 'a', 'b'},
         {'a', 'b', ' ', 0x5D1, 0x5D0}},
        {"a space at the end of a row", 0, 0, "0011", "0010", "0123", "0123", {'a', ' ', 0x5D0, ' '},
         {'a', ' ', 0x5D0, ' '}},
        {"the same space inside a row", 0, 0, "00111", "00111", "01432", "01432", {'a', ' ', 0x5D0, ' ', 0x5D1},
         {'a', ' ', 0x5D1, ' ', 0x5D0}},
        {"spaces before a tab", 0, 0, "1111", "1001", "0123", "0123", {0x5D0, ' ', '\t', 0x5D1},
         {0x5D0, ' ', '\t', 0x5D1}},
        {"spaces alone", 0, 0, "11", "00", "01", "01", {' ', ' '}, {' ', ' '}},
        {"brackets at an odd level of a left-to-right paragraph", 0, 0, "001111", "001111", "015432", "015432",
         {'a', ' ', 0x5D0, '(', 0x5D1, ')'}, {'a', ' ', '(', 0x5D1, ')', 0x5D0}},
        {"brackets at an even level of a right-to-left paragraph", 1, 0, "1222", "1222", "3012", "1230",
         {0x5D0, '(', 'a', ')'}, {'(', 'a', ')', 0x5D0}},
        {"a row that starts with an isolate initiator", 0, 0, "012", "012", "021", "021", {0x2067, 0x5D0, 'b'},
         {0x2067, 'b', 0x5D0}},
        {"a row that ends with an isolate initiator", 0, 0, "111", "100", "012", "012", {0x5D0, ' ', 0x2068},
         {0x5D0, ' ', 0x2068}},
        {"the end of an isolate", 0, 0, "100", "100", "012", "012", {0x5D1, 0x2069, 'c'}, {0x5D1, 0x2069, 'c'}},
        {"a row inside an embedding", 0, 0, "322", "322", "012", "012", {0x5D1, 'c', 'd'}, {0x5D1, 'c', 'd'}},
        {"a row that starts inside a run of spaces", 0, 0, "11", "11", "10", "10", {' ', 0x5D1}, {0x5D1, ' '}},
        {"a row that ends inside a cluster", 0, 0, "11", "10", "01", "01", {0x5D0, 0x200D}, {0x5D0, 0x200D}},
        {"a row that starts inside a cluster", 1, 0, "111", "111", "210", "210", {0x200D, 0x5D0, 0x5D1},
         {0x5D1, 0x5D0, 0x200D}},
        {"a mark by default", 1, 0, "111", "111", "210", "210", {0x5D0, 0x5B8, 0x5D1}, {0x5D1, 0x5B8, 0x5D0}},
        {"a mark with L3", 1, HORDGULI_REORDER_NSM, "111", "111", "120", "201", {0x5D0, 0x5B8, 0x5D1},
         {0x5D1, 0x5D0, 0x5B8}},
        {"a mark whose base is in the row before", 1, HORDGULI_REORDER_NSM, "11", "11", "10", "10", {0x5B8, 0x5D1},
         {0x5D1, 0x5B8}},
        {"a family in an override by default", 0, 0, "0111", "0111", "0321", "0321", {0x202E, 0x1F468, 0x200D, 0x1F469},
         {0x202E, 0x1F469, 0x200D, 0x1F468}},
        {"a family in an override", 0, HORDGULI_REORDER_CLUSTERS, "0111", "0111", "0123", "0123",
         {0x202E, 0x1F468, 0x200D, 0x1F469}, {0x202E, 0x1F468, 0x200D, 0x1F469}},
        {"a letter with points", 1, HORDGULI_REORDER_CLUSTERS, "1111", "1111", "1230", "3012",
         {0x5D0, 0x5B8, 0x5BC, 0x5D1}, {0x5D1, 0x5D0, 0x5B8, 0x5BC}},
        {"a letter with points with both options", 1, HORDGULI_REORDER_CLUSTERS | HORDGULI_REORDER_NSM, "1111", "1111",
         "1230", "3012", {0x5D0, 0x5B8, 0x5BC, 0x5D1}, {0x5D1, 0x5D0, 0x5B8, 0x5BC}},
        {"a skin tone", 1, HORDGULI_REORDER_CLUSTERS, "111", "111", "120", "201", {0x1F44D, 0x1F3FD, 0x5D0},
         {0x5D0, 0x1F44D, 0x1F3FD}},
        {"a flag and half a flag", 1, HORDGULI_REORDER_CLUSTERS, "111", "111", "120", "201",
         {0x1F1E9, 0x1F1EA, 0x1F1E9}, {0x1F1E9, 0x1F1E9, 0x1F1EA}},
        {"a cluster of two levels", 1, HORDGULI_REORDER_CLUSTERS, "211", "211", "201", "120", {0x600, 0x627, 0x64B},
         {0x627, 0x64B, 0x600}},
        {"a cluster of two odd levels", 1, HORDGULI_REORDER_CLUSTERS, "133", "133", "201", "120",
         {0x1F468, 0x200D, 0x1F469}, {0x200D, 0x1F469, 0x1F468}},
        {"a cluster at an even level", 1, HORDGULI_REORDER_CLUSTERS, "122", "122", "201", "120", {0x5D0, 'a', 0x301},
         {'a', 0x301, 0x5D0}},
        {"a cluster that starts in the row before", 1, HORDGULI_REORDER_CLUSTERS, "11", "11", "10", "10", {0x5B8, 0x5D1},
         {0x5D1, 0x5B8}},
        {"a carriage return and a line feed", 1, HORDGULI_REORDER_CLUSTERS, "111", "111", "201", "120", {'a', '\r', '\n'},
         {'\r', '\n', 'a'}},
        {"a mark after a control", 1, HORDGULI_REORDER_CLUSTERS, "111", "111", "210", "210", {0x200F, 0x5B8, 0x5D1},
         {0x5D1, 0x5B8, 0x200F}},
    };
    static const uint32_t characters[] = {'a', 0x5D0, ' '}, no_character[] = {'a', 0xD800, ' '};
    static const uint8_t levels[] = {0, 1, 1}, too_high[] = {0, 127, 1};
    uint32_t visual[4] = {7, 7, 7, 7}, vtol[4] = {7, 7, 7, 7}, both[4] = {'a', 'b', 'c', 'd'};
    hordguli_run runs[4] = {{7, 7, 7, 7}, {7, 7, 7, 7}, {7, 7, 7, 7}, {7, 7, 7, 7}};
    size_t count = 77;
    for (size_t k = 0; k < sizeof all / sizeof *all; k++) is_row(&all[k]);
    IS(hordguli_row(NULL, 0, 0, 3, characters, levels, 4, visual, NULL, NULL, NULL), NULL);
    IS(hordguli_row(&tables, 0, 0, 3, NULL, levels, 4, visual, NULL, NULL, NULL), NULL);
    IS(hordguli_row(&tables, 0, 0, 3, characters, NULL, 4, visual, NULL, NULL, NULL), NULL);
    IS(hordguli_row(&tables, 0, 0, 3, both, levels, 4, both, NULL, NULL, NULL), OVERLAP);
    IS(hordguli_row(&tables, 0, 0, 3, characters, (uint8_t *)both, 4, NULL, NULL, NULL, both), OVERLAP);
    IS(hordguli_row(&tables, 0, 0, 3, characters, levels, 4, visual, NULL, visual + 3, NULL), OVERLAP);
    for (uint32_t bit = 0; bit < 32; bit += bit == 2 || bit == 4 || bit == 25 ? 2 : 1) /* all but those of rows */
        IS(hordguli_row(&tables, UINT32_C(1) << bit, 0, 3, characters, levels, 4, visual, NULL, NULL, NULL),
           UNKNOWN_OPTION);
    IS(hordguli_row(&no_tables, 0, 0, 3, characters, levels, 4, visual, NULL, NULL, NULL), CLOSED);
    IS(hordguli_row(&tables, 0, 0, 3, characters, levels, 2, visual, NULL, NULL, NULL), NO_ROOM);
    IS(hordguli_row(&tables, 0, 0, 3, no_character, levels, 4, visual, NULL, NULL, NULL), NOT_A_CHARACTER);
    IS(hordguli_row(&tables, 0, 2, 3, characters, levels, 4, visual, NULL, NULL, NULL), OUT_OF_RANGE);
    IS(hordguli_row(&tables, 0, 0, 3, characters, too_high, 4, visual, NULL, NULL, NULL), OUT_OF_RANGE);
    HOLDS(visual[0] == 7);
    OK(hordguli_row(&tables, 0, 0, 3, characters, levels, 3, visual, NULL, NULL, NULL)); /* exactly large enough */
    HOLDS(visual[0] == 'a' && visual[1] == 0x5D0 && visual[2] == ' ' && visual[3] == 7);
    OK(hordguli_row(&tables, 0, 1, 3, characters, levels, 4, NULL, NULL, NULL, vtol));
    HOLDS(vtol[0] == 0 && vtol[1] == 2 && vtol[2] == 1 && vtol[3] == 7);
    OK(hordguli_row(&tables, 0, 0, 3, characters, levels, 0, NULL, NULL, NULL, NULL));
    OK(hordguli_row(&tables, 0, 0, 3, (const uint32_t *)both, (const uint8_t *)both, 4, visual, NULL, NULL, NULL));
    OK(hordguli_row(&tables, 0, 0, 0, NULL, NULL, 0, NULL, NULL, NULL, NULL));

    IS(hordguli_row_runs(NULL, 0, 3, characters, levels, 4, runs, &count), NULL);
    IS(hordguli_row_runs(&tables, 0, 3, NULL, levels, 4, runs, &count), NULL);
    IS(hordguli_row_runs(&tables, 0, 3, characters, NULL, 4, runs, &count), NULL);
    IS(hordguli_row_runs(&tables, 0, 3, characters, levels, 4, NULL, &count), NULL);
    IS(hordguli_row_runs(&tables, 0, 3, characters, levels, 4, runs, NULL), NULL);
    IS(hordguli_row_runs(&tables, 0, 3, characters, levels, 4, runs, (size_t *)runs), OVERLAP);
    IS(hordguli_row_runs(&no_tables, 0, 3, characters, levels, 4, runs, &count), CLOSED);
    IS(hordguli_row_runs(&tables, 0, 3, no_character, levels, 4, runs, &count), NOT_A_CHARACTER);
    IS(hordguli_row_runs(&tables, 2, 3, characters, levels, 4, runs, &count), OUT_OF_RANGE);
    IS(hordguli_row_runs(&tables, 0, 3, characters, too_high, 4, runs, &count), OUT_OF_RANGE);
    HOLDS(count == 77 && runs[0].start == 7);
    IS(hordguli_row_runs(&tables, 0, 3, characters, levels, 2, runs, &count), NO_ROOM);
    HOLDS(count == 3 && runs[0].start == 7);
    OK(hordguli_row_runs(&tables, 0, 3, characters, levels, 3, runs, &count)); /* the space at the end is at level 0 */
    HOLDS(count == 3 && runs[0].start == 0 && runs[0].length == 1 && runs[0].level == 0 && runs[0].zero == 0);
    HOLDS(runs[1].start == 1 && runs[1].length == 1 && runs[1].level == 1 && runs[2].start == 2 && runs[2].level == 0);
    HOLDS(runs[3].start == 7);
    OK(hordguli_row_runs(&tables, 1, 3, characters, levels, 3, runs, &count)); /* and here at level 1 */
    HOLDS(count == 2 && runs[0].start == 0 && runs[1].start == 1 && runs[1].length == 2 && runs[1].level == 1);
    OK(hordguli_row_runs(&tables, 0, 0, NULL, NULL, 0, NULL, &count));
    HOLDS(count == 0);
}

/* After a final separator, the end of the text is on a line that does not exist yet. */
static void end_of_text(void) {
    hordguli_damage damage;
    hordguli_caret caret;
    hordguli_place place;
    OK(hordguli_insert(&session, 18, "\n", 1, &damage));
    OK(hordguli_place_of(&session, 19, &place));
    HOLDS(place.paragraph == 3 && place.line == 3 && place.offset == 0);
    OK(hordguli_caret_at(&session, 19, &caret));
    HOLDS(caret.line == 3 && caret.column == 0);
    OK(hordguli_delete(&session, 0, 19, &damage));
    damaged(&damage, 0, 3, 0, 0, 3, 0);
    counted(0, 0, 0, 80);
    OK(hordguli_insert(&session, 0, text, sizeof text - 1, &damage));
    damaged(&damage, 0, 0, 3, 0, 0, 3);
}

/* U+2028, U+000B and U+000C end a line, but not its paragraph. The next line exists once it has a character. */
static void caret_stays_after_a_final_line_separator(void) {
    static const char *const texts[] = {"ab\u2028", "ab\v", "ab\f", "\u05d0\u05d1\u2028"};
    for (size_t k = 0; k < sizeof texts / sizeof *texts; k++) {
        size_t end = k < 3 ? 2 : 0; /* the column of the end of the line */
        hordguli_session ended = HORDGULI_SESSION_INIT;
        hordguli_counts found;
        hordguli_place place;
        hordguli_caret caret;
        hordguli_edge edge, first, last;
        OK(hordguli_session_open(&ended, &tables, 0, 80, texts[k], strlen(texts[k])));
        OK(hordguli_session_counts(&ended, &found));
        HOLDS(found.characters == 3 && found.lines == 1 && found.paragraphs == 1);
        OK(hordguli_place_of(&ended, 3, &place));
        HOLDS(place.paragraph == 0 && place.line == 0 && place.offset == 3);
        OK(hordguli_caret_at(&ended, 3, &caret));
        HOLDS(caret.line == 0 && caret.column == end);
        for (uint32_t side = HORDGULI_BEFORE; side <= HORDGULI_AFTER; side++) {
            OK(hordguli_edge_caret(&ended, (hordguli_edge){3, side, 0}, &caret));
            HOLDS(caret.line == 0 && caret.column == end);
        }
        OK(hordguli_line_edges(&ended, 0, &first, &last));
        HOLDS(last.pos == 2 && last.side == HORDGULI_BEFORE);
        IS(hordguli_edge_at(&ended, 1, 0, &edge), OUT_OF_RANGE);
        OK(hordguli_insert(&ended, 3, "c", 1, NULL));
        OK(hordguli_edge_caret(&ended, (hordguli_edge){3, HORDGULI_BEFORE, 0}, &caret));
        HOLDS(caret.line == 1 && caret.column == 0);
        hordguli_session_close(&ended);
    }
}

/* A function with a single array fails with NO_ROOM if the array is NULL, and stores the required size. */
static void null_array_is_too_small(void) {
    static const uint32_t characters[] = {'a', 0x5D0};
    static const uint8_t levels[] = {0, 1};
    size_t size = 77;
#define SIZE_IS(call, wanted) IS(call, NO_ROOM), HOLDS(size == (wanted)), size = 77
    SIZE_IS(hordguli_layout(&tables, 0, 80, HORDGULI_PRINT_VISUAL, "ab", 2, 0, NULL, &size), 3);
    SIZE_IS(hordguli_lines_utf8(&session, 0, 1, HORDGULI_PRINT_VISUAL, 0, NULL, &size), 11);
    SIZE_IS(hordguli_text(&session, 0, 5, 0, NULL, &size), 6);
    SIZE_IS(hordguli_text_utf32(&session, 0, 5, 0, NULL, &size), 5);
    SIZE_IS(hordguli_runs(&session, 0, 0, NULL, &size), 2);
    SIZE_IS(hordguli_spans(&session, 0, 3, 5, 0, NULL, &size), 2);
    SIZE_IS(hordguli_line_clusters(&session, 0, 0, NULL, &size), 8);
    SIZE_IS(hordguli_row_runs(&tables, 0, 2, characters, levels, 0, NULL, &size), 2);
    SIZE_IS(hordguli_clusters(2, characters, 0, NULL, &size), 2);
    SIZE_IS(hordguli_script_runs(&tables, 2, characters, 0, NULL, &size), 2);
#undef SIZE_IS
#define NOTHING(call) OK(call), HOLDS(size == 0), size = 77
    NOTHING(hordguli_layout(&tables, 0, 80, HORDGULI_PRINT_VISUAL, NULL, 0, 0, NULL, &size));
    NOTHING(hordguli_lines_utf8(&session, 0, 0, HORDGULI_PRINT_VISUAL, 0, NULL, &size));
    NOTHING(hordguli_text(&session, 3, 0, 0, NULL, &size));
    NOTHING(hordguli_text_utf32(&session, 3, 0, 0, NULL, &size));
    NOTHING(hordguli_spans(&session, 0, 3, 3, 0, NULL, &size));
    NOTHING(hordguli_row_runs(&tables, 0, 0, NULL, NULL, 0, NULL, &size));
    NOTHING(hordguli_clusters(0, NULL, 0, NULL, &size));
    NOTHING(hordguli_script_runs(&tables, 0, NULL, 0, NULL, &size));
#undef NOTHING
    IS(hordguli_levels(&tables, 0, characters, 2, 0, NULL), NO_ROOM);
    IS(hordguli_marks(&tables, 0, characters, 2, 0, NULL), NO_ROOM);
    IS(hordguli_reasons(&tables, 0, characters, 2, 0, NULL), NO_ROOM);
    IS(hordguli_break_reasons(&tables, 0, characters, 2, 0, NULL), NO_ROOM);
    OK(hordguli_levels(&tables, 0, NULL, 0, 0, NULL));
    OK(hordguli_marks(&tables, 0, NULL, 0, 0, NULL));
    OK(hordguli_reasons(&tables, 0, NULL, 0, 0, NULL));
    OK(hordguli_break_reasons(&tables, 0, NULL, 0, 0, NULL));
}

/* A function with several arrays skips those that are NULL. If all are NULL, any capacity is enough. */
static void null_arrays_are_skipped(void) {
    static const uint32_t characters[] = {'a', 0x5D0};
    static const uint8_t levels[] = {0, 1};
    uint32_t small[1] = {77};
    uint8_t small_levels[1] = {77};
    size_t small_offsets[1] = {77}, count = 0;
    for (size_t capacity = 0; capacity < 9; capacity += 4) {
        hordguli_line_info info = {0};
        hordguli_paragraph_info paragraph = {0};
        OK(hordguli_line(&session, 0, &info, capacity, NULL, NULL, NULL, NULL, NULL));
        HOLDS(info.shown == 7 && info.length == 8);
        OK(hordguli_paragraph(&session, 0, &paragraph, capacity, NULL, NULL));
        HOLDS(paragraph.length == 8);
        OK(hordguli_row(&tables, 0, 0, 2, characters, levels, capacity, NULL, NULL, NULL, NULL));
        count = 77;
        OK(hordguli_decode("a\u05d0", 3, capacity, NULL, NULL, &count));
        HOLDS(count == 2);
    }
    for (int k = 0; k < 2; k++)
        IS(hordguli_decode("a\u05d0", 3, 1, k == 0 ? small : NULL, k == 1 ? small_offsets : NULL, &count), NO_ROOM);
    for (int k = 0; k < 4; k++)
        IS(hordguli_row(&tables, 0, 0, 2, characters, levels, 1, k == 0 ? small : NULL, k == 1 ? small_levels : NULL,
                        k == 2 ? small : NULL, k == 3 ? small : NULL),
           NO_ROOM);
    HOLDS(small[0] == 77 && small_levels[0] == 77 && small_offsets[0] == 77);
}

int main(int count, char **words) {
    if (count != 3) return 2;
    constants();
    opened_by_bytes();
    table_faults();
    opened_by_folder(words[1]);
    unread_file_sets_errno(words[1]);
    opened_by_images(words[1]);
    opened_by_version(words[1], words[2]);
    opened();
    counts();
    changed_lines();
    changed();
    changed_without_damage();
    opened_measured();
    measured();
    places();
    edge_statuses();
    edges_where_the_direction_changes();
    nearest_edges();
    edges_of_clusters();
    edges_of_lines();
    tab_stops();
    spaces_at_line_ends();
    lines();
    printed();
    laid_out_without_session();
    text_of_ranges();
    decoded_text();
    clusters_of_text();
    script_runs();
    characters_of_ranges();
    paragraphs();
    directions_are_one_or_refused();
    line_separators_alone_end_paragraphs();
    without_session();
    reasons();
    break_reasons();
    properties();
    widths_are_of_their_version();
    rows();
    null_array_is_too_small();
    null_arrays_are_skipped();
    end_of_text();
    caret_stays_after_a_final_line_separator();
    too_long();
    /* a session outlives the tables that it was opened on */
    hordguli_tables_close(&tables);
    places();
    counted(18, 3, 3, 80);
    hordguli_session_close(&session);
    HOLDS(session.at == NULL);
    return finish("calls");
}
