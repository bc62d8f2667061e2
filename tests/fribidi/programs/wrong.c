/* Sets all levels to 0, which is wrong. If a program's output stays the same when this library is preloaded,
 * the program does not call the preloaded function. */
int fribidi_get_par_embedding_levels_ex(const unsigned *, const unsigned *, int, unsigned *, signed char *);
int fribidi_get_par_embedding_levels_ex(const unsigned *types, const unsigned *brackets, int length, unsigned *base, signed char *levels) {
    (void)types, (void)brackets;
    for (int k = 0; k < length; k++) levels[k] = 0;
    *base = 0x110;
    return 1;
}
