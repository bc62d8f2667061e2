/* Prints the properties of each code point: its bracket, its mirror, its type unless that is LTR, and its joining
 * type unless that is U. Fails
 * if the function for one character and the function for a string disagree. Usage: properties LIBRARY. */
#include "both.h"

int main(int argc, char **argv) {
    static FriBidiChar string[0x110000];
    static FriBidiCharType types[0x110000];
    static FriBidiBracketType brackets[0x110000];
    static FriBidiJoiningType joining[0x110000];
    if (argc < 2) return 2;
    calls of = calls_of(argv[1]);
    for (FriBidiChar c = 0; c < 0x110000; c++) string[c] = c;
    of.get_bidi_types(string, 0x110000, types);
    of.get_bracket_types(string, 0x110000, types, brackets);
    of.get_joining_types(string, 0x110000, joining);
    for (FriBidiChar c = 0; c < 0x110000; c++) {
        FriBidiChar mirror = 0;
        FriBidiBracketType bracket = of.get_bracket(c);
        if (types[c] != of.get_bidi_type(c) || brackets[c] != (types[c] == FRIBIDI_TYPE_ON ? bracket : 0)) return 1;
        if (types[c] != FRIBIDI_TYPE_LTR) printf("%x class %s\n", (unsigned)c, of.get_bidi_type_name(types[c]));
        if (bracket != 0) printf("%x bracket %x\n", (unsigned)c, (unsigned)bracket);
        if (of.get_mirror_char(c, &mirror)) printf("%x mirror %x\n", (unsigned)c, (unsigned)mirror);
        else if (mirror != c) return 1;
        if (joining[c] != of.get_joining_type(c)) return 1;
        if (joining[c] != FRIBIDI_JOINING_TYPE_U) printf("%x joining %x\n", (unsigned)c, joining[c]);
    }
    return 0;
}
