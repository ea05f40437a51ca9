/* Tries the calls of wrewrite.h over the modules that the words name, and prints a line for each case, and 'N passed, M failed'.
 *
 *     rewrite VERSION MODULE REWRITTEN MAP STRIPPED BARE FUNCTION SNIPPED
 *
 * VERSION is that of the program wrewrite. REWRITTEN is what the program writes of MODULE, MAP its location map, STRIPPED what it writes
 * with --strip-debug, BARE what it writes with --strip, and SNIPPED what wsnip writes of MODULE and FUNCTION, an index.
 */
#include "wrewrite.h"

#include <stdbool.h>
#include <stdio.h>

static int passed, failed;

static void check(bool holds, const char *what) {
    printf("%s: %s\n", holds ? "passed" : "FAILED", what);
    *(holds ? &passed : &failed) += 1;
}

/* Bytes that are allocated with exactly their size, so that a sanitizer sees what goes past their end. */
struct bytes {
    uint8_t *at;
    size_t size;
};

static struct bytes room(size_t size) {
    struct bytes made = {malloc(size + (size == 0)), size};
    if (!made.at) exit(2);
    memset(made.at, 0xee, size + (size == 0));
    return made;
}

static struct bytes copy(const void *from, size_t size) {
    struct bytes made = room(size);
    memcpy(made.at, from, size);
    return made;
}

static struct bytes read_file(const char *path) {
    FILE *file = fopen(path, "rb");
    if (!file || fseek(file, 0, SEEK_END)) exit(2);
    struct bytes made = room((size_t)ftell(file));
    rewind(file);
    if (fread(made.at, 1, made.size, file) != made.size) exit(2);
    fclose(file);
    return made;
}

static bool is_untouched(struct bytes room, size_t from) {
    for (size_t i = from; i < room.size; i++)
        if (room.at[i] != 0xee) return false;
    return true;
}

static bool begins(struct bytes room, struct bytes want) {
    return room.size >= want.size && memcmp(room.at, want.at, want.size) == 0 && is_untouched(room, want.size);
}

/* The options that `which` names: m(ap), d(ebug information is stripped), a(ll custom sections are). */
static struct wrewrite_options options_of(const char *which) {
    struct wrewrite_options options = WREWRITE_OPTIONS;
    options.has_map = strchr(which, 'm') != NULL;
    options.strips_debug = strchr(which, 'd') != NULL;
    options.strips_all = strchr(which, 'a') != NULL;
    return options;
}

static void check_version(const char *version) {
    char number[40];
    snprintf(number, sizeof number, "%d.%d.%d", WREWRITE_VERSION_MAJOR, WREWRITE_VERSION_MINOR, WREWRITE_VERSION_PATCH);
    check(strcmp(WREWRITE_VERSION, version) == 0 && strcmp(number, version) == 0, "the header has the version of the programs");
    check(wrewrite_version() == WREWRITE_VERSION_NUMBER, "the library has the version of the header");
}

/* A module that is put into exactly as many bytes as it takes, into more, and into fewer. */
static void check_rewrite(const char *what, struct bytes source, struct bytes want, struct bytes want_map, const char *which,
                          uint32_t warnings) {
    char line[200];
    struct wrewrite_options options = options_of(which);
    for (int more = -1; more <= 1; more++) {
        size_t size = more < 0 ? want.size - 1 : want.size + 40 * (size_t)more;
        struct bytes out = room(size), map = room(options.has_map ? want_map.size : 3);
        struct wrewrite_outcome end = wrewrite_rewrite(source.at, source.size, &options, out.at, out.size, map.at, map.size);
        bool sizes = end.module_size == want.size && end.map_size == (options.has_map ? want_map.size : 0) && end.text[0] == 0 &&
                     end.place == WREWRITE_NOWHERE && end.function == WREWRITE_NO_INDEX;
        bool is = more < 0 ? end.status == WREWRITE_TOO_SMALL && end.warnings == 0 && is_untouched(out, 0) && is_untouched(map, 0)
                           : end.status == WREWRITE_DONE && end.warnings == warnings && begins(out, want) &&
                                 (options.has_map ? begins(map, want_map) : is_untouched(map, 0));
        snprintf(line, sizeof line, "%s, into %s", what, more < 0 ? "a byte too few" : more ? "more bytes" : "as many bytes as it takes");
        check(sizes && is, line);
        free(out.at), free(map.at);
    }
}

static void check_map_too_small(struct bytes source, struct bytes want, struct bytes want_map) {
    struct bytes out = room(want.size), map = room(want_map.size - 1);
    struct wrewrite_options options = options_of("m");
    struct wrewrite_outcome end = wrewrite_rewrite(source.at, source.size, &options, out.at, out.size, map.at, map.size);
    check(end.status == WREWRITE_TOO_SMALL && end.module_size == want.size && end.map_size == want_map.size && is_untouched(out, 0) &&
              is_untouched(map, 0),
          "a map of a byte too many");
    free(out.at), free(map.at);
}

/* The options as a header has them that knows more or fewer of them. */
static struct wrewrite_outcome with_words(struct bytes source, const uint32_t *words, size_t count, struct bytes out) {
    uint8_t map[1];
    return wrewrite_raw_rewrite(source.at, source.size, words, count, out.at, out.size, map, 0);
}

static bool are_bad(struct bytes source, const uint32_t *words, size_t count, struct bytes out) {
    struct wrewrite_outcome end = with_words(source, words, count, out);
    return end.status == WREWRITE_BAD_OPTIONS && end.place == WREWRITE_NOWHERE && end.function == WREWRITE_NO_INDEX &&
           end.module_size == 0 && end.map_size == 0 && is_untouched(out, 0) &&
           strcmp(end.text, "the options have no size, or one is set that this library doesn't know (BadOptions)") == 0;
}

static bool are_good(struct bytes source, const uint32_t *words, size_t count, struct bytes want) {
    struct bytes out = room(want.size);
    struct wrewrite_outcome end = with_words(source, words, count, out);
    bool is = end.status == WREWRITE_DONE && end.module_size == want.size && begins(out, want);
    free(out.at);
    return is;
}

static void check_options(struct bytes source, struct bytes rewritten, struct bytes stripped) {
    struct bytes out = room(rewritten.size);
    uint32_t size[1] = {4}, strip[3] = {12, 0, 1}, more[6] = {24, 0, 7, 0, 0, 0}, first[6] = {24, 0, 0, 0, 1, 0}, last[6] = {24, 0, 0, 0, 0, 1};
    uint32_t none[4] = {0, 0, 0, 0}, odd[4] = {15, 0, 0, 0}, long_one[4] = {20, 0, 0, 0};
    check(are_good(source, size, 1, rewritten), "options that end after their size");
    check(are_good(source, strip, 3, stripped), "options of an earlier header");
    check(are_good(source, more, 6, stripped), "options of a later header, with none that the library doesn't know");
    check(are_bad(source, first, 6, out), "the first option that the library doesn't know");
    check(are_bad(source, last, 6, out), "the last option that the library doesn't know");
    check(are_bad(source, none, 4, out), "options whose size isn't set");
    check(are_bad(source, none, 0, out), "options without a size");
    check(are_bad(source, odd, 4, out), "options whose size is odd");
    check(are_bad(source, long_one, 4, out), "options whose size is another");
    struct wrewrite_options forgotten = {0, 0, 0, 0};
    check(wrewrite_rewrite(source.at, source.size, &forgotten, out.at, out.size, NULL, 0).status == WREWRITE_BAD_OPTIONS &&
              wrewrite_snip(source.at, source.size, NULL, 0, &forgotten, out.at, out.size, NULL, 0).status == WREWRITE_BAD_OPTIONS &&
              is_untouched(out, 0),
          "a struct whose size isn't set");
    struct wrewrite_outcome end = wrewrite_rewrite(source.at, source.size, NULL, out.at, out.size, NULL, 0);
    check(end.status == WREWRITE_DONE && begins(out, rewritten), "no options");
    free(out.at);
}

static void check_new(struct bytes source, struct bytes rewritten, struct bytes want_map, size_t function, struct bytes snipped) {
    struct wrewrite_options options = options_of("m");
    uint8_t *out, *map;
    struct wrewrite_outcome end = wrewrite_rewrite_new(source.at, source.size, NULL, &out, NULL);
    check(end.status == WREWRITE_DONE && end.module_size == rewritten.size && memcmp(out, rewritten.at, rewritten.size) == 0,
          "memory that is allocated");
    free(out);
    end = wrewrite_rewrite_new(source.at, source.size, &options, &out, &map);
    check(end.status == WREWRITE_DONE && end.module_size == rewritten.size && memcmp(out, rewritten.at, rewritten.size) == 0 &&
              end.map_size == want_map.size && memcmp(map, want_map.at, want_map.size) == 0,
          "memory that is allocated for a map too");
    free(out), free(map);
    end = wrewrite_snip_new(source.at, source.size, &function, 1, NULL, &out, &map);
    check(end.status == WREWRITE_DONE && end.module_size == snipped.size && memcmp(out, snipped.at, snipped.size) == 0 && map,
          "memory that is allocated where a function is snipped");
    free(out), free(map);
    end = wrewrite_rewrite_new(source.at, 9, NULL, &out, &map);
    check(end.status == WREWRITE_REFUSED && !out && !map, "a module that is refused, and no memory");
}

static void check_snip(struct bytes source, size_t function, struct bytes want) {
    struct bytes out = room(want.size);
    size_t twice[2] = {function, function}, none[1] = {1000000};
    struct wrewrite_outcome end = wrewrite_snip(source.at, source.size, twice, 2, NULL, out.at, out.size, NULL, 0);
    check(end.status == WREWRITE_DONE && end.module_size == want.size && begins(out, want), "a function that is snipped, named twice");
    memset(out.at, 0xee, out.size);
    end = wrewrite_snip(source.at, source.size, none, 1, NULL, out.at, out.size, NULL, 0);
    check(end.status == WREWRITE_NO_FUNCTION && end.function == none[0] && end.place == WREWRITE_NOWHERE && is_untouched(out, 0) &&
              strcmp(end.text, "no function with a body has this index (NoFunction)") == 0,
          "a function that isn't there");
    free(out.at);
}

static void check_snip_of_none(struct bytes source, struct bytes want) {
    struct bytes out = room(want.size);
    struct wrewrite_outcome end = wrewrite_snip(source.at, source.size, NULL, 0, NULL, out.at, out.size, NULL, 0);
    check(end.status == WREWRITE_DONE && begins(out, want), "no function is snipped");
    free(out.at);
}

/* An imported function m.f and three functions with bodies: the second, which the name section calls `loop`, is exported as `run`, and
 * the first and the third are both called `twin`; m.f is called `log`. */
static const char NAMED[] = "\0asm\1\0\0\0\1\4\1\140\0\0\2\7\1\1m\1f\0\0\3\4\3\0\0\0\7\7\1\3run\0\2\12\12\3\2\0\13\2\0\13\2\0\13"
                            "\0\37\4name\1\30\4\0\3log\1\4twin\2\4loop\3\4twin";

static bool is_found(struct wrewrite_outcome end, size_t function) {
    return end.status == WREWRITE_DONE && end.function == function && end.place == WREWRITE_NOWHERE && end.text[0] == 0;
}

static bool is_not_found(struct wrewrite_outcome end, const char *text) {
    return end.status == WREWRITE_NO_FUNCTION && end.function == WREWRITE_NO_INDEX && end.place == WREWRITE_NOWHERE &&
           strcmp(end.text, text) == 0;
}

static void check_find(void) {
    static const char none[] = "no function with a body has this name (NoFunction)";
    struct bytes source = copy(NAMED, sizeof NAMED - 1), empty = room(0);
    check(is_found(wrewrite_find(source.at, source.size, "loop"), 2), "a function with a name");
    check(is_found(wrewrite_find(source.at, source.size, "run"), 2), "a function that is exported");
    check(is_not_found(wrewrite_find(source.at, source.size, "twin"), "several functions have this name (SeveralFunctions)"),
          "two functions with a name");
    check(is_not_found(wrewrite_find(source.at, source.size, "log"), none), "an imported function with a name");
    check(is_not_found(wrewrite_find(source.at, source.size, "lo"), none), "the front of a name");
    check(is_not_found(wrewrite_find(source.at, source.size, ""), none), "an empty name");
    check(is_not_found(wrewrite_find(source.at, source.size, "\xff"), none), "a name that isn't UTF-8");
    check(wrewrite_find(empty.at, 0, "loop").status == WREWRITE_REFUSED, "a name in no module");
    size_t function = wrewrite_find(source.at, source.size, "loop").function;
    uint8_t *out;
    struct wrewrite_outcome end = wrewrite_snip_new(source.at, source.size, &function, 1, NULL, &out, NULL);
    /* the second body begins with `unreachable`: it and the code section are a byte longer */
    check(end.status == WREWRITE_DONE && end.module_size == source.size + 1 &&
              memcmp(out + 38, "\12\13\3\2\0\13\3\0\0\13\2\0\13", 13) == 0,
          "the function that is found is snipped");
    free(out), free(source.at), free(empty.at);
}

/* A module whose one function is `nop`, with the custom section `linking`, as an object file has it; and without its `nop`. */
static const char OBJECT[] = "\0asm\1\0\0\0\1\4\1\140\0\0\3\2\1\0\12\5\1\3\0\1\13\0\11\7linking\2";

static void check_object_file(void) {
    struct bytes source = copy(OBJECT, sizeof OBJECT - 1), out = room(100);
    struct wrewrite_outcome end = wrewrite_rewrite(source.at, source.size, NULL, out.at, out.size, NULL, 0);
    check(end.status == WREWRITE_REFUSED && strcmp(end.text, "this is an object file: link it first (ObjectFile)") == 0 &&
              end.function == WREWRITE_NO_INDEX && end.module_size == 0 && is_untouched(out, 0),
          "an object file isn't rewritten");
    size_t first[1] = {0};
    end = wrewrite_snip(source.at, source.size, first, 1, NULL, out.at, out.size, NULL, 0);
    check(end.status == WREWRITE_REFUSED && strstr(end.text, "(ObjectFile)") && is_untouched(out, 0), "an object file isn't snipped");
    free(source.at), free(out.at);
}

/* Modules without and with a `nop`, and with the sections .debug_line and sourceMappingURL. */
static const char SHORT[] = "\0asm\1\0\0\0\1\4\1\140\0\0\3\2\1\0\12\4\1\2\0\13\0\15\13.debug_linex\0\23\20sourceMappingURL\1z";
static const char LONG[] = "\0asm\1\0\0\0\1\4\1\140\0\0\3\2\1\0\12\5\1\3\0\1\13\0\15\13.debug_linex\0\23\20sourceMappingURL\1z";

static uint32_t warnings_of(const char *module, size_t size, const char *which) {
    struct bytes source = copy(module, size), out = room(100);
    struct wrewrite_options options = options_of(which);
    struct wrewrite_outcome end = wrewrite_rewrite(source.at, source.size, &options, out.at, out.size, NULL, 0);
    if (end.status != WREWRITE_DONE) exit(2);
    free(source.at), free(out.at);
    return end.warnings;
}

static void check_warnings(void) {
    check(warnings_of(LONG, sizeof LONG - 1, "") == (WREWRITE_STALE_SOURCE_MAP | WREWRITE_STALE_DEBUG_INFO), "what is out of date");
    check(warnings_of(SHORT, sizeof SHORT - 1, "") == 0, "nothing is out of date where no code has changed");
    check(warnings_of(LONG, sizeof LONG - 1, "d") == 0, "nothing is out of date where debug information is stripped");
    check(warnings_of(LONG, sizeof LONG - 1, "a") == 0, "nothing is out of date where all is stripped");
}

/* An imported function and three bodies, of which the first branches too far and the third reads a local that it doesn't have. */
static const char REFUSED[] = "\0asm\1\0\0\0\1\4\1\140\0\0\2\7\1\1m\1f\0\0\3\4\3\0\0\0\12\17\3\4\0\14\1\13\2\0\13\5\0\40\0\32\13";

static bool is_fault(struct wrewrite_outcome end, size_t place, size_t function, const char *text) {
    return end.status == WREWRITE_REFUSED && end.place == place && end.function == function && strcmp(end.text, text) == 0 &&
           end.module_size == 0 && end.map_size == 0 && end.warnings == 0;
}

/* A function that adds 1 to nothing, and one that adds an i64 to an i32. */
static const char INVALID[] = "\0asm\1\0\0\0\1\4\1\140\0\0\3\2\1\0\12\10\1\6\0\101\1\152\32\13";
static const char MIXED[] = "\0asm\1\0\0\0\1\4\1\140\0\0\3\2\1\0\12\12\1\10\0\101\1\102\1\152\32\13";

static void check_validity(struct bytes good) {
    static const char text[] = "the operator is not valid here (InvalidOperator)";
    static const char nothing[] = "the operator is not valid here: expected i32, found nothing (InvalidOperator)";
    static const char other[] = "the operator is not valid here: expected i32, found i64 (InvalidOperator)";
    struct bytes source = copy(INVALID, sizeof INVALID - 1), mixed = copy(MIXED, sizeof MIXED - 1);
    struct bytes refused = copy(REFUSED, sizeof REFUSED - 1);
    check(wrewrite_validate(good.at, good.size).status == WREWRITE_DONE, "a module that is valid");
    check(is_fault(wrewrite_validate(source.at, source.size), 0x19, 0, nothing), "an operator that lacks an operand is not valid");
    check(is_fault(wrewrite_validate(mixed.at, mixed.size), 0x1b, 0, other), "an operator that finds another operand is not valid");
    check(wrewrite_check(source.at, source.size, 0).status == WREWRITE_DONE, "its types are not checked without being validated");
    check(is_fault(wrewrite_validate(refused.at, refused.size), 0x22, 1, text), "a branch that goes too far is not valid");
    check(is_fault(wrewrite_validate(NULL, 0), 0, WREWRITE_NO_INDEX, "the bytes end too early (Truncated)"), "no bytes are no module");
    free(source.at), free(mixed.at), free(refused.at);
}

static void check_faults(struct bytes good) {
    static const char label[] = "a label is not open (NoSuchLabel)";
    static const char local[] = "an index is out of bounds for the function's locals (LocalOutOfRange)";
    struct bytes source = copy(REFUSED, sizeof REFUSED - 1), out = room(100), empty = room(0);
    check(is_fault(wrewrite_check(source.at, source.size, 0), 0x22, 1, label), "the first function that is refused");
    check(is_fault(wrewrite_check(source.at, source.size, 1), 0x22, 1, label), "the same from its own index on");
    check(is_fault(wrewrite_check(source.at, source.size, 2), 0x2a, 3, local), "the next one");
    check(wrewrite_check(source.at, source.size, 4).status == WREWRITE_DONE, "none after the last");
    check(wrewrite_check(good.at, good.size, 0).status == WREWRITE_DONE, "a module of which nothing is refused");
    check(is_fault(wrewrite_rewrite(source.at, source.size, NULL, out.at, out.size, NULL, 0), 0x22, 1, label) && is_untouched(out, 0),
          "a module that isn't rewritten");
    size_t first[1] = {1};
    check(is_fault(wrewrite_snip(source.at, source.size, first, 1, NULL, out.at, out.size, NULL, 0), 0x22, 1, label),
          "a function that is snipped is parsed before");
    size_t imported[1] = {0};
    struct wrewrite_outcome end = wrewrite_snip(source.at, source.size, imported, 1, NULL, out.at, out.size, NULL, 0);
    check(end.status == WREWRITE_NO_FUNCTION && end.function == 0, "an imported function");
    check(is_fault(wrewrite_check(empty.at, 0, 0), 0, WREWRITE_NO_INDEX, "the bytes end too early (Truncated)"), "no bytes");
    check(is_fault(wrewrite_check(NULL, 0, 0), 0, WREWRITE_NO_INDEX, "the bytes end too early (Truncated)"), "no bytes, at a null pointer");
    check(is_fault(wrewrite_check(source.at + 1, 8, 0), 0, WREWRITE_NO_INDEX, "this is no WebAssembly module (BadMagic)"), "other bytes");
    check(is_fault(wrewrite_rewrite(source.at, 40, NULL, out.at, out.size, NULL, 0), 0x1f, WREWRITE_NO_INDEX,
                   "the bytes end too early (Truncated)"),
          "half a module");
    free(source.at), free(out.at), free(empty.at);
}

int main(int count, char **words) {
    if (count != 9) return 2;
    struct bytes source = read_file(words[2]), rewritten = read_file(words[3]), map = read_file(words[4]);
    struct bytes stripped = read_file(words[5]), bare = read_file(words[6]), snipped = read_file(words[8]), none = room(0);
    struct bytes before = copy(source.at, source.size);
    const uint32_t stale = WREWRITE_STALE_SOURCE_MAP | WREWRITE_STALE_DEBUG_INFO;
    size_t function = strtoul(words[7], 0, 10);
    check_version(words[1]);
    check_rewrite("a module that is rewritten", source, rewritten, none, "", stale);
    check_rewrite("the same with its map", source, rewritten, map, "m", stale);
    check_rewrite("the same without debug information", source, stripped, none, "d", 0);
    check_rewrite("the same without custom sections", source, bare, none, "a", 0);
    check_rewrite("the same without any of them", source, bare, none, "ad", 0);
    check_map_too_small(source, rewritten, map);
    check_options(source, rewritten, stripped);
    check_new(source, rewritten, map, function, snipped);
    check_snip(source, function, snipped);
    check_snip_of_none(source, rewritten);
    check_find();
    check_object_file();
    check_warnings();
    check_faults(source);
    check_validity(source);
    check(memcmp(source.at, before.at, source.size) == 0, "the source stays as it is");
    free(source.at), free(rewritten.at), free(map.at), free(stripped.at), free(bare.at), free(snipped.at), free(none.at), free(before.at);
    printf("%d passed, %d failed\n", passed, failed);
    return failed != 0;
}
