/* wrewrite.h: rewrites, snips, checks and validates WebAssembly modules, as the programs wrewrite and wsnip do.
 *
 *     #include "wrewrite.h"
 *
 *     struct wrewrite_options options = WREWRITE_OPTIONS;
 *     options.strips_debug = 1;
 *     uint8_t *out;
 *     struct wrewrite_outcome end = wrewrite_rewrite_new(in, size, &options, &out, NULL);
 *     if (end.status == WREWRITE_DONE) {
 *         fwrite(out, 1, end.module_size, file);
 *         free(out);
 *     }
 *
 * A call reads the module of `source_size` bytes at `source`, puts what it makes where the caller says, and keeps nothing. A call
 * doesn't depend on an earlier one. Calls on several threads at once are fine where each has an `out` and a `map` of its own.
 *
 * The caller has to see to this, since the library can't check it:
 *
 * - At each pointer there are as many readable bytes (or numbers) as the size after it says, and at `out` and `map` as many
 *   writable ones. A size is at most SIZE_MAX / 2. A pointer may be null where its size is 0, and where this file says so.
 * - Where a call writes overlaps nothing that it reads, and `out` doesn't overlap `map`.
 * - malloc, realloc and free are those of the C library, or keep its rules: the library allocates by them while a call runs.
 *
 * Link with libwrewrite_c.a and then liblibc_c.a, which comes with Rattle's toolchain. Both are for Linux on x86-64.
 */
#ifndef WREWRITE_H
#define WREWRITE_H

#include <stddef.h>
#include <stdint.h>
#include <stdlib.h>
#include <string.h>

#ifdef __cplusplus
extern "C" {
#endif

/* The version of this file. wrewrite_version() returns that of the library, as WREWRITE_VERSION_NUMBER has it. */
#define WREWRITE_VERSION_MAJOR 0
#define WREWRITE_VERSION_MINOR 2
#define WREWRITE_VERSION_PATCH 0
#define WREWRITE_VERSION "0.2.0"
#define WREWRITE_VERSION_NUMBER (WREWRITE_VERSION_MAJOR * 10000 + WREWRITE_VERSION_MINOR * 100 + WREWRITE_VERSION_PATCH)

/* How a call ended. */
enum {
    /* All is done: `out` begins with a module of `module_size` bytes, and `map` with `map_size` bytes of text. Of wrewrite_check:
     * no function is refused. Of wrewrite_validate: the module is valid. Of wrewrite_find: `function` is the index. */
    WREWRITE_DONE = 0,
    /* The module is refused. `place`, `function` and `text` say where and why. */
    WREWRITE_REFUSED = 1,
    /* Of wrewrite_snip: no function with a body has the index `function`. Of wrewrite_find: no function with a body has the name,
     * or several functions have it, as `text` says. */
    WREWRITE_NO_FUNCTION = 2,
    /* The module or its map doesn't fit. `module_size` and `map_size` say how many bytes they take: call once more with as many. */
    WREWRITE_TOO_SMALL = 3,
    /* Memory ran out. */
    WREWRITE_NO_MEMORY = 4,
    /* The options have no size, or one is set that this library doesn't know. */
    WREWRITE_BAD_OPTIONS = 5
};

/* What may no longer be true in a module that is made, since its code has changed: the bits of `warnings`. */
enum {
    /* The place of its source map, which has places of the source: the custom section `sourceMappingURL`. */
    WREWRITE_STALE_SOURCE_MAP = 1,
    /* Its debug information, which has places of the source. With `strips_debug` it is left out. */
    WREWRITE_STALE_DEBUG_INFO = 2,
    /* Names of locals or labels, or metadata of code, in a section that can't be read and is carried over as it is. */
    WREWRITE_STALE_NAMES = 4
};

/* The place of a fault, where none is known. */
#define WREWRITE_NOWHERE SIZE_MAX
/* The index of a function, where there is none. */
#define WREWRITE_NO_INDEX SIZE_MAX

#define WREWRITE_TEXT_SIZE 120

/* How a call ended. Where `status` isn't WREWRITE_DONE, nothing is written to `out` and `map`. */
struct wrewrite_outcome {
    uint32_t status;
    /* Of WREWRITE_DONE what may no longer be true in the module, else 0. */
    uint32_t warnings;
    /* The place of a fault: a byte offset from the start of the module, or WREWRITE_NOWHERE. */
    size_t place;
    /* The index of the function that the fault is in, or that is found, or WREWRITE_NO_INDEX. Imported functions have the first
     * indices. */
    size_t function;
    /* Of WREWRITE_DONE and WREWRITE_TOO_SMALL the sizes of the module and of its map, else 0. */
    size_t module_size;
    size_t map_size;
    /* What is wrong, with the name of the fault: "a label is not open (NoSuchLabel)". It ends with a zero byte, and is empty where
     * nothing is wrong, and of WREWRITE_TOO_SMALL. docs/use/PROGRAMS.md lists the faults. */
    char text[WREWRITE_TEXT_SIZE];
};

/* What is wanted. Each option is off where it is 0. Begin with WREWRITE_OPTIONS, which sets the size and turns all options off.
 *
 * Later versions add options at the end. A library reads options of an earlier header, and takes those that aren't there for 0; it
 * refuses an option that it doesn't know, unless it is 0. */
struct wrewrite_options {
    /* The size of this struct, in bytes. */
    uint32_t size;
    /* The location map is wanted: a line for each operator that is one of the source, with its old and its new offset from the
     * start of the module, in hexadecimal. It has no zero byte at its end. Without it nothing is put at `map`, and `map_size` is 0. */
    uint32_t has_map;
    /* Debug information is left out: the custom sections `sourceMappingURL` and `external_debug_info`, and those whose names begin
     * with `.debug_`. Else these are carried over, and `warnings` says whether they may be out of date. */
    uint32_t strips_debug;
    /* All custom sections are left out, also the names of functions. */
    uint32_t strips_all;
};

#define WREWRITE_OPTIONS {(uint32_t)sizeof(struct wrewrite_options), 0, 0, 0}

/* The version of the library: WREWRITE_VERSION_NUMBER where this file is of the same version. */
uint32_t wrewrite_version(void);

/* The functions of the library, which the functions below call. Here no pointer is null, also where its size is 0, and `options` are
 * the words of a struct wrewrite_options: a quarter of its size. Other languages call these. */
struct wrewrite_outcome wrewrite_raw_rewrite(const uint8_t *source, size_t source_size, const uint32_t *options, size_t option_count,
                                             uint8_t *out, size_t out_size, uint8_t *map, size_t map_size);
struct wrewrite_outcome wrewrite_raw_snip(const uint8_t *source, size_t source_size, const size_t *functions, size_t function_count,
                                          const uint32_t *options, size_t option_count, uint8_t *out, size_t out_size, uint8_t *map,
                                          size_t map_size);
struct wrewrite_outcome wrewrite_raw_check(const uint8_t *source, size_t source_size, size_t first);
struct wrewrite_outcome wrewrite_raw_validate(const uint8_t *source, size_t source_size);
struct wrewrite_outcome wrewrite_raw_find(const uint8_t *source, size_t source_size, const uint8_t *name, size_t name_size);

/* Rewrites each function of a module: in the shortest encodings, without `nop`, without code that can't be reached after a branch,
 * and without locals that nothing uses. What is written is usually smaller than the source, but need not be. Where `options` is null
 * all are off. */
static inline struct wrewrite_outcome wrewrite_rewrite(const uint8_t *source, size_t source_size, const struct wrewrite_options *options,
                                                       uint8_t *out, size_t out_size, uint8_t *map, size_t map_size) {
    struct wrewrite_options none = WREWRITE_OPTIONS;
    const struct wrewrite_options *wanted = options ? options : &none;
    uint8_t nothing[1] = {0};
    return wrewrite_raw_rewrite(source ? source : nothing, source_size, &wanted->size, wanted->size / sizeof wanted->size,
                                out ? out : nothing, out_size, map ? map : nothing, map_size);
}

/* The same, and leaves nothing but `unreachable` of the functions with these indices. Each has to be one of a function with a body,
 * and may be there more than once. wrewrite_find finds the index of a function by its name. */
static inline struct wrewrite_outcome wrewrite_snip(const uint8_t *source, size_t source_size, const size_t *functions,
                                                    size_t function_count, const struct wrewrite_options *options, uint8_t *out,
                                                    size_t out_size, uint8_t *map, size_t map_size) {
    struct wrewrite_options none = WREWRITE_OPTIONS;
    const struct wrewrite_options *wanted = options ? options : &none;
    uint8_t nothing[1] = {0};
    size_t no_function = WREWRITE_NO_INDEX;
    return wrewrite_raw_snip(source ? source : nothing, source_size, functions ? functions : &no_function, function_count, &wanted->size,
                             wanted->size / sizeof wanted->size, out ? out : nothing, out_size, map ? map : nothing, map_size);
}

/* Looks for the first function that is refused, among those with the index `first` and the following ones, and writes nothing. So the
 * next one is found from `function + 1` on. A module that isn't read has no function in its outcome. Types are checked by
 * wrewrite_validate alone. */
static inline struct wrewrite_outcome wrewrite_check(const uint8_t *source, size_t source_size, size_t first) {
    uint8_t nothing[1] = {0};
    return wrewrite_raw_check(source ? source : nothing, source_size, first);
}

/* Validates a module, as the standard says, and writes nothing. The outcome has the first fault. If an operator is refused for an operand,
 * `text` says what it takes and finds: "the operator is not valid here: expected i32, found f32 (InvalidOperator)". */
static inline struct wrewrite_outcome wrewrite_validate(const uint8_t *source, size_t source_size) {
    uint8_t nothing[1] = {0};
    return wrewrite_raw_validate(source ? source : nothing, source_size);
}

/* Looks for the function with this name, a string: one that the `name` section names so, else one that is exported so. */
static inline struct wrewrite_outcome wrewrite_find(const uint8_t *source, size_t source_size, const char *name) {
    uint8_t nothing[1] = {0};
    return wrewrite_raw_find(source ? source : nothing, source_size, (const uint8_t *)name, strlen(name));
}

/* What calls that allocate share. */
struct wrewrite_room {
    uint8_t *out;
    uint8_t *map;
};

static inline void wrewrite_no_memory(struct wrewrite_outcome *end) {
    memset(end, 0, sizeof *end);
    end->status = WREWRITE_NO_MEMORY;
    end->place = WREWRITE_NOWHERE;
    end->function = WREWRITE_NO_INDEX;
    memcpy(end->text, "out of memory (Memory)", sizeof "out of memory (Memory)");
}

/* Gives back the memory that isn't used. */
static inline uint8_t *wrewrite_fit(uint8_t *bytes, size_t size) {
    uint8_t *fitting = bytes ? (uint8_t *)realloc(bytes, size + 1) : NULL;
    return fitting ? fitting : bytes;
}

/* wrewrite_rewrite or, where `functions` isn't null, wrewrite_snip, into memory of these sizes that is allocated for it. */
static inline struct wrewrite_outcome wrewrite_make_in(struct wrewrite_room *room, size_t out_size, size_t map_size, const uint8_t *source,
                                                       size_t source_size, const size_t *functions, size_t function_count,
                                                       const struct wrewrite_options *options) {
    struct wrewrite_outcome end;
    room->out = (uint8_t *)malloc(out_size + 1);
    room->map = (uint8_t *)malloc(map_size + 1);
    if (!room->out || !room->map)
        wrewrite_no_memory(&end);
    else if (functions)
        end = wrewrite_snip(source, source_size, functions, function_count, options, room->out, out_size, room->map, map_size);
    else
        end = wrewrite_rewrite(source, source_size, options, room->out, out_size, room->map, map_size);
    if (end.status != WREWRITE_DONE) {
        free(room->out);
        free(room->map);
        room->out = room->map = NULL;
    }
    return end;
}

static inline struct wrewrite_outcome wrewrite_make_new(const uint8_t *source, size_t source_size, const size_t *functions,
                                                        size_t function_count, const struct wrewrite_options *options, uint8_t **out,
                                                        uint8_t **map) {
    struct wrewrite_room room;
    /* most modules take no more than their source, and their maps no more than eight times as much */
    size_t map_size = options && options->has_map ? 8 * source_size : 0;
    struct wrewrite_outcome end =
        wrewrite_make_in(&room, source_size + 64, map_size, source, source_size, functions, function_count, options);
    if (end.status == WREWRITE_TOO_SMALL)
        end = wrewrite_make_in(&room, end.module_size, end.map_size, source, source_size, functions, function_count, options);
    *out = wrewrite_fit(room.out, end.module_size);
    if (map)
        *map = wrewrite_fit(room.map, end.map_size);
    else
        free(room.map);
    return end;
}

/* The same as wrewrite_rewrite, and as wrewrite_snip, in memory that is allocated by malloc. `*out` and `*map` are to be given to free,
 * also where no map is wanted, and are null where the status isn't WREWRITE_DONE. `map` may be null. */
static inline struct wrewrite_outcome wrewrite_rewrite_new(const uint8_t *source, size_t source_size,
                                                           const struct wrewrite_options *options, uint8_t **out, uint8_t **map) {
    return wrewrite_make_new(source, source_size, NULL, 0, options, out, map);
}

static inline struct wrewrite_outcome wrewrite_snip_new(const uint8_t *source, size_t source_size, const size_t *functions,
                                                        size_t function_count, const struct wrewrite_options *options, uint8_t **out,
                                                        uint8_t **map) {
    size_t no_function = WREWRITE_NO_INDEX;
    return wrewrite_make_new(source, source_size, functions ? functions : &no_function, function_count, options, out, map);
}

#ifdef __cplusplus
}
#endif

#endif
