/* What the programs for a shop's cells share: the shop's names, and a file's cells worked out. */
#ifndef SHOP_H
#define SHOP_H

#include "shared.h"

enum { RED = 1, BLUE, WHITE, BLACK, RING = 11, BROOCH, BOWL, SMALL = 21, LARGE, SOFT = 31, MEDIUM, HARD, HEAT, SHELF };

static inline const char *name_of(uint32_t number) {
    switch (number) {
    case RED: return "red";
    case BLUE: return "blue";
    case WHITE: return "white";
    case BLACK: return "black";
    case RING: return "ring";
    case BROOCH: return "brooch";
    case BOWL: return "bowl";
    case SMALL: return "small";
    case LARGE: return "large";
    case SOFT: return "soft";
    case MEDIUM: return "medium";
    case HARD: return "hard";
    case HEAT: return "heat";
    case SHELF: return "shelf";
    default: return "?";
    }
}

static inline void print_name(uint32_t number) { printf("%s", name_of(number)); }

/* The cell of a name without arguments. */
static inline uint32_t plain(uint32_t name) { return dudowiej_name(name, 0); }

/* Bytes as little-endian cells, and how many they are. Bytes that are not whole cells are none, as in planlist, and so no table: 1 at 0. */
static inline size_t cells_of(const uint8_t *bytes, size_t size, uint32_t *cells) {
    if (size % 4 != 0) return 0;
    for (size_t i = 0; i < size / 4; i++, bytes += 4)
        cells[i] = bytes[0] | (uint32_t)bytes[1] << 8 | (uint32_t)bytes[2] << 16 | (uint32_t)bytes[3] << 24;
    return size / 4;
}

/* Works a file's table out with a figure; gives the exit status, after a word on standard error where it is not 0. */
static inline int work_file_out(const char *word, const char *path, uint32_t figure, dudowiej_record *record) {
    /* One cell more than a table may have, so that too long a file is seen to be one. */
    static uint8_t bytes[4 * (DUDOWIEJ_TABLE_CELLS + 1)];
    static uint32_t table[DUDOWIEJ_TABLE_CELLS + 1];
    long size = load(word, path, bytes, sizeof bytes);
    if (size < 0) return 2;
    size_t table_cells = cells_of(bytes, (size_t)size, table);
    return refused(stderr, word, dudowiej_work_out(table, table_cells, figure, record)) ? 1 : 0;
}

#endif
