/* The proved PMTiles core, for programs in C. Link libpmtiles.a.
 *
 * Each function answers a status: 0 done or found, 255 absent, else the number of a refusal.
 * Values go into lent slots, `out` mostly. A refusal changes no lent memory, nor does absent; only pmt_directory_read
 * zeroes its four stores when it refuses. Fewer slots than a function takes or fills are refused 15, before all else.
 *
 * A slice is two arguments, a pointer and how many elements it has. The pointer is aligned for its type, valid for
 * all of them, and not NULL, not even of an empty slice. A slice that is written overlaps no other slice of the call.
 *
 * A directory's entries lie in four stores, always in the order ids, runs, lengths, offsets. An entry says that `run`
 * tiles from `id` on have the contents of `length` bytes at `offset`; a run of 0 marks a pointer to a leaf. */
#ifndef PMTILES_H
#define PMTILES_H

#include <stddef.h>
#include <stdint.h>

#ifdef __cplusplus
extern "C" {
#endif

enum pmt_status {
    PMT_DONE = 0,
    PMT_INVALID_HEADER = 1,               /* cut off, or a number does not fit its field */
    PMT_INVALID_MAGIC_NUMBER = 2,         /* no PMTiles archive */
    PMT_UNSUPPORTED_PM_TILES_VERSION = 3, /* an archive of another version */
    PMT_INVALID_COMPRESSION = 4,          /* a code above 4 */
    PMT_INVALID_TILE_TYPE = 5,            /* a code above 6 */
    PMT_INVALID_COORDINATE = 6,           /* a zoom above 31, or x or y not below 2^zoom */
    PMT_INVALID_TILE_ID = 7,              /* an id above the last one of zoom 31 */
    PMT_VARINT_CUT_OFF = 8,               /* the bytes end within a number */
    PMT_VARINT_TOO_LARGE = 9,             /* a number above its 64 or 32 bits */
    PMT_INVALID_ENTRY = 10,               /* the first entry's offset refers to one before it */
    PMT_SUM_TOO_LARGE = 11,               /* a sum above 64 bits */
    PMT_EMPTY_ENTRY = 12,                 /* a length of 0; where a tile is due, also a run of 0 */
    PMT_ENTRY_ID_TOO_LARGE = 13,          /* an entry covers more than the last id of zoom 31 */
    PMT_ENTRIES_OUT_OF_ORDER = 14,        /* an entry is not above all that the one before covers */
    PMT_ROOM_TOO_SHORT = 15,              /* too few slots, or too short a store or buffer */
    PMT_COMPRESSED_DIRECTORIES = 16,      /* the internal compression is not 1, none */
    PMT_RANGE_OUTSIDE = 17,               /* bytes, or a position, past what there is */
    PMT_TOO_DEEP = 18,                    /* a pointer in the fourth directory */
    PMT_TOO_MANY_ENTRIES = 19,            /* more than 16777216 */
    PMT_ABSENT = 255                      /* no refusal: there is no such tile */
};

/* ---- tile ids */

/* out, 1 slot: the id. Refuses 6. */
uint8_t pmt_tile_id(uint8_t z, uint32_t x, uint32_t y, uint64_t *out, size_t out_len);

/* out, 3 slots: zoom, x, y. Refuses 7. */
uint8_t pmt_tile_coord(uint64_t id, uint64_t *out, size_t out_len);

/* ---- headers: 19 numbers and six degrees, each in the order of the header's fields
 *
 *  0 version               7 data offset          14 tile compression
 *  1 root offset           8 data length          15 tile type
 *  2 root length           9 addressed tiles      16 min zoom
 *  3 metadata offset      10 tile entries         17 max zoom
 *  4 metadata length      11 tile contents        18 center zoom
 *  5 leaf offset          12 clustered, 1 or 0
 *  6 leaf length          13 internal compression
 *
 * degrees: min longitude, min latitude, max longitude, max latitude, center longitude, center latitude.
 * Compressions: 0 unknown, 1 none, 2 gzip, 3 brotli, 4 zstd.
 * Tile types: 0 unknown, 1 MVT, 2 PNG, 3 JPEG, 4 WebP, 5 AVIF, 6 MLT. */

/* out, 19 slots: the numbers. degrees, 6 slots: the degrees. Bytes past the first 127 are ignored. Refuses 1 to 5. */
uint8_t pmt_header_read(const uint8_t *bytes, size_t bytes_len, uint64_t *out, size_t out_len, double *degrees,
                        size_t degrees_len);

/* Writes the first 127 bytes. Refuses 1 for a version or a zoom above 255 and for clustered above 1, then 4, then 5,
 * then 15 where bytes are too few. */
uint8_t pmt_header_write(const uint64_t *numbers, size_t numbers_len, const double *degrees, size_t degrees_len,
                         uint8_t *bytes, size_t bytes_len);

/* ---- directories and lookup */

/* Reads a directory into the stores, as many entries as it has; what follows in the stores stays.
 * out, 2 slots: how many entries, and how many bytes they took; bytes after them are ignored.
 * Refuses 8 to 15 and 19, with every slot of all four stores zeroed, also where out is too short. */
uint8_t pmt_directory_read(const uint8_t *bytes, size_t bytes_len, uint64_t *ids, size_t ids_len, uint32_t *runs,
                           size_t runs_len, uint32_t *lengths, size_t lengths_len, uint64_t *offsets,
                           size_t offsets_len, uint64_t *out, size_t out_len);

/* The entry that covers an id, or the pointer that leads to it.
 * out, 4 slots: the entry's id, run, length and offset. 255 where there is none. Refuses 7 to 14 and 19. */
uint8_t pmt_directory_find(const uint8_t *bytes, size_t bytes_len, uint64_t id, uint64_t *out, size_t out_len);

/* Where a tile's contents lie in an archive. out, 2 slots: where they start, and how many bytes they have.
 * 255 where there is no such tile. Refuses 7, then the first fault on the way to them: 1 to 5, 8 to 14, 16 to 19. */
uint8_t pmt_lookup(const uint8_t *archive, size_t archive_len, uint64_t id, uint64_t *out, size_t out_len);

/* The same by coordinate. Refuses 6 in the place of 7. */
uint8_t pmt_lookup_coord(const uint8_t *archive, size_t archive_len, uint8_t z, uint32_t x, uint32_t y, uint64_t *out,
                         size_t out_len);

/* ---- directories written: the first `count` entries of the stores */

/* out, 1 slot: how many bytes the directory has. Refuses 19, 15 for a store shorter than count, 11 to 14. */
uint8_t pmt_encoded_len(size_t count, const uint64_t *ids, size_t ids_len, const uint32_t *runs, size_t runs_len,
                        const uint32_t *lengths, size_t lengths_len, const uint64_t *offsets, size_t offsets_len,
                        uint64_t *out, size_t out_len);

/* Writes the directory at the start of bytes. out, 1 slot: how many bytes it has. Refuses the same, then 15 where bytes
 * are too few. */
uint8_t pmt_directory_write(size_t count, const uint64_t *ids, size_t ids_len, const uint32_t *runs, size_t runs_len,
                            const uint32_t *lengths, size_t lengths_len, const uint64_t *offsets, size_t offsets_len,
                            uint8_t *bytes, size_t bytes_len, uint64_t *out, size_t out_len);

/* How large the root and the leaves get that hold these tiles, where the tile data has data_length bytes.
 * out, 2 slots: bytes of the root, and of the leaves, 0 where none are needed.
 * Refuses 19, 15 for a store shorter than count, 12 to 14, and 17 for contents outside the tile data. */
uint8_t pmt_build_sizes(size_t count, const uint64_t *ids, size_t ids_len, const uint32_t *runs, size_t runs_len,
                        const uint32_t *lengths, size_t lengths_len, const uint64_t *offsets, size_t offsets_len,
                        uint64_t data_length, uint64_t *out, size_t out_len);

/* Writes both, each at the start of its buffer. out, 4 slots: as above, then how many entries, and how many tiles they
 * address. Refuses the same, then 15 where root or leaves is too short. */
uint8_t pmt_build(size_t count, const uint64_t *ids, size_t ids_len, const uint32_t *runs, size_t runs_len,
                  const uint32_t *lengths, size_t lengths_len, const uint64_t *offsets, size_t offsets_len,
                  uint64_t data_length, uint8_t *root, size_t root_len, uint8_t *leaves, size_t leaves_len,
                  uint64_t *out, size_t out_len);

/* ---- publication: an archive put into a destination, byte store by byte store, by as many calls as one likes
 *
 * The first call is at position 0, each later one at the position that the call before told. The archive is there once
 * the position is what pmt_total tells: the last store is the one that makes it an archive. */

/* out, 1 slot: how many stores there are for a root, metadata, tile data and leaves of so many bytes.
 * Refuses 11, and 17 for a root above 16257 bytes. */
uint8_t pmt_total(uint64_t root, uint64_t metadata, uint64_t tiles, uint64_t leaves, uint64_t *out, size_t out_len);

/* Does the next stores from a position on, at most `budget`. out, 1 slot: the new position.
 * settings, 5 slots: tile compression, tile type, min zoom, max zoom, center zoom. degrees, 6 slots: as in a header.
 * counts, 2 slots: entries, addressed tiles, which are the last two slots of pmt_build.
 * Refuses 1 for a zoom above 255, then 4, 5, then as pmt_total, then 15 where dest is shorter than 16384 bytes and the
 * metadata, tile data and leaves together, then 17 for a position past the last store. */
uint8_t pmt_publish(const uint64_t *settings, size_t settings_len, const double *degrees, size_t degrees_len,
                    const uint64_t *counts, size_t counts_len, const uint8_t *root, size_t root_len,
                    const uint8_t *metadata, size_t metadata_len, const uint8_t *tiles, size_t tiles_len,
                    const uint8_t *leaves, size_t leaves_len, uint8_t *dest, size_t dest_len, uint64_t position,
                    uint64_t budget, uint64_t *out, size_t out_len);

#ifdef __cplusplus
}
#endif

#endif
