#include "refusals.h"

#include "tarpaulark.h"

#include <stddef.h>

static const char *const meaning[] = {
    [TARPAULARK_BAD_LENGTH] = "sparse input under 28 bytes",
    [TARPAULARK_BAD_MAGIC] = "wrong magic: this is no sparse image",
    [TARPAULARK_BAD_MAJOR] = "major version not 1",
    [TARPAULARK_BAD_HEADER_SIZE] = "a header size breaks its rule, or file header size exceeds the input",
    [TARPAULARK_BAD_BLOCK_SIZE] = "block size not a multiple of 4 from 4 to 65,536",
    [TARPAULARK_BAD_ROOM] = "total blocks x block size exceeds the partition",
    [TARPAULARK_BAD_CHUNK_END] = "fewer bytes left than a chunk header, or than the chunk's total size",
    [TARPAULARK_BAD_CHUNK_SIZE] = "total size wrong for the chunk's type",
    [TARPAULARK_BAD_TOTAL] = "a chunk passes the total blocks, or the sum falls short at the end",
    [TARPAULARK_BAD_TAIL] = "bytes remain after the last chunk",
    [TARPAULARK_BAD_CHECKSUM] = "checksum differs",
    [TARPAULARK_BAD_OUTPUT] = "output too short",
    [TARPAULARK_BAD_FLAT] = "flat length above 2,147,483,648 or not whole blocks",
    [TARPAULARK_BAD_MORE] = "more bytes came than --length announces",
    [TARPAULARK_BAD_FEWER] = "fewer bytes came than --length announces",
    [TARPAULARK_BAD_PARTITION] = "the partition has another length than announced",
    [TARPAULARK_BAD_GEOMETRY] = "block size or total blocks of the two images differ",
    [TARPAULARK_BAD_SPACE] = "the list of runs, or the joined image, needs more than the space for it",
    [TARPAULARK_BAD_BOOT_LENGTH] = "boot input under 44 bytes, or under its header length",
    [TARPAULARK_BAD_BOOT_MAGIC] = "wrong magic: this is no boot image",
    [TARPAULARK_BAD_BOOT_VERSION] = "boot header version above 4",
    [TARPAULARK_BAD_BOOT_HEADER_SIZE] = "header size field not the header length",
    [TARPAULARK_BAD_BOOT_PAGE_SIZE] = "page size not a number with a single one bit from 2,048 to 16,384",
    [TARPAULARK_BAD_BOOT_END] = "a section that is not empty, a retired one too, ends past the input",
    [TARPAULARK_BAD_BOOT_RECOVERY] = "recovery size not 0 and its offset not the computed position",
    [TARPAULARK_BAD_RECORD] = "invalid slot record, or a fresh record for a number of slots not 1 to 4",
    [TARPAULARK_BAD_SLOT] = "slot past d or not in use",
    [TARPAULARK_BAD_CONFIRM] = "confirming an unbootable or corrupted slot",
    [TARPAULARK_BAD_RELEASE] = "the plain kernel goes with releases 8 to 13, the generic one with 11 to 13",
    [TARPAULARK_BAD_RELEASE_VERSION] = "header version not allowed for the release with that kernel",
    [TARPAULARK_BAD_RELEASE_OS] = "os version not 0, as it must be for the release with that kernel",
    [TARPAULARK_BAD_MISC] = "misc under 32 bytes",
    [TARPAULARK_BAD_LINE] = "the line needs more than 4,096 bytes",
    [TARPAULARK_BAD_REPORT] = "a total would pass 64 bits: report on fewer images at a time",
};

const char *refusal_meaning(uint32_t number)
{
    const char *words = NULL;

    if (number < sizeof meaning / sizeof meaning[0])
        words = meaning[number];
    return words == NULL ? "a number without a meaning" : words;
}
