#!/usr/bin/env bash
# Installs below a scratch folder and uses what is there: the tool, the man page, and a program that is
# built by pkg-config against the installed header and library, and without the C library.
set -euo pipefail
cd "$(dirname "$0")/.."

folder=$(mktemp -d)
trap 'rm -rf "$folder"' EXIT
version=$(sed -n 's/^#define TARPAULARK_VERSION "\(.*\)"$/\1/p' include/tarpaulark.h)
cc=${CC:-gcc}

die() {
    echo "install: $*" >&2
    exit 1
}

make -s install DESTDIR="$folder/dest" PREFIX=/opt/t
root=$folder/dest/opt/t
[ "$("$root/bin/tarpaulark" --version)" = "tarpaulark $version" ] || die "the tool has another version"
grep -q "tarpaulark $version" "$root/share/man/man1/tarpaulark.1" || die "the man page has another version"
! grep -rq '@[A-Z]*@' "$root/lib/pkgconfig" "$root/share/man" || die "a place is left to be filled in"

# An image that is too short is refused with 1, which the header names. Of a fresh record of three slots b is set
# active and confirmed, and a corrupted: their bytes, the current slot and the count stand where the header says, the
# count last, and nothing past the record is touched; with another count it is refused. Two images are written and
# compared: the runs, of a block and of two, stand where the header says. Joined they are the second, whose blocks are all
# written, with its length where the header says; a byte less is too short, and nothing past it is touched. A report
# counts both for a partition with room, one for a partition without, and an image that is too short, where the header
# says; added to itself it has twice that, but the largest once, and nothing past it is touched; where a total would pass
# 64 bits it stays as it was, in counting and in adding, and so does the other one. A boot image
# of version 2 has its sections where the header says, and last whether a retired one is present, with and without one;
# nothing past the answer is touched, and an input that is too short is refused. Of the launch releases only 10 takes it,
# with the plain kernel, and answers the same; of version 4 the last one takes it with the generic kernel where the os
# version is 0. Of a fresh record of two slots a is started with the first of these images: misc that is too short leaves
# the record; the line, its length and the sections stand where the header says, nothing past the line and the answer is
# touched, and slots that are not in use have no image; with a byte less of space, and of the image, the start is refused
# and a try is spent; when none is left the answer is Recovery.
cat >"$folder/use.c" <<'END_C'
#include <tarpaulark.h>

static int has(const uint8_t *slot, int successful, int corrupted)
{
    return slot[TARPAULARK_SLOT_USED] == 1 && slot[TARPAULARK_SLOT_UNBOOTABLE] == 0
        && slot[TARPAULARK_SLOT_SUCCESSFUL] == successful && slot[TARPAULARK_SLOT_CORRUPTED] == corrupted
        && slot[TARPAULARK_SLOT_TRIES] == 3;
}

static int use_count(uint8_t *record)
{
    uint64_t answer[TARPAULARK_STARTABLE_ANSWER];

    if (tarpaulark_slots_startable(record, answer) != 0 || answer[TARPAULARK_SLOTS_STARTABLE] != 2
        || record[TARPAULARK_RECORD_STARTABLE] != 2)
        return 1;
    record[TARPAULARK_RECORD_STARTABLE] = 3;
    return tarpaulark_slots_valid(record) != TARPAULARK_BAD_RECORD
        || tarpaulark_slots_startable(record, answer) != TARPAULARK_BAD_RECORD
        || answer[TARPAULARK_SLOTS_STARTABLE] != 0 || record[TARPAULARK_RECORD_STARTABLE] != 3;
}

static int use_slots(void)
{
    static uint8_t record[TARPAULARK_RECORD + 1];
    uint64_t answer[TARPAULARK_SLOTS_ANSWER];

    record[TARPAULARK_RECORD] = 77;
    if (tarpaulark_slots_fresh(3, record, answer) != 0 || tarpaulark_slots_set_active(record, 1, answer) != 0
        || tarpaulark_slots_confirm(record, answer) != 0 || tarpaulark_slots_corrupted(record, 0, answer) != 0)
        return 1;
    return answer[TARPAULARK_SLOTS_KIND] != TARPAULARK_DONE || record[TARPAULARK_RECORD_CURRENT] != 1
        || !has(record, 0, 1) || !has(record + TARPAULARK_RECORD_SLOT, 1, 0)
        || !has(record + 2 * TARPAULARK_RECORD_SLOT, 0, 0) || record[TARPAULARK_RECORD - 1] != 2
        || record[TARPAULARK_RECORD] != 77 || use_count(record);
}

static int use_join(const uint8_t *first, size_t first_len, const uint8_t *second, size_t second_len)
{
    static uint8_t out[TARPAULARK_JOIN_BOUND(3, 4) + 1];
    uint64_t answer[TARPAULARK_JOIN_ANSWER];
    size_t i;

    if (tarpaulark_join(first, first_len, second, second_len, out, second_len - 1, answer) != TARPAULARK_BAD_SPACE
        || answer[TARPAULARK_IMAGE] != 0 || answer[TARPAULARK_JOINED] != 0 || out[0] != 0
        || tarpaulark_join(first, first_len, second, second_len, out, sizeof out, answer) != 0
        || answer[TARPAULARK_JOINED] != second_len
        || second_len > TARPAULARK_JOIN_LENGTH_BOUND(first_len, second_len))
        return 1;
    for (i = 0; i < second_len && out[i] == second[i]; i++)
        continue;
    return i != second_len || out[i] != 0;
}

/* A report whose numbers are, in their order, these times a factor, but the largest once; 77 stands after it. */
static int holds(const uint64_t *report, const uint64_t *numbers, uint64_t factor)
{
    size_t i;

    for (i = 0; i < TARPAULARK_REPORT; i++)
        if (report[i] != numbers[i] * (i == TARPAULARK_REPORT_LARGEST ? 1 : factor))
            return 0;
    return report[TARPAULARK_REPORT] == 77;
}

/* A report in which one total is full: counting an image that adds to it, and adding 1 to it, are refused. */
static int passes(uint64_t *report, size_t full, const uint8_t *image, size_t length)
{
    static uint64_t other[TARPAULARK_REPORT];
    const uint64_t kept = report[full];
    int is_refused;

    other[full] = 1;
    report[full] = UINT64_MAX;
    is_refused = tarpaulark_report_count(report, image, length, 12) == TARPAULARK_BAD_REPORT
        && tarpaulark_report_add(report, other) == TARPAULARK_BAD_REPORT && report[full] == UINT64_MAX
        && other[full] == 1;
    report[full] = kept;
    other[full] = 0;
    return is_refused;
}

static int use_report(const uint8_t *first, size_t first_len, const uint8_t *second, size_t second_len)
{
    static const uint64_t numbers[TARPAULARK_REPORT] = {2, 6, 24, 0, 12, 1, 0, 0, 0, 0, 1};
    static uint64_t report[TARPAULARK_REPORT + 1], other[TARPAULARK_REPORT + 1];
    size_t i;

    report[TARPAULARK_REPORT] = 77;
    if (tarpaulark_report_count(report, first, first_len, 12) != 0
        || tarpaulark_report_count(report, second, second_len, UINT64_MAX) != 0
        || tarpaulark_report_count(report, second, second_len, 11) != 0
        || tarpaulark_report_count(report, first, 27, 12) != 0 || !holds(report, numbers, 1)
        || report[TARPAULARK_REPORT_ACCEPTED] != 2 || report[TARPAULARK_REPORT_BLOCKS] != 6
        || report[TARPAULARK_REPORT_BYTES] != 24 || report[TARPAULARK_REPORT_SKIPPED] != 0
        || report[TARPAULARK_REPORT_REFUSED + TARPAULARK_BAD_ROOM - 1] != 1)
        return 1;
    for (i = 0; i <= TARPAULARK_REPORT; i++)
        other[i] = report[i];
    if (tarpaulark_report_add(report, other) != 0 || !holds(report, numbers, 2) || !holds(other, numbers, 1))
        return 1;
    return !passes(report, TARPAULARK_REPORT_ACCEPTED, first, first_len)
        || !passes(report, TARPAULARK_REPORT_BYTES, first, first_len)
        || !passes(report, TARPAULARK_REPORT_REFUSED + TARPAULARK_BAD_LENGTH - 1, first, 27)
        || passes(report, TARPAULARK_REPORT_SKIPPED, first, first_len)
        || passes(report, TARPAULARK_REPORT_LARGEST, first, first_len);
}

static int use_images(void)
{
    static const uint8_t first[] = "same" "old1" "old2", second[] = "same" "new1" "new2";
    static uint8_t images[2][TARPAULARK_WRITE_BOUND(12, 4)];
    static uint32_t runs[2 * TARPAULARK_RUN];
    const uint32_t *last = runs + TARPAULARK_RUN;
    uint64_t answer[TARPAULARK_COMPARE_ANSWER], lengths[2][TARPAULARK_WRITE_ANSWER];

    if (tarpaulark_write(first, 12, 4, images[0], sizeof images[0], lengths[0]) != 0
        || tarpaulark_write(second, 12, 4, images[1], sizeof images[1], lengths[1]) != 0
        || tarpaulark_compare(images[0], lengths[0][TARPAULARK_LENGTH], images[1], lengths[1][TARPAULARK_LENGTH], runs,
                              2 * TARPAULARK_RUN, answer) != 0)
        return 1;
    return answer[TARPAULARK_IMAGE] != 0 || answer[TARPAULARK_RUNS] != 2
        || runs[TARPAULARK_RUN_KIND] != TARPAULARK_EQUAL || last[TARPAULARK_RUN_FIRST] != 1
        || last[TARPAULARK_RUN_BLOCKS] != 2 || last[TARPAULARK_RUN_KIND] != TARPAULARK_DIFFERENT
        || use_join(images[0], lengths[0][TARPAULARK_LENGTH], images[1], lengths[1][TARPAULARK_LENGTH])
        || use_report(images[0], lengths[0][TARPAULARK_LENGTH], images[1], lengths[1][TARPAULARK_LENGTH]);
}

static int stands(const uint64_t *answer, uint64_t present, uint64_t position, uint64_t size)
{
    return answer[TARPAULARK_SECTION_PRESENT] == present && answer[TARPAULARK_SECTION_POSITION] == position
        && answer[TARPAULARK_SECTION_SIZE] == size;
}

static int has_sections(const uint64_t *answer, uint64_t retired, uint64_t last)
{
    return answer[TARPAULARK_VERSION_AT] == 2 && answer[TARPAULARK_RETIRED_AT] == retired
        && stands(answer + TARPAULARK_SECTION(TARPAULARK_KERNEL), 1, 2048, 2048)
        && stands(answer + TARPAULARK_SECTION(TARPAULARK_RAMDISK), 1, 4096, 1)
        && stands(answer + TARPAULARK_SECTION(TARPAULARK_RECOVERY_IMAGE), 1, last, 0)
        && stands(answer + TARPAULARK_SECTION(TARPAULARK_DTB), 1, last, 1)
        && stands(answer + TARPAULARK_SECTION(TARPAULARK_SIGNATURE), 0, 0, 0);
}

/* The refusal, or 0 where there is none or it leaves something in the answer. */
static uint32_t locate_for(const uint8_t *image, size_t length, uint32_t release, uint32_t kernel, uint64_t *answer)
{
    uint32_t number = tarpaulark_locate_for(image, length, release, kernel, answer);
    size_t i;

    for (i = 0; number != 0 && i < TARPAULARK_LOCATE_ANSWER; i++)
        if (answer[i] != 0)
            return 0;
    return number;
}

static int use_releases(const uint8_t *image, size_t length, uint64_t *answer)
{
    const uint32_t first = TARPAULARK_FIRST_RELEASE, last = TARPAULARK_LAST_RELEASE;
    const uint32_t plain = TARPAULARK_PLAIN_KERNEL, generic = TARPAULARK_GENERIC_KERNEL;

    if (locate_for(image, length, first - 1, plain, answer) != TARPAULARK_BAD_RELEASE
        || locate_for(image, length, last + 1, plain, answer) != TARPAULARK_BAD_RELEASE
        || locate_for(image, length, last, generic + 1, answer) != TARPAULARK_BAD_RELEASE
        || locate_for(image, length, 10, generic, answer) != TARPAULARK_BAD_RELEASE
        || locate_for(image, length - 1, 10, plain, answer) != TARPAULARK_BAD_BOOT_END
        || locate_for(image, length, first, plain, answer) != TARPAULARK_BAD_RELEASE_VERSION
        || locate_for(image, length, last, generic, answer) != TARPAULARK_BAD_RELEASE_VERSION)
        return 1;
    return tarpaulark_locate_for(image, length, 10, plain, answer) != 0 || !has_sections(answer, 1, 8192)
        || answer[TARPAULARK_LOCATE_ANSWER] != 77;
}

static int use_os_version(void)
{
    static uint8_t image[1584] = "ANDROID!";
    uint64_t answer[TARPAULARK_LOCATE_ANSWER];

    image[19] = 1;
    image[20] = 1584 % 256;
    image[21] = 1584 / 256;
    image[40] = 4;
    if (locate_for(image, sizeof image, 13, TARPAULARK_GENERIC_KERNEL, answer) != TARPAULARK_BAD_RELEASE_OS
        || tarpaulark_locate_for(image, sizeof image, 13, TARPAULARK_PLAIN_KERNEL, answer) != 0)
        return 1;
    image[19] = 0;
    return tarpaulark_locate_for(image, sizeof image, 13, TARPAULARK_GENERIC_KERNEL, answer) != 0
        || answer[TARPAULARK_VERSION_AT] != 4;
}

/* Misc of 32 bytes does not ask for recovery. */
static uint32_t start(uint8_t *record, const uint8_t *image, size_t length, size_t misc_len, uint8_t *space,
                      size_t space_len, uint64_t *answer)
{
    static const uint8_t misc[TARPAULARK_MISC] = "boot-recovery?", line[] = "quiet";

    return tarpaulark_start(record, image, length, image, length, 0, 0, 0, 0, misc, misc_len, line, sizeof line - 1,
                            space, space_len, answer);
}

static int answers(const uint64_t *answer, uint64_t kind)
{
    size_t i;

    for (i = 1; i < TARPAULARK_START_ANSWER && answer[i] == 0; i++)
        continue;
    return answer[TARPAULARK_START_KIND] == kind && i == TARPAULARK_START_ANSWER;
}

static int writes_line(uint8_t *record, const uint8_t *image, size_t length, uint8_t *space, uint64_t *answer)
{
    static const uint8_t line[] = "quiet on=1 androidboot.slot_suffix=_a skip_initramfs";
    size_t i;

    answer[TARPAULARK_START_ANSWER] = space[sizeof line - 1] = 77;
    if (start(record, image, length, TARPAULARK_MISC, space, TARPAULARK_MOST_LINE, answer) != 0
        || answer[TARPAULARK_START_KIND] != TARPAULARK_STARTS || answer[TARPAULARK_START_SLOT] != 0
        || answer[TARPAULARK_START_LENGTH] != sizeof line - 1
        || !has_sections(answer + TARPAULARK_START_SECTIONS, 1, 8192))
        return 0;
    for (i = 0; i < sizeof line - 1 && space[i] == line[i]; i++)
        continue;
    return i == sizeof line - 1 && space[i] == 77 && answer[TARPAULARK_START_ANSWER] == 77;
}

static int use_start(const uint8_t *image, size_t length)
{
    static uint8_t record[TARPAULARK_RECORD], space[TARPAULARK_MOST_LINE];
    const uint8_t *tries = record + TARPAULARK_SLOT_TRIES;
    uint64_t answer[TARPAULARK_START_ANSWER + 1];

    if (start(record, image, length, TARPAULARK_MISC, space, sizeof space, answer) != TARPAULARK_BAD_RECORD
        || !answers(answer, TARPAULARK_REFUSED) || tarpaulark_slots_fresh(2, record, answer) != 0
        || start(record, image, length, TARPAULARK_MISC - 1, space, sizeof space, answer) != TARPAULARK_BAD_MISC
        || !answers(answer, TARPAULARK_REFUSED) || *tries != 3 || space[0] != 0)
        return 1;
    if (!writes_line(record, image, length, space, answer) || *tries != 2)
        return 1;
    space[0] = 0;
    if (start(record, image, length, TARPAULARK_MISC, space, answer[TARPAULARK_START_LENGTH] - 1, answer)
            != TARPAULARK_BAD_LINE
        || !answers(answer, TARPAULARK_REFUSED) || *tries != 1
        || start(record, image, length - 1, TARPAULARK_MISC, space, sizeof space, answer) != TARPAULARK_BAD_BOOT_END
        || !answers(answer, TARPAULARK_REFUSED) || *tries != 0)
        return 1;
    return start(record, image, length, TARPAULARK_MISC, space, sizeof space, answer) != 0
        || !answers(answer, TARPAULARK_RECOVERY) || record[TARPAULARK_SLOT_UNBOOTABLE] != 1 || space[0] != 0;
}

static int use_boot(void)
{
    static const uint16_t bytes[][2] = {
        {9, 8}, {16, 1}, {24, 1}, {37, 8}, {40, 2}, {1644, 1660 % 256}, {1645, 1660 / 256}, {1648, 1},
        {64, 'o'}, {65, 'n'}, {608, '='}, {609, '1'},
    };
    static uint8_t image[8193] = "ANDROID!";
    uint64_t answer[TARPAULARK_LOCATE_ANSWER + 1];
    size_t i;

    for (i = 0; i < sizeof bytes / sizeof bytes[0]; i++)
        image[bytes[i][0]] = (uint8_t)bytes[i][1];
    answer[TARPAULARK_LOCATE_ANSWER] = 77;
    if (tarpaulark_locate(image, sizeof image, answer) != 0 || !has_sections(answer, 1, 8192)
        || tarpaulark_locate(image, sizeof image - 1, answer) != TARPAULARK_BAD_BOOT_END
        || answer[TARPAULARK_RETIRED_AT] != 0 || use_releases(image, sizeof image, answer) || use_os_version()
        || use_start(image, sizeof image))
        return 1;
    image[24] = 0;
    return tarpaulark_locate(image, sizeof image, answer) != 0 || !has_sections(answer, 0, 6144)
        || answer[TARPAULARK_LOCATE_ANSWER] != 77;
}

int use(void)
{
    uint64_t answer[TARPAULARK_JUDGE_ANSWER];

    return tarpaulark_judge((const uint8_t *)TARPAULARK_VERSION, 5, 0, answer) != TARPAULARK_BAD_LENGTH || use_slots()
        || use_images() || use_boot();
}
END_C
echo 'int use(void); int main(void) { return use(); }' >"$folder/main.c"

flags="-I$root/include -L$root/lib -ltarpaulark"
if command -v pkg-config >/dev/null; then
    export PKG_CONFIG_SYSROOT_DIR=$folder/dest PKG_CONFIG_LIBDIR=$root/lib/pkgconfig
    [ "$(pkg-config --modversion tarpaulark)" = "$version" ] || die "pkg-config has another version"
    flags=$(pkg-config --cflags --libs tarpaulark)
else
    echo "install: pkg-config is not installed: left out"
fi
# shellcheck disable=SC2086
"$cc" -std=c99 -Wall -Wextra -pedantic -Werror -o "$folder/use" "$folder/use.c" "$folder/main.c" $flags
"$folder/use" || die "the installed library answers something else"

if command -v g++ >/dev/null; then
    g++ -std=c++11 -Wall -Wextra -pedantic -Werror -fsyntax-only -I"$root/include" -x c++ "$folder/use.c"
else
    echo "install: g++ is not installed: the header in C++ is left out"
fi

# Names that the header had before are gone, those of the two counts, of refusal 28 and of the second section: whoever
# uses one is told so by the compiler.
for gone in TARPAULARK_WRITTEN TARPAULARK_SKIPPED TARPAULARK_BAD_BOOT_POSITION TARPAULARK_SECOND; do
    sed "s/TARPAULARK_BAD_LENGTH/$gone/" "$folder/use.c" >"$folder/gone.c"
    ! "$cc" -fsyntax-only -I"$root/include" "$folder/gone.c" 2>/dev/null || die "the header still has $gone"
done

# With the C library left out no symbol is missing.
# shellcheck disable=SC2086
"$cc" -ffreestanding -nostdlib -nostartfiles -static -Wl,-e,use -o "$folder/bare" "$folder/use.c" $flags \
    || die "the library needs more than itself"

echo "install: tarpaulark $version as installed agrees"
