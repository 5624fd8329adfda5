#!/usr/bin/env bash
# Tries build/tarpaulark against simg2img, img2simg and mkbootimg (Debian's packages
# android-sdk-libsparse-utils and mkbootimg). A tool that is not installed is skipped
# with a line. Where a peer breaks a rule of the format, its image must be refused with
# the number of that rule: such a try is counted as refused as expected, all others as
# agreeing. Exit status: 0 where all come out so, 1 where something disagrees.
set -euo pipefail

tool=$(cd "$(dirname "$0")/.." && pwd)/build/tarpaulark
small_blocks=(4 64 256)
blocks=(1024 1028 4096 5000 65536)
pages=(2048 4096 8192 16384)
header_lengths=(1632 1648 1660 1580 1584)
takers=('8 plain' '9 plain' '10 plain' '11 plain,11 generic,12 plain,13 plain' '12 plain,12 generic,13 plain,13 generic')
declare -A came_out=([agrees]=0 [24]=0)
failed=0

if [ ! -x "$tool" ]; then
    echo "build/tarpaulark is missing: run make first" >&2
    exit 1
fi
folder=$(mktemp -d)
trap 'rm -rf "$folder"' EXIT
cd "$folder"

# Runs a command quietly and counts how it comes out, agrees or refused with a number; says where it does not.
expect() {
    local outcome=$1 what=$2
    shift 2
    if "$@" >log 2>&1; then
        came_out[$outcome]=$((came_out[$outcome] + 1))
    else
        echo "disagrees: $what"
        sed 's/^/    /' log
        failed=1
    fi
}

installed() {
    command -v "$1" >/dev/null && return
    echo "skipped $1: not installed (package $2)"
    return 1
}

# Flat data at each block size, 64 blocks each: no bytes, random ones, mostly fill in runs,
# and a mixture with blocks that differ from fill in their first or last word alone.
make_flat() {
    python3 - "$@" <<'END'
import random, sys

random.seed(1)
words = [bytes(4), b"\xff" * 4, b"\x01\x00\x00\x00", b"\x00\x00\x00\x01"]
for size in map(int, sys.argv[1:]):
    def fill():
        return random.choice(words) * (size // 4)
    def near_first():
        return (b"\x02" * 4 + fill())[:size]
    def near_last():
        return (fill() + b"\x02" * 4)[4:]
    def noise():
        return random.randbytes(size)
    def runs():
        return b"".join(fill() * 4 if i % 4 else noise() + fill() * 3 for i in range(16))
    flats = {
        "empty": b"",
        "random": b"".join(noise() for _ in range(64)),
        "fill": runs(),
        "mixed": b"".join(random.choice([fill, near_first, near_last, noise])() for _ in range(64)),
    }
    for name, data in flats.items():
        with open(f"{name}.{size}", "wb") as file:
            file.write(data)
END
}

# Images of 64 blocks that state no checksum and skip blocks: all, the ends, some between, and any.
make_gaps() {
    python3 - "$@" <<'END'
import random, struct, sys

random.seed(2)
types = {"raw": 0xCAC1, "fill": 0xCAC2, "skip": 0xCAC3}
plans = {
    "all": ["skip"],
    "ends": ["skip", "raw", "fill", "skip"],
    "between": ["raw", "skip", "skip", "fill", "skip", "fill", "raw", "raw"],
    "any": random.choices(list(types), k=32),
}
for size in map(int, sys.argv[1:]):
    for name, kinds in plans.items():
        blocks = 64 // len(kinds)
        lengths = {"raw": blocks * size, "fill": 4, "skip": 0}
        with open(f"gaps-{name}.{size}", "wb") as file:
            file.write(struct.pack("<IHHHHIIII", 0xED26FF3A, 1, 0, 28, 12, size, 64, len(kinds), 0))
            for kind in kinds:
                data = random.randbytes(lengths[kind])
                file.write(struct.pack("<HHII", types[kind], 0, blocks, 12 + len(data)) + data)
END
}

comes_back() {
    simg2img "$1.image" "$1.back" && cmp "$1" "$1.back"
}

# img2simg leaves the checksum, bytes 24 to 27, at 0.
same_but_checksum() {
    img2simg "$1" "$1.theirs" "$2" && cmp -n 24 "$1.image" "$1.theirs" \
        && cmp -n 4 -i 24:0 "$1.theirs" /dev/zero && cmp -i 28 "$1.image" "$1.theirs"
}

# The first line of what the tool says of a file.
says() {
    local want=$1 said
    shift
    said=$("$tool" "$@" 2>&1 || true)
    echo "wanted: $want; said: $said"
    [ "${said%%$'\n'*}" = "$want" ]
}

# Stores an image on a zeroed partition of so many bytes, the file stored.
store_zeroed() {
    rm -f stored
    truncate -s "$2" stored && "$tool" store "$1" stored
}

stored_as_flat() {
    store_zeroed "$1.theirs" "$(stat -c %s "$1")" && cmp "$1" stored
}

stored_as_made() {
    store_zeroed "$1" "$2" && simg2img "$1" made && cmp made stored
}

# A checksum of 0 states none, so the image is accepted as it comes.
try_theirs() {
    local length
    length=$(stat -c %s "$1")
    expect agrees "img2simg, $1" same_but_checksum "$1" "$2"
    expect agrees "judge of img2simg's image, $1" \
        says "ok written $((length / $2)) skipped 0 unknown 0" judge "$1.theirs" "$length"
    expect agrees "store of img2simg's image, $1" stored_as_flat "$1"
    [ $has_simg2img = 0 ] || expect agrees "simg2img of img2simg's image, $1" stored_as_made "$1.theirs" "$length"
}

# The report on img2simg's images of flat files of one block size adds up the files: all blocks are written, none is
# skipped. For a partition of a byte less than 64 blocks have, only the one of no bytes is accepted.
reported_as_flat() {
    local block=$1 flat bytes=0 length largest=0 images=()
    shift
    for flat in "$@"; do
        length=$(stat -c %s "$flat")
        bytes=$((bytes + length))
        [ "$length" -le "$largest" ] || largest=$length
        images+=("$flat.theirs")
    done
    printf '%s\n' "accepted $#" "blocks $((bytes / block))" "bytes $bytes" 'skipped 0' "largest $largest" >wanted
    "$tool" report "${images[@]}" >said && diff wanted said || return 1
    printf '%s\n' 'accepted 1' 'blocks 0' 'bytes 0' 'skipped 0' 'largest 0' "refused 6 $(($# - 1))" >wanted
    "$tool" report "${images[@]}" --partition-length $((64 * block - 1)) >said && diff wanted said
}

# The runs between img2simg's images of two flat files of one length are those of their blocks: equal or different.
told_as_flat() {
    "$tool" diff "$1.theirs" "$2.theirs" --json | python3 -c '
import itertools, json, sys
first, second = (open(name, "rb").read() for name in sys.argv[1:3])
size = int(sys.argv[3])
kinds = ["equal" if first[at:at + size] == second[at:at + size] else "different" for at in range(0, len(first), size)]
told = [(run["kind"], run["blocks"]) for run in json.load(sys.stdin)["list"]]
assert told == [(kind, len(list(group))) for kind, group in itertools.groupby(kinds)], told
' "$1" "$2" "$3"
}

# Two images joined, through simg2img, are the two through ours, one after the other, on a zeroed partition; and
# simg2img of the two, one after the other onto one file, gives the same.
joined_as_two() {
    "$tool" join "$1" "$2" joined && simg2img joined made && store_zeroed "$1" $((64 * $3)) \
        && "$tool" store "$2" stored && cmp made stored && simg2img "$1" "$2" made && cmp made stored
}

# The same on a partition that the image of random bytes was stored on, so that kept blocks show.
joined_on_random() {
    simg2img "random.$3.image" joined made && store_zeroed "random.$3.image" $((64 * $3)) \
        && "$tool" store "$1" stored && "$tool" store "$2" stored && cmp made stored
}

# The joining of images of one block size, in pairs, each with itself too.
try_joins() {
    local block=$1 first second
    shift
    for first in "$@"; do
        for second in "$@"; do
            expect agrees "simg2img of the joining, $first and $second" joined_as_two "$first" "$second" "$block"
            expect agrees "the same on random bytes, $first and $second" joined_on_random "$first" "$second" "$block"
        done
    done
}

# Files for the sections that mkbootimg takes; an empty one is a section that is left out.
make_sections() {
    local name
    for name in kernel ramdisk second recovery dtb; do
        head -c "$1" /dev/urandom >"$name"
        shift
    done
    : >signature
}

# Makes the file boot of a header version and a page size from those sections, with a command line where one follows.
make_boot() {
    local words=(--header_version "$1" --pagesize "$2" --kernel kernel --ramdisk ramdisk -o boot)
    [ "$1" -ge 3 ] || words+=(--second second)
    [ "$1" != 1 ] && [ "$1" != 2 ] || [ ! -s recovery ] || words+=(--recovery_dtbo recovery)
    [ "$1" != 2 ] || words+=(--dtb dtb)
    [ $# -lt 3 ] || words+=(--cmdline "$3")
    mkbootimg "${words[@]}"
}

# The header size that boot states, or nothing for version 0, which states none.
stated_size() {
    case $1 in
    1 | 2) od -An -tu4 -j 1644 -N 4 boot ;;
    3 | 4) od -An -tu4 -j 20 -N 4 boot ;;
    esac | tr -d ' '
}

# Each section lies in boot where the tool says, at its file's size, in order. Of the second one, which still takes its
# room, it says only that it is present, and only in versions 0 to 2, where its file is not empty.
same_sections() {
    local names=() name at size want=(version kernel ramdisk)
    [ "$1" != 1 ] && [ "$1" != 2 ] || want+=(recovery)
    [ "$1" != 2 ] || want+=(dtb)
    [ "$1" != 4 ] || want+=(signature)
    [ "$1" -ge 3 ] || [ ! -s second ] || want+=(retired)
    "$tool" sections boot >said || return 1
    cat said
    while read -r name at size; do
        names+=("$name")
        if [ "$name" = version ]; then
            [ "$at" = "$1" ] || return 1
        elif [ "$name" = retired ]; then
            [ "$at $size" = "section present" ] || return 1
        else
            [ "$size" = "$(stat -c %s "$name")" ] || return 1
            cmp -n "$size" -i "$at:0" boot "$name" || return 1
        fi
    done <said
    [ "${names[*]}" = "${want[*]}" ]
}

# The releases and kernels that take boot are those of its version; it was made without an os version, so with 0.
same_takers() {
    "$tool" rules boot >said || return 1
    cat said
    [ "$(grep -Ex '[0-9]+ (plain|generic)' said | paste -sd ,)" = "${takers[$1]}" ]
}

# Makes the file boot, or says that mkbootimg makes none.
made_boot() {
    local what=$1
    shift
    make_boot "$@" >log 2>&1 && return
    echo "disagrees: $what: mkbootimg makes none"
    failed=1
    return 1
}

# Whether boot states the header size that its version has, or none.
is_sized() {
    local size
    size=$(stated_size "$1")
    [ -z "$size" ] || [ "$size" = "${header_lengths[$1]}" ]
}

# A boot image that states another header size than its version has must be refused with 24.
try_boot() {
    local what="mkbootimg, version $1, page $2, sizes $3" sizes
    read -ra sizes <<<"$3"
    make_sections "${sizes[@]}"
    made_boot "$what" "$1" "$2" || return 0
    if is_sized "$1"; then
        expect agrees "$what" same_sections "$1"
        expect agrees "releases, $what" same_takers "$1"
    else
        expect 24 "$what" says "refused 24 at 0" sections boot
    fi
}

# Started as the image of the one slot of a fresh record, boot has the very command line that it was made with.
same_line() {
    rm -f record
    "$tool" slots record fresh 1 && says "quiet $1 androidboot.slot_suffix=_a skip_initramfs" \
        start record --image a=boot --misc misc --line quiet
}

# Command lines of which some end at the end of the cmdline or in the extra cmdline, which versions 0 to 2 have.
try_cmdlines() {
    local length line what
    line=$(seq -s , 500)
    make_sections 1 1 1 0 1
    for length in 0 1 20 510 511 512 513 700 1500; do
        what="command line of $length bytes, mkbootimg, version $1"
        made_boot "$what" "$1" 2048 "${line:0:length}" || continue
        is_sized "$1" && expect agrees "$what" same_line "${line:0:length}"
    done
    return 0
}

# Every header version that this mkbootimg makes, at every page size, sections empty and not.
try_version() {
    local version=$1 recovery=$2 page sizes
    for page in "${pages[@]}"; do
        for sizes in "1 1 1" "$page $page $page" "$((page + 1)) $((3 * page - 1)) 5" "70000 0 9000" "9 70000 0"; do
            try_boot "$version" "$page" "$sizes 0 $((page + 7))"
            [ "$recovery" = 0 ] || try_boot "$version" "$page" "$sizes 4097 3"
        done
    done
}

try_mkbootimg() {
    local version recovery
    for version in 0 1 2 3 4; do
        make_sections 1 1 1 0 1
        if ! make_boot "$version" 2048 >log 2>&1; then
            echo "skipped header version $version: this mkbootimg makes none ($(tail -n 1 log))"
            continue
        fi
        recovery=0
        if [ "$version" = 1 ] || [ "$version" = 2 ]; then
            make_sections 1 1 1 1 1
            if make_boot "$version" 2048 >log 2>&1; then
                recovery=1
            else
                echo "skipped recovery in header version $version: this mkbootimg makes none ($(tail -n 1 log))"
            fi
        fi
        try_version "$version" "$recovery"
        try_cmdlines "$version"
    done
}

has_simg2img=1
has_img2simg=1
installed simg2img android-sdk-libsparse-utils || has_simg2img=0
installed img2simg android-sdk-libsparse-utils || has_img2simg=0

if [ $((has_simg2img + has_img2simg)) -gt 0 ]; then
    make_flat "${small_blocks[@]}" "${blocks[@]}"
    for block in "${small_blocks[@]}" "${blocks[@]}"; do
        for flat in {empty,random,fill,mixed}."$block"; do
            expect agrees "write, $flat" "$tool" write "$flat" "$block" "$flat.image"
            [ $has_simg2img = 0 ] || expect agrees "simg2img, $flat" comes_back "$flat"
            if [ $has_img2simg = 1 ] && [ "$block" -ge 1024 ]; then
                try_theirs "$flat" "$block"
            fi
        done
        [ $has_img2simg = 0 ] || [ "$block" -lt 1024 ] || for flat in random fill mixed; do
            expect agrees "diff of img2simg's images, $flat and mixed, $block" told_as_flat "$flat.$block" "mixed.$block" "$block"
        done
        [ $has_img2simg = 0 ] || [ "$block" -lt 1024 ] || expect agrees "report on img2simg's images, $block" \
            reported_as_flat "$block" {empty,random,fill,mixed}."$block"
    done
fi

if [ $has_simg2img = 1 ]; then
    make_gaps "${small_blocks[@]}" "${blocks[@]}"
    for block in "${small_blocks[@]}" "${blocks[@]}"; do
        for gaps in gaps-{all,ends,between,any}."$block"; do
            expect agrees "simg2img, $gaps" stored_as_made "$gaps" $((64 * block))
        done
        try_joins "$block" {random,fill,mixed}."$block".image gaps-{all,ends,between,any}."$block"
        [ $has_img2simg = 0 ] || [ "$block" -lt 1024 ] \
            || try_joins "$block" {fill,mixed}."$block".theirs gaps-{between,any}."$block"
    done
fi

if installed mkbootimg mkbootimg; then
    head -c 32 /dev/zero >misc
    try_mkbootimg
fi

if [ $((came_out[agrees] + came_out[24] + failed)) = 0 ]; then
    echo "peers: nothing tried"
elif [ "$failed" = 0 ]; then
    echo "peers: ${came_out[24]} refused as expected with 24 (mkbootimg states another header size)"
    echo "peers: ${came_out[agrees]} agree"
fi
exit "$failed"
