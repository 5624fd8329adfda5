/* The sections of a boot image. */
#include "sections.h"

#include "chunks.h"
#include "commands.h"

/* Of a retired section: a line of text where one is present, and always a member of the object. */
static void say_retired(bool present)
{
    say_flag("retired", present);
    if (!present)
        return;
    say_word(" section present");
    end_line();
}

void say_sections(const uint64_t answer[TARPAULARK_LOCATE_ANSWER])
{
    static const char *const names[] = {"kernel", "ramdisk", "recovery", "dtb", "signature"};

    say_number("version", answer[TARPAULARK_VERSION_AT]);
    end_line();
    open_list("sections");
    for (size_t i = 0; i < sizeof names / sizeof names[0]; i++) {
        const uint64_t *section = answer + TARPAULARK_SECTION(i);

        if (section[TARPAULARK_SECTION_PRESENT] == 0)
            continue;
        open_item();
        say_plain("name", names[i]);
        say_column("position", 0, section[TARPAULARK_SECTION_POSITION]);
        say_column("size", 0, section[TARPAULARK_SECTION_SIZE]);
        close_item();
    }
    close_list();
    say_retired(answer[TARPAULARK_RETIRED_AT] != 0);
}

enum status sections(const struct request *request)
{
    uint64_t answer[TARPAULARK_LOCATE_ANSWER];
    struct mapped image = read_image(request->words[0]);
    uint32_t number = tarpaulark_locate(image.at, image.length, answer);

    expect_read(&image);
    if (number != 0)
        return refuse(number, 0);
    say_sections(answer);
    return DONE;
}
