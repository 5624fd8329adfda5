/* The host tool: the library's functions on files. */
#include "commands.h"
#include "descriptors.h"
#include "tarpaulark.h"
#include "words.h"

#include <setjmp.h>
#include <signal.h>
#include <stdio.h>
#include <stdlib.h>
#include <string.h>

static const struct command {
    const char *name;
    size_t least, most;
    unsigned options;
    enum status (*run)(const struct request *request);
    const char *usage, *help;
} commands[] = {
    {"judge", 2, 2, LENGTH, judge,
     "judge IMAGE PARTITION-LENGTH\n"
     "       tarpaulark judge - PARTITION-LENGTH --length BYTES",
     "says whether a sparse image is accepted for a partition of so many bytes, and how\n"
     "          many of its blocks are written, skipped and unknown"},
    {"store", 2, 2, DRY_RUN | LIMIT | LENGTH, store,
     "store IMAGE PARTITION [--limit BLOCKS] [--dry-run]\n"
     "       tarpaulark store - PARTITION --length BYTES",
     "stores it on a partition, a file or a block device whose length stays; with a\n"
     "          limit only its first blocks to be stored, as if power were cut; as a dry run\n"
     "          nothing, and the bytes that would be kept are listed"},
    {"list", 1, 1, 0, list, "list IMAGE",
     "lists the chunks of a sparse image: first block, kind, blocks, bytes of the\n"
     "          partition, the word of a fill"},
    {"map", 1, 1, SVG, map, "map IMAGE [--svg FILE]",
     "draws what a sparse image does to its partition, a cell a stretch of blocks"},
    {"diff", 2, 2, MAP | SVG, diff, "diff A B [--map] [--svg FILE]",
     "says what changed between two sparse images of equal block size and total blocks:\n"
     "          the runs of blocks that neither writes, only the first (A), only the second (B),\n"
     "          or both, equal or different; then blocks and bytes of each kind; with --map it\n"
     "          draws both images side by side in place of the runs"},
    {"join", 3, 3, 0, join, "join A B OUT",
     "makes one sparse image of two of equal block size and total blocks: storing it leaves\n"
     "          what storing the first (A) and then the second (B) leaves; blocks that neither\n"
     "          writes are kept; it is compact, and states its checksum; total blocks x block size\n"
     "          is at most 2,147,483,648"},
    {"report", 1, SIZE_MAX, PARTITION_LENGTH, report, "report IMAGE .. [--partition-length BYTES]",
     "adds up any number of sparse images, each judged for a partition of so many bytes, or as\n"
     "          if it had room: how many are accepted, blocks and bytes that they write, blocks that\n"
     "          they skip, total blocks x block size of the largest, and how many got each refusal\n"
     "          number; each that is refused is named on standard error, with --json in the list images,\n"
     "          and is no failure"},
    {"write", 3, 3, 0, write_image, "write FLAT BLOCK-SIZE OUT", "makes a sparse image from flat bytes"},
    {"sections", 1, 1, 0, sections, "sections BOOT-IMAGE",
     "prints the version of a boot image, then name, position and size of each\n"
     "          section that is offered; last, where it carries a second-stage loader, which is\n"
     "          not offered, `retired section present`"},
    {"rules", 1, 3, 0, rules,
     "rules BOOT-IMAGE\n"
     "       tarpaulark rules BOOT-IMAGE RELEASE plain | generic",
     "says which boards take a boot image, by launch release, 8 to 13, and by kernel, plain or\n"
     "          generic: a line for each such pair, as `12 plain`, then why other pairs do not take\n"
     "          it; of one pair, RELEASE and kernel, whether it does, and then what sections prints"},
    {"slots", 2, 3, 0, slots,
     "slots RECORD fresh COUNT\n"
     "       tarpaulark slots RECORD start | confirm\n"
     "       tarpaulark slots RECORD set-active | modified | corrupted SLOT\n"
     "       tarpaulark slots RECORD status | show",
     "works on a slot record of 22 bytes: fresh makes one for 1 to 4 slots, start picks\n"
     "          the slot to start and takes its try, confirm marks the current slot\n"
     "          successful, corrupted marks a slot whose system is damaged, which then does not\n"
     "          start; set-active and modified clear that, but a slot that start has given up\n"
     "          is unbootable until set-active; status says in words how each slot stands, and\n"
     "          how many slots are startable: in use and neither unbootable nor corrupted; show\n"
     "          prints the record in short; SLOT is a letter from a on"},
    {"start", 1, 1, IMAGE | MISC | LINE, start,
     "start RECORD --image SLOT=FILE .. --misc FILE --line TEXT",
     "starts a slot: picks it and takes its try, as slots RECORD start does, finds the sections\n"
     "          of its boot image, and prints the kernel's command line, that line alone: TEXT, the\n"
     "          image's line, androidboot.slot_suffix=_a with the letter of the slot, and\n"
     "          skip_initramfs unless misc asks for recovery; where no slot may start it prints none"},
};
enum { COMMANDS = sizeof commands / sizeof commands[0] };

static const char options_help[] =
    "\n"
    "--json prints one object in place of the text, with the same numbers; for a refusal\n"
    "and a failure too. -h or --help, alone or after a command, prints this, --version the\n"
    "version. After -- no word is taken for an option.\n"
    "\n"
    "- is an image that comes by standard input, in pieces of any length; --length announces\n"
    "how many bytes it has. One in a file is judged before its first byte is stored, here too;\n"
    "one that comes through a pipe is stored as it comes. Where that is refused late, what had\n"
    "come due before is stored: send the right image from its start.\n"
    "\n"
    "Where standard error is a terminal, store and what reads - show there how far they are.\n"
    "\n"
    "Of an accepted image's blocks, `written` are those of raw and fill chunks, `skipped` those\n"
    "of don't care chunks alone, `unknown` those of chunks of any other type, which are kept as\n"
    "the skipped ones are; `skipped` in a report are both together. Where there are such chunks,\n"
    "judge, store, list and join say on standard error how many, and type and offset of the\n"
    "first; of - only how many blocks they have.\n"
    "\n"
    "A header checksum of 0 states none: such an image is accepted without its data being\n"
    "checked, which judge, store, list and join say on standard error.\n"
    "\n"
    "--partition-length gives the bytes of the partition that the images of a report are judged\n"
    "for; where it is left out, none gets 6, which is for want of room. Where standard output is\n"
    "a terminal, a bar and words show what was refused how often.\n"
    "\n"
    "A slot record of 21 bytes, as tarpaulark 0.5.0 and 0.6.0 made it, lacks the count of\n"
    "startable slots; one of 17 bytes, as 0.4.0 and before made it, the flag corrupted too. They\n"
    "are refused with 31 and stay as they are; the man page says how to make new ones of them.\n"
    "\n"
    "--image names the boot image of a slot, a letter from a to d, and is given for each slot in\n"
    "use; --misc the misc partition, of which the first 32 bytes are read; --line gives the\n"
    "loader's line, which may be empty. What start takes stands in the record before the line is\n"
    "printed, and also where the image is refused, or a line of more than 4,096 bytes.\n"
    "\n"
    "Images, partitions and records are locked while they are used; a busy one is left\n"
    "alone. Results are on the disk before they are printed.\n"
    "\n"
    "Exit status: 0 done\n"
    "             1 refused: `refused NUMBER at PLACE` and its meaning, on standard error\n"
    "             2 bad usage, or a file of a kind that cannot be used\n"
    "             3 input or output failed, or a file is busy or was changed meanwhile\n"
    "             4 done, but not all could be printed\n";

static sigjmp_buf lost_page;

/* The disk failed, or a file was cut short, under the mapping. */
static void on_lost_page(int number)
{
    (void)number;
    siglongjmp(lost_page, 1);
}

static void print_help(const struct command *only)
{
    for (size_t i = 0; i < COMMANDS; i++)
        if (only == NULL || only == commands + i)
            printf("%s tarpaulark %s\n", only == NULL && i > 0 ? "      " : "usage:", commands[i].usage);
    puts("");
    for (size_t i = 0; i < COMMANDS; i++)
        if (only == NULL || only == commands + i)
            printf("%-9s %s\n", commands[i].name, commands[i].help);
    fputs(options_help, stdout);
}

static const struct command *command_named(const char *name)
{
    for (size_t i = 0; name != NULL && i < COMMANDS; i++)
        if (strcmp(name, commands[i].name) == 0)
            return commands + i;
    return NULL;
}

/* The words must be as many as the command takes, and its options among those that it has. */
static void expect_usage(const struct command *command, const struct line *line)
{
    char text[512];

    if (line->count >= command->least && line->count <= command->most
        && (line->options & ~command->options) == 0)
        return;
    snprintf(text, sizeof text, "usage: tarpaulark %s", command->usage);
    misused(NULL, text);
}

static enum status run(char **words)
{
    static struct line line;
    const struct command *command;

    take_words(&line, words);
    command = command_named(line.command);
    if (line.help || line.version) {
        if (line.help)
            print_help(command);
        else
            puts("tarpaulark " TARPAULARK_VERSION);
        exit((int)finish_text());
    }
    if (line.command == NULL)
        misused(NULL, "no command is given");
    if (command == NULL)
        misused(line.command, "is no command; see tarpaulark --help");
    answer_to(command->name);
    expect_usage(command, &line);
    return command->run(&line.request);
}

int main(int count, char **words)
{
    open_standard_descriptors();
    signal(SIGPIPE, SIG_IGN);
    signal(SIGXFSZ, SIG_IGN);
    signal(SIGBUS, on_lost_page);
    if (sigsetjmp(lost_page, 1) != 0)
        failed(NULL, "a file could not be read or written to its end; see to the disk and its room, and run the"
                     " same command again", 0);
    return (int)finish(run(words + (count > 0 ? 1 : 0)));
}
