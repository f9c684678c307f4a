/* board: the bench's tool over the reference engine. `board --help` lists its commands. */
#include <errno.h>
#include <fcntl.h>
#include <stdio.h>
#include <stdlib.h>
#include <string.h>

#include "commands.h"
#include "common.h"

typedef struct {
    const char *name, *usage, *about, *help;
    int (*run)(const char *usage, int argc, char **argv);
} command;

static const command commands[] = {
    {"run", "run FILE [-m MEMORY] [-a ANSWERS]", "each event with its answer in words",
     "Runs an event file over zero memory, or over the memory in a file: 64 bytes for each line. With -a the answers go to a file too,\n"
     "nine bytes each.\n", run_command},
    {"text", "text FILE [-o TEXT]", "an event file in the readable form",
     "One event a line, its word and its numbers. Bytes that are no event are a line `bytes`.\n", text_command},
    {"bytes", "bytes TEXT [-o FILE]", "the event file of a readable form",
     "Spaces or tabs stand between the numbers, '#' in front of a comment. A fault is named with its line and column, and nothing is\n"
     "written.\n", bytes_command},
    {"image", "image FILE -o IMAGE [-m MEMORY] [-n]", "the image that the cut of an event file leaves",
     "With -n the new form, whose log entries stand under headers.\n", image_command},
    {"show", "show IMAGE", "what stands in an image, and what recovery will restore",
     "For an image that is refused, which refusal and which byte.\n", show_command},
    {"recover", "recover IMAGE -o OUT [--steps N] [--lose-power-at K]..", "recovery inside an image",
     "All steps, or N. Power is lost after each step K that is named, counted over all steps; recovery then begins anew.\n", recover_command},
    {"diff", "diff IMAGE IMAGE", "the first difference of two images, in words",
     "Exit code 0 if they are the same, 1 if they differ.\n", diff_command},
    {"check", "check FILE ANSWERS [IMAGE] [-m MEMORY]", "a board's answers and image against the reference",
     "ANSWERS has nine bytes for each event: the refusal, then the value, the low byte first. Exit code 0 if all agree, 1 at the first\n"
     "difference, which is told with the events before it that matter.\n", check_command},
    {"explain", "explain FILE [N] [-m MEMORY]", "the tables after event N, and why an event was refused",
     "Events count from 1; without N it is the last one. N 0 is before the first.\n", explain_command},
    {"try", "try COMMAND [--seed S] [--count N] [--image] [--recovered] [-o FILE]", "random event files against a model",
     "COMMAND gets an event file on standard input and gives nine bytes for each answer on standard output; with --image behind them\n"
     "the image, if a cut was accepted, and with --recovered the image that recovery leaves. It runs by sh -c, once for each file, over\n"
     "zero memory, and has ten seconds; an end with another code than 0 is a difference too. The first few files that make a difference\n"
     "are shrunk, and the smallest is saved as FILE (difference.events), with its readable form beside it. Exit code 0 if all files\n"
     "agree, 1 if one makes a difference.\n", try_command},
    {"timeline", "timeline FILE -o PICTURE.svg [-m MEMORY]", "regions, slots and log entries over time, as a picture",
     "One column for each event, of which there may be 500.\n", timeline_command},
};

enum { COMMANDS = sizeof commands / sizeof commands[0] };

static void print_help(void) {
    puts("board COMMAND ..: the reference engine of the memory board. An event file of '-' is standard input.\n");
    for (int i = 0; i < COMMANDS; i++) printf("  %-10s %s\n", commands[i].name, commands[i].about);
    puts("\nboard COMMAND --help tells more; board --version tells the version. Exit code 0; 1 if things differ; 2 for bad use, bad input or lost output.");
}

/* A closed descriptor becomes one that cannot be written, so that no file that is opened stands in its place. */
static void keep_descriptors(void) {
    for (int fd = 0; fd <= 2; fd++)
        if (fcntl(fd, F_GETFD) == -1 && open("/dev/null", fd == 0 ? O_WRONLY : O_RDONLY) == -1) exit(BAD);
}

static int run_named(int argc, char **argv) {
    for (int i = 0; i < COMMANDS; i++) {
        if (strcmp(argv[1], commands[i].name) != 0) continue;
        if (argc > 2 && strcmp(argv[2], "--help") == 0) {
            printf("board %s\n%s.\n\n%s", commands[i].usage, commands[i].about, commands[i].help);
            return SAME;
        }
        return commands[i].run(commands[i].usage, argc - 2, argv + 2);
    }
    fail("unknown command %s; board --help lists them", argv[1]);
}

int main(int argc, char **argv) {
    int code = SAME;
    keep_descriptors();
    if (argc < 2) fail("which command? board --help lists them");
    if (strcmp(argv[1], "--help") == 0) print_help();
    else if (strcmp(argv[1], "--version") == 0) puts(BOARD_VERSION);
    else code = run_named(argc, argv);
    if (fflush(stdout) != 0 || ferror(stdout)) fail("standard output: %s", strerror(errno));
    return code;
}
