/*
 * dlm: libraries of stimulus sequences as text. Assembles a text to an image,
 * lists an image as text, prints cards with names, holds claims against them,
 * and writes a report. docs/TEXT.md has the form of a text.
 *
 * What is said of sequences comes from the engine's calls, which are proved;
 * this program reads, names and prints.
 */
/* for stat */
#define _POSIX_C_SOURCE 200809L
#include "cards.h"
#include "claims.h"
#include "lister.h"
#include "loaded.h"
#include "report.h"

#include <stdio.h>
#include <string.h>
#include <sys/stat.h>

static const char help[] =
    "dlm: libraries of stimulus sequences as text\n"
    "\n"
    "  dlm assemble TEXT -o IMAGE   writes the image of a text\n"
    "  dlm list FILE                prints the canonical text of a library\n"
    "  dlm cards FILE               prints the cards, with names\n"
    "  dlm claims FILE..            holds the claims of texts against the "
    "cards\n"
    "  dlm report FILE -o PAGE      writes a page for readers of the cards\n"
    "  dlm report FILE -o DATA --json   the same for programs\n"
    "  dlm --help, dlm --version\n"
    "\n"
    "FILE is a text or an image; it is told by its bytes. \"-\" is standard\n"
    "input, and behind -o standard output.\n"
    "\n"
    "A text declares facts, steps and sequences:\n"
    "\n"
    "  fact granted \"the bus is granted\";\n"
    "  fact unit_ps \"delays are in picoseconds\";\n"
    "  step request { sets granted; }\n"
    "  step unit    { needs granted; sets unit_ps; }\n"
    "  step release { needs granted; clears granted; }\n"
    "  sequence setup {\n"
    "      always sets unit_ps;\n"
    "      alternative run  { request; unit; release; }\n"
    "      alternative done { }\n"
    "  }\n"
    "\n"
    "\"always sets unit_ps\" is a claim. \"dlm claims\" says that it fails "
    "here,\n"
    "and shows why: alternative done is empty. A claim is \"always\" or "
    "\"never\"\n"
    "with needs, sets or clears, or \"always stands\". An entry of an "
    "alternative\n"
    "is a step, a sequence, or \"check\" and a fact. docs/TEXT.md has the "
    "form.\n"
    "\n"
    "Exit status: 0; 1 where a text or an image is refused, a file cannot be\n"
    "read or written, or a claim fails; 2 where the command is not "
    "understood.\n";

enum { DONE, FAILED, NOT_UNDERSTOOD };

/* A command line: the command, its files, and its options. */
struct command {
    const char *name, *output;
    char **files;
    int count, json;
};

static int not_understood(const char *what)
{
    fprintf(stderr, "dlm: %s; dlm --help says what there is\n", what);
    return NOT_UNDERSTOOD;
}

/* Whether a name is that of a plain file, and of no device. */
static int is_plain_file(const char *name)
{
    struct stat status;
    return stat(name, &status) == 0 && S_ISREG(status.st_mode);
}

/* Writes bytes to a file, or to standard output where the name is "-". A file
 * that could not be written whole is removed. */
static int write_file(const char *name, const void *bytes, size_t length)
{
    int standard = strcmp(name, "-") == 0, done;
    FILE *file = standard ? stdout : fopen(name, "wb");
    done = file != NULL && fwrite(bytes, 1, length, file) == length;
    if (file != NULL)
        done = (standard ? fflush(file) : fclose(file)) == 0 && done;
    if (!done) {
        fprintf(stderr, "dlm: %s cannot be written\n",
                standard ? "standard output" : name);
        if (file != NULL && !standard && is_plain_file(name))
            remove(name);
    }
    return done ? DONE : FAILED;
}

static int assemble(const struct command *command, const struct loaded *loaded)
{
    unsigned char bytes[4 * DULIMOVEN_MOST_IMAGE_WORDS];
    size_t i;
    for (i = 0; i < 4 * loaded->image.length; i++)
        bytes[i] = loaded->image.words[i / 4] >> 8 * (i % 4) & 0xff;
    return write_file(command->output, bytes, 4 * loaded->image.length);
}

static int report(const struct command *command, const struct loaded *loaded)
{
    struct findings findings;
    struct text text = {0};
    int status;
    find_all(&findings, loaded);
    if (command->json)
        write_json(&text, &findings);
    else
        write_page(&text, &findings);
    status = write_file(command->output, text_string(&text), text.length);
    text_free(&text);
    findings_free(&findings);
    return status;
}

/* Whether all that was printed was written. */
static int printed(void)
{
    if (fflush(stdout) == 0 && !ferror(stdout))
        return DONE;
    fprintf(stderr, "dlm: standard output cannot be written\n");
    return FAILED;
}

/* The command over one file. */
static int run_file(const struct command *command, const char *file)
{
    struct loaded *loaded = load(file);
    int status = DONE;
    if (loaded == NULL)
        return FAILED;
    if (strcmp(command->name, "assemble") == 0)
        status = assemble(command, loaded);
    else if (strcmp(command->name, "report") == 0)
        status = report(command, loaded);
    else if (strcmp(command->name, "list") == 0)
        print_text(stdout, &loaded->library);
    else if (strcmp(command->name, "cards") == 0)
        print_cards(stdout, loaded);
    else
        status = hold_claims(loaded) ? DONE : FAILED;
    unload(loaded);
    return status;
}

/* Takes the arguments behind the command: files, and options anywhere among
 * them. The files are moved together. */
static int take_arguments(struct command *command, int count, char **arguments)
{
    int i;
    command->files = arguments;
    for (i = 0; i < count; i++) {
        const char *argument = arguments[i];
        if (strcmp(argument, "-o") == 0) {
            if (i + 1 == count || command->output != NULL)
                return not_understood("-o has one file behind it, once");
            command->output = arguments[++i];
        } else if (strcmp(argument, "--json") == 0) {
            command->json = 1;
        } else if (argument[0] == '-' && argument[1] != 0) {
            fprintf(stderr, "dlm: there is no option %s\n", argument);
            return not_understood("an option was not understood");
        } else {
            command->files[command->count++] = arguments[i];
        }
    }
    return DONE;
}

/* Whether the command has the files and options that it asks for. */
static int check_arguments(const struct command *command)
{
    int assembles = strcmp(command->name, "assemble") == 0;
    int reports = strcmp(command->name, "report") == 0;
    int claims = strcmp(command->name, "claims") == 0;
    if (!assembles && !reports && !claims &&
        strcmp(command->name, "list") != 0 &&
        strcmp(command->name, "cards") != 0) {
        fprintf(stderr, "dlm: there is no command %s\n", command->name);
        return not_understood("the command was not understood");
    }
    if (command->count == 0 || (command->count > 1 && !claims))
        return not_understood(claims ? "claims has files behind it"
                                     : "the command has one file behind it");
    if ((assembles || reports) != (command->output != NULL))
        return not_understood(assembles || reports
                                  ? "the command has -o and a file behind it"
                                  : "the command has no -o");
    if (command->output != NULL && strcmp(command->output, "-") != 0 &&
        strcmp(command->output, command->files[0]) == 0)
        return not_understood("the file behind -o is the one that is read");
    if (command->json && !reports)
        return not_understood("--json is for report alone");
    return DONE;
}

int main(int count, char **arguments)
{
    struct command command = {0};
    int status, i;
    if (count == 2 && strcmp(arguments[1], "--help") == 0) {
        fputs(help, stdout);
        return printed();
    }
    if (count == 2 && strcmp(arguments[1], "--version") == 0) {
        printf("dlm %d, images of format %d\n", DULIMOVEN_VERSION,
               DULIMOVEN_FORMAT);
        return printed();
    }
    if (count < 2)
        return not_understood("there is no command");
    command.name = arguments[1];
    status = take_arguments(&command, count - 2, arguments + 2);
    if (status == DONE)
        status = check_arguments(&command);
    if (status != DONE)
        return status;
    for (i = 0; i < command.count; i++)
        if (run_file(&command, command.files[i]) != DONE)
            status = FAILED;
    return printed() == DONE ? status : FAILED;
}
