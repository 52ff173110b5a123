/*
 * A bench station on a console: it loads a procedure, lights the keys that can come next, takes events as they
 * are typed, says at once how the run stands, and saves the record of a complete run.
 *
 *     station [--script FILE] PROCEDURE
 *
 * Commands are read line by line from standard input, or from a script, which is shown as it is read. Output is
 * plain ASCII. The exit status is 0 if all went well, 1 if something was refused or not understood or a complete run
 * was not saved, 2 if the station could not begin or go on, and 128 and a signal's number if that interrupted it.
 */
#include <stdio.h>
#include <stdlib.h>
#include <string.h>

#include "station/admission.h"
#include "station/interrupt.h"
#include "station/keys.h"
#include "station/lines.h"
#include "station/notation.h"
#include "station/opened.h"
#include "station/output.h"
#include "station/plain.h"
#include "station/procedure.h"
#include "station/record.h"
#include "station/run.h"
#include "station/stored.h"
#include "station/typed.h"

enum status { WELL = 0, REFUSED = 1, UNABLE = 2, BY_SIGNAL = 128 };

struct station {
    struct procedure procedure;
    struct keys keys;
    struct run run;
    enum status status;
    const struct command *asked; /* the command that was answered with a question, if it was the last, or NULL */
    int quits;
};

/* Something was refused or not understood: the station goes on and tells it by its exit status. */
static void refused(struct station *s)
{
    s->status = REFUSED;
}

/* Records. */

static uint8_t *written_record(struct station *s, uint64_t *length)
{
    const size_t room = SEQ_ITEM_BYTES * MOST_ITEMS_AN_EVENT * s->run.length + 1; /* also for no events some */
    uint8_t *space = malloc(room);
    uint32_t answer;
    if (space == NULL) {
        printf("Not saved: there is no memory for the record.\n");
        return NULL;
    }
    answer = seq_write(s->procedure.bytes, s->procedure.length, s->run.events, s->run.length, space, room, length);
    if (answer == SEQ_DONE)
        return space;
    if (answer == SEQ_RUN_INCOMPLETE) {
        printf("Not saved: the run is unfinished. ");
        print_lit(&s->procedure, &s->keys, &s->run);
    } else {
        printf("Not saved: %s.\n", seq_answer_words(answer));
    }
    free(space);
    return NULL;
}

static int is_checked(const struct station *s, const uint8_t *record, size_t length)
{
    uint32_t yes;
    return seq_check(s->procedure.bytes, s->procedure.length, record, length, &yes) == SEQ_DONE && yes == 1;
}

static void save_record(struct station *s, const char *path, const uint8_t *record, size_t length)
{
    if (!is_checked(s, record, length)) {
        printf("Not saved: the record does not pass its check.\n");
        refused(s);
    } else if (*path != '\0' && !store_record(path, record, length)) {
        refused(s);
    } else {
        if (*path != '\0')
            s->run.is_saved = 1;
        printf("Record of %zu bytes, checked", length);
        say_of(stdout, *path != '\0' ? ", saved in " : "", path, ":\n");
        print_record(&s->procedure, &s->keys, record, length);
        if (*path == '\0')
            printf("Type save FILE to keep it in a file.\n");
    }
}

/* The commands. */

static void save(struct station *s, const char *path)
{
    uint64_t length;
    if (s->run.verdict == SEQ_BROKEN) {
        printf("Not saved: the run is broken. Type new to begin anew.\n");
        refused(s);
        return;
    }
    uint8_t *record = written_record(s, &length);
    if (record == NULL)
        refused(s);
    else
        save_record(s, path, record, length);
    free(record);
}

static void check(struct station *s, const char *path)
{
    size_t length;
    uint8_t *record = load_record(path, &length);
    if (record == NULL) {
        refused(s);
    } else if (!is_checked(s, record, length)) {
        say_of(stdout, "No: ", path, " is no record of this procedure.\n");
        refused(s);
    } else {
        say_of(stdout, "Yes: ", path, " is a record of this procedure, ");
        printf("%zu bytes:\n", length);
        print_record(&s->procedure, &s->keys, record, length);
    }
    free(record);
}

static void keys(struct station *s, const char *nothing)
{
    (void)nothing;
    print_lit(&s->procedure, &s->keys, &s->run);
}

static void run(struct station *s, const char *nothing)
{
    (void)nothing;
    print_run(&s->keys, &s->run);
}

static void show(struct station *s, const char *nothing)
{
    (void)nothing;
    print_part(&s->procedure, node_count(&s->procedure) - 1);
    printf("\n");
}

static void begin(struct station *s, const char *nothing)
{
    (void)nothing;
    begin_run(&s->procedure, &s->run);
    printf("A new run: %s. ", verdict_name(s->run.verdict));
    print_lit(&s->procedure, &s->keys, &s->run);
}

static void quit(struct station *s, const char *nothing)
{
    (void)nothing;
    s->quits = 1;
}

static void help(struct station *s, const char *nothing);

enum argument { NONE, MAYBE, NEEDED };
enum effect { KEEPS_RUN, DROPS_RUN };

static const struct command {
    const char *name;
    enum argument argument;
    enum effect effect;
    void (*act)(struct station *s, const char *argument);
    const char *help;
} commands[] = {
    {"keys", NONE, KEEPS_RUN, keys, "keys         the keys that are lit: those that can come next"},
    {"run", NONE, KEEPS_RUN, run, "run          the events so far"},
    {"new", NONE, DROPS_RUN, begin, "new          begin a new run"},
    {"save", MAYBE, KEEPS_RUN, save,
     "save FILE    write, check and show the record of a complete run; FILE may be left out"},
    {"check", NEEDED, KEEPS_RUN, check, "check FILE   check and show a record that was saved"},
    {"show", NONE, KEEPS_RUN, show, "show         the procedure in its notation"},
    {"help", NONE, KEEPS_RUN, help, "help         this text"},
    {"quit", NONE, DROPS_RUN, quit, "quit         leave"},
};
enum { COMMANDS = sizeof commands / sizeof commands[0] };

static void help(struct station *s, const char *nothing)
{
    (void)s, (void)nothing;
    printf("11           the event with code 11 (e11 will do too), several with spaces between\n"
           "11*6         the same event six times\n");
    for (int i = 0; i < COMMANDS; i++)
        printf("%s\n", commands[i].help);
}

/* Events. */

/* Takes the events of a line in turn, up to the first that is not understood or breaks the run. */
static void take_events(struct station *s, char *word)
{
    unsigned code;
    size_t times;
    for (; word != NULL; word = strtok(NULL, " \t"))
        if (!read_event(word, &code, &times) || !take_key(&s->procedure, &s->keys, &s->run, code, times)) {
            refused(s);
            return;
        }
}

/* The console. */

/* A complete run that is in no file is dropped by a command that is said twice in a row, and not before. */
static int wants_asking(const struct station *s, const struct command *command)
{
    return command->effect == DROPS_RUN && is_unsaved(&s->run) && s->asked != command;
}

static void ask(struct station *s, const struct command *command)
{
    printf("The run is complete and not saved. Type save FILE to keep it, or %s again to drop it.\n", command->name);
    s->asked = command;
}

static void obey(struct station *s, const struct command *command, const char *argument, int more)
{
    if (command->argument == NEEDED && argument == NULL)
        printf("%s wants a FILE.\n", command->name);
    else if (command->argument == NONE && argument != NULL)
        printf("%s takes nothing behind it.\n", command->name);
    else if (more)
        printf("%s takes one FILE, without spaces in its name.\n", command->name);
    else if (wants_asking(s, command))
        ask(s, command);
    else {
        s->asked = NULL;
        command->act(s, argument == NULL ? "" : argument);
        return;
    }
    refused(s);
}

static const struct command *command_named(const char *word)
{
    for (int i = 0; i < COMMANDS; i++)
        if (strcmp(word, commands[i].name) == 0)
            return &commands[i];
    return NULL;
}

static void take_words(struct station *s, char *words)
{
    char *word = strtok(words, " \t");
    if (word == NULL || word[0] == '#')
        return;
    const struct command *command = command_named(word);
    if (command != s->asked)
        s->asked = NULL;
    if (command == NULL) {
        take_events(s, word);
        return;
    }
    const char *argument = strtok(NULL, " \t");
    obey(s, command, argument, argument != NULL && strtok(NULL, " \t") != NULL);
}

static void take_line(struct station *s, struct line *line)
{
    if (line->is_too_long)
        printf("The line is too long: at most %d characters are read.\n", MOST_LINE);
    else if (line->has_zero)
        printf("The line has a zero byte and is not read.\n");
    else {
        take_words(s, line->text);
        return;
    }
    s->asked = NULL;
    refused(s);
}

/* No command is obeyed whose answer could not be read: without an output the conversation ends. */
static enum input converse(struct station *s, struct lines *lines, int is_script)
{
    struct line line;
    while (!s->quits) {
        if (!is_script)
            printf("> ");
        if (!flush_output())
            break;
        const enum input input = read_line(lines, &line);
        if (input != LINE)
            return input;
        if (is_script) {
            printf("> ");
            print_plain(stdout, line.text, line.length);
            printf("\n");
        }
        take_line(s, &line);
    }
    return LINE;
}

/* Says why the conversation ended, where that was not by a command, and what is lost by it. */
static int ended(struct station *s, const struct lines *lines, enum input input, const char *script)
{
    int status = s->status;
    if (s->quits)
        return status;
    if (script == NULL)
        printf("\n");
    flush_output();
    if (interrupt() != 0) {
        fprintf(stderr, "station: interrupted\n");
        status = BY_SIGNAL + interrupt();
    } else if (input == INPUT_FAILED) {
        say_why(stderr, "station: cannot read ", script == NULL ? "standard input" : script, strerror(lines->error));
        status = UNABLE;
    }
    if (!is_unsaved(&s->run))
        return status;
    fprintf(stderr, "station: the run was complete and is not saved\n");
    return status == WELL ? REFUSED : status;
}

/* The beginning. */

static int usage(const char *why, const char *word)
{
    if (why != NULL)
        say_of(stderr, why, word, "\n");
    fprintf(why != NULL ? stderr : stdout,
            "usage: station [--script FILE] PROCEDURE\n"
            "  PROCEDURE      a procedure file, for example examples/procedures/zero.seqp\n"
            "  --script FILE  take the commands from FILE and show them\n"
            "The station reads a command a line; help lists them.\n");
    return why != NULL ? UNABLE : WELL;
}

static int work(const char *path, const char *script)
{
    static struct station s;
    static struct lines lines; /* from standard input, descriptor 0, or a script, which stays open up to the end */
    const char *why;
    if (script != NULL && (lines.from = open_file(script, &why)) < 0) {
        say_why(stderr, "station: cannot read ", script, why);
        return UNABLE;
    }
    if (!load_procedure(path, &s.procedure))
        return UNABLE;
    if (!is_admitted(&s.procedure, &s.keys, path))
        return REFUSED;
    begin(&s, "");
    const enum input input = converse(&s, &lines, script != NULL);
    return ended(&s, &lines, input, script);
}

static int take_arguments(int argc, char **argv)
{
    const char *path = NULL, *script = NULL;
    for (int i = 1; i < argc; i++) {
        if (strcmp(argv[i], "--help") == 0)
            return usage(NULL, "");
        if (strcmp(argv[i], "--script") == 0) {
            if (++i == argc)
                return usage("station: --script wants a FILE", "");
            script = argv[i];
        } else if (argv[i][0] == '-') {
            return usage("station: there is no option ", argv[i]);
        } else if (path != NULL) {
            return usage("station: one procedure is enough, and there is another: ", argv[i]);
        } else {
            path = argv[i];
        }
    }
    return path == NULL ? usage("station: which procedure?", "") : work(path, script);
}

int main(int argc, char **argv)
{
    if (!is_output_open())
        return UNABLE;
    heed_interrupts();
    const int status = take_arguments(argc, argv);
    return close_output() || status > UNABLE ? status : UNABLE;
}
