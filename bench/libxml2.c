/*
 * The same work by libxml2, for comparison: makes its automaton of a procedure and pushes a run through it.
 *
 *     libxml2 compile FILE RUN REPEATS    makes the automaton so often, with its test for determinism
 *     libxml2 push FILE RUN REPEATS       makes it once and pushes the whole run so often
 *     libxml2 version                     prints the version
 *
 * The automaton is made by the calls that libxml2's own schema code (xmlschemas.c) makes for an element, a
 * sequence and a choice with their bounds. Its test is for one transition a name, and weaker than ours.
 */
#include <libxml/xmlregexp.h>
#include <libxml/xmlautomata.h>

#include <stdio.h>
#include <stdlib.h>
#include <string.h>

#include "input.h"

#define UNBOUNDED (1 << 30)

enum { CODES = 128 };

enum kind { EMPTY, EVENT, CHOICE, SEQUENCE, REPEAT };

struct bounds {
    int lower, upper;
};

struct node {
    enum kind kind;
    int code, left, right; /* left is also a repeat's body */
    struct bounds bounds;
};

struct build {
    xmlAutomataPtr automaton;
    xmlAutomataStatePtr at;
};

static struct node nodes[512];
static int node_count;
static char names[CODES][8];

static void require(int holds, const char *what)
{
    if (!holds) {
        fprintf(stderr, "libxml2: %s\n", what);
        exit(2);
    }
}

static int field(const unsigned char *at)
{
    return at[0] | at[1] << 8;
}

/* The file is one that the benchmark made: no text, well-formed. */
static void decode(const struct input *file)
{
    node_count = (int)(file->length - 12) / 8;
    for (int i = 0; i < node_count; i++) {
        const unsigned char *record = file->bytes + 8 * i;
        int upper = field(record + 6) == 65535 ? UNBOUNDED : field(record + 6);
        nodes[i] = (struct node){record[0], record[1], field(record + 2), field(record + 4),
                                 {field(record + 4), upper}};
    }
    for (int code = 0; code < CODES; code++)
        snprintf(names[code], sizeof names[code], "e%d", code);
}

static int one_less(int bound)
{
    return bound == UNBOUNDED ? UNBOUNDED : bound < 1 ? 0 : bound - 1;
}

static xmlAutomataStatePtr to_event(struct build *b, xmlAutomataStatePtr from, xmlAutomataStatePtr to, int code)
{
    return xmlAutomataNewTransition2(b->automaton, from, to, BAD_CAST names[code], NULL, NULL);
}

/* From here back to the start as long as the counter allows, and on once it is high enough. */
static void count_back(struct build *b, xmlAutomataStatePtr start, int counter)
{
    xmlAutomataNewCountedTrans(b->automaton, b->at, start, counter);
    b->at = xmlAutomataNewCounterTrans(b->automaton, b->at, NULL, counter);
}

static int add_event(struct build *b, int code, struct bounds bounds)
{
    xmlAutomataStatePtr start = b->at;
    if (bounds.upper == 1) {
        b->at = to_event(b, start, NULL, code);
    } else if (bounds.upper == UNBOUNDED && bounds.lower < 2) {
        b->at = to_event(b, start, NULL, code);
        b->at = to_event(b, b->at, b->at, code);
    } else {
        start = xmlAutomataNewEpsilon(b->automaton, b->at, NULL);
        int counter = xmlAutomataNewCounter(b->automaton, one_less(bounds.lower), one_less(bounds.upper));
        b->at = to_event(b, start, NULL, code);
        count_back(b, start, counter);
    }
    if (bounds.lower == 0)
        xmlAutomataNewEpsilon(b->automaton, start, b->at);
    return bounds.lower == 0;
}

static int add(struct build *b, int part);

static int add_endless(struct build *b, int body, struct bounds bounds)
{
    xmlAutomataStatePtr start = b->at = xmlAutomataNewEpsilon(b->automaton, b->at, NULL);
    int empty = add(b, body);
    xmlAutomataNewEpsilon(b->automaton, b->at, start);
    b->at = xmlAutomataNewEpsilon(b->automaton, b->at, NULL);
    if (bounds.lower == 0)
        xmlAutomataNewEpsilon(b->automaton, start, b->at);
    return empty || bounds.lower == 0;
}

static int add_counted(struct build *b, int body, struct bounds bounds)
{
    xmlAutomataStatePtr start = b->at = xmlAutomataNewEpsilon(b->automaton, b->at, NULL);
    int counter = xmlAutomataNewCounter(b->automaton, bounds.lower - 1,
                                        bounds.upper == UNBOUNDED ? UNBOUNDED : bounds.upper - 1);
    int empty = add(b, body) || bounds.lower == 0;
    count_back(b, start, counter);
    if (empty)
        xmlAutomataNewEpsilon(b->automaton, start, b->at);
    return empty;
}

static int add_at_most_once(struct build *b, int body, struct bounds bounds)
{
    xmlAutomataStatePtr start = b->at;
    int empty = add(b, body);
    b->at = xmlAutomataNewEpsilon(b->automaton, b->at, NULL);
    if (bounds.lower == 0)
        xmlAutomataNewEpsilon(b->automaton, start, b->at);
    return empty || bounds.lower == 0;
}

/*
 * A repeat over anything but an event is a sequence with bounds. Over a choice libxml2 also knows a choice with
 * bounds, but that costs it a counter and three times as much an event.
 */
static int add_repeat(struct build *b, int body, struct bounds bounds)
{
    if (nodes[body].kind == EVENT)
        return add_event(b, nodes[body].code, bounds);
    if (bounds.lower == 1 && bounds.upper == 1)
        return add(b, body);
    if (bounds.upper == UNBOUNDED && bounds.lower < 2)
        return add_endless(b, body, bounds);
    if (bounds.upper > 1)
        return add_counted(b, body, bounds);
    return add_at_most_once(b, body, bounds);
}

/* The alternatives of a choice, however it is grouped, each between the same two states. */
static int add_alternatives(struct build *b, int part, xmlAutomataStatePtr start, xmlAutomataStatePtr end)
{
    const struct node *n = &nodes[part];
    if (n->kind == CHOICE) {
        int left = add_alternatives(b, n->left, start, end);
        return add_alternatives(b, n->right, start, end) || left;
    }
    b->at = start;
    int empty = add(b, part);
    xmlAutomataNewEpsilon(b->automaton, b->at, end);
    return empty;
}

static int add_choice(struct build *b, int part)
{
    xmlAutomataStatePtr end = xmlAutomataNewState(b->automaton);
    int empty = add_alternatives(b, part, b->at, end);
    b->at = end;
    return empty;
}

static int add_sequence(struct build *b, int left, int right)
{
    int empty = add(b, left);
    return add(b, right) && empty;
}

/* Adds a part behind what is there, and gives whether it may be empty. */
static int add(struct build *b, int part)
{
    const struct node *n = &nodes[part];
    switch (n->kind) {
    case EVENT:
        return add_event(b, n->code, (struct bounds){1, 1});
    case CHOICE:
        return add_choice(b, part);
    case SEQUENCE:
        return add_sequence(b, n->left, n->right);
    case REPEAT:
        return add_repeat(b, n->left, n->bounds);
    default:
        return 1;
    }
}

static xmlRegexpPtr compile(void)
{
    struct build b = {xmlNewAutomata(), NULL};
    b.at = xmlAutomataGetInitState(b.automaton);
    add(&b, node_count - 1);
    xmlAutomataSetFinalState(b.automaton, b.at);
    xmlRegexpPtr compiled = xmlAutomataCompile(b.automaton);
    require(compiled != NULL, "the automaton does not compile");
    require(xmlRegexpIsDeterminist(compiled) == 1, "the automaton is not deterministic");
    xmlFreeAutomata(b.automaton);
    return compiled;
}

static void compile_often(int repeats)
{
    for (int i = 0; i < repeats; i++)
        xmlRegFreeRegexp(compile());
}

static void push_often(const struct input *run, int repeats)
{
    xmlRegexpPtr compiled = compile();
    for (int i = 0; i < repeats; i++) {
        xmlRegExecCtxtPtr exec = xmlRegNewExecCtxt(compiled, NULL, NULL);
        for (size_t at = 0; at < run->length; at++)
            require(xmlRegExecPushString(exec, BAD_CAST names[run->bytes[at]], NULL) >= 0, "the run breaks");
        require(xmlRegExecPushString(exec, NULL, NULL) == 1, "the run is not complete");
        xmlRegFreeExecCtxt(exec);
    }
    xmlRegFreeRegexp(compiled);
}

int main(int argc, char **argv)
{
    if (argc == 2 && strcmp(argv[1], "version") == 0) {
        puts(LIBXML_DOTTED_VERSION);
        return 0;
    }
    require(argc == 5, "libxml2 compile|push FILE RUN REPEATS");
    struct input file = read_input(argv[2]), run = read_input(argv[3]);
    int repeats = atoi(argv[4]);
    decode(&file);
    if (strcmp(argv[1], "compile") == 0)
        compile_often(repeats);
    else
        push_often(&run, repeats);
    return 0;
}
