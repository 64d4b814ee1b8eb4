/* The job of birdelectrum in plain C, as a yardstick for its speed.
 *
 *     cc -O2 -o select select.c && ./select < INPUT
 *
 * The input is a rule text, a line end and an XML listing. One pass over the
 * listing keeps, for every open node, the rule nodes that fit at its closed
 * children and those that fit anywhere below it.
 */
#include <stdint.h>
#include <stdio.h>
#include <string.h>

enum {
    MAX_INPUT = 65536,
    MAX_TEXT = 1024,
    MAX_TESTS = 64,
    MAX_BRACKETS = 16,
    MAX_NAME = 32,
    MAX_OPEN = 128
};

struct fault {
    int number; /* 0 for none */
    size_t place;
};

static struct fault fault_at(int number, size_t place)
{
    struct fault f = { number, place };
    return f;
}

static const struct fault no_fault = { 0, 0 };

struct name {
    const unsigned char *bytes;
    size_t length;
};

static int is_white(int c)
{
    return c == ' ' || c == '\t' || c == '\n' || c == '\r';
}

static int is_name_start(int c)
{
    return (c >= 'a' && c <= 'z') || (c >= 'A' && c <= 'Z') || c == '_';
}

static int is_name_byte(int c)
{
    return is_name_start(c) || (c >= '0' && c <= '9') || c == '.' || c == '-';
}

static int same_name(struct name a, struct name b)
{
    return a.length == b.length && memcmp(a.bytes, b.bytes, a.length) == 0;
}

/* ---- rules ---- */

struct rule_node {
    int parent;
    int descendant; /* the edge to the parent; else a child edge */
    int any;
    struct name name;
};

struct rule {
    int count;
    struct rule_node nodes[MAX_TESTS];
};

enum token { END, SLASHES, SLASH, DOT, LEFT, RIGHT, STAR, NAME, STRAY };

struct text {
    const unsigned char *bytes;
    size_t length;
    enum token token; /* the current token, its place and its end */
    size_t place;
    size_t end;
    int brackets;
    struct rule *rule;
    struct fault fault;
};

static void advance(struct text *t)
{
    size_t at = t->end;

    while (at < t->length && is_white(t->bytes[at]))
        at++;
    t->place = at;
    if (at == t->length) {
        t->token = END;
        t->end = at;
        return;
    }
    t->end = at + 1;
    switch (t->bytes[at]) {
    case '/':
        if (at + 1 < t->length && t->bytes[at + 1] == '/') {
            t->token = SLASHES;
            t->end = at + 2;
        } else {
            t->token = SLASH;
        }
        return;
    case '.': t->token = DOT; return;
    case '[': t->token = LEFT; return;
    case ']': t->token = RIGHT; return;
    case '*': t->token = STAR; return;
    }
    if (!is_name_start(t->bytes[at])) {
        t->token = STRAY;
        return;
    }
    t->token = NAME;
    while (t->end < t->length && is_name_byte(t->bytes[t->end]))
        t->end++;
}

/* The readers below answer 1, or 0 with the fault set. */

static int refuse(struct text *t, int number)
{
    t->fault = fault_at(number, t->place);
    return 0;
}

static int expect(struct text *t, enum token token)
{
    if (t->token != token)
        return refuse(t, 11);
    advance(t);
    return 1;
}

static int read_path(struct text *t, int parent);

static int read_predicate(struct text *t, int parent)
{
    if (t->brackets == MAX_BRACKETS)
        return refuse(t, 14);
    t->brackets++;
    advance(t);
    if (!read_path(t, parent) || !expect(t, RIGHT))
        return 0;
    t->brackets--;
    return 1;
}

static int read_step(struct text *t, int parent, int descendant)
{
    struct rule_node *node;
    int number = t->rule->count;

    if (t->token != NAME && t->token != STAR)
        return refuse(t, 11);
    if (number == MAX_TESTS)
        return refuse(t, 13);
    if (t->token == NAME && t->end - t->place > MAX_NAME)
        return refuse(t, 12);
    node = &t->rule->nodes[number];
    node->parent = parent;
    node->descendant = descendant;
    node->any = t->token == STAR;
    node->name.bytes = t->bytes + t->place;
    node->name.length = t->end - t->place;
    t->rule->count++;
    advance(t);
    while (t->token == LEFT)
        if (!read_predicate(t, number))
            return 0;
    return 1;
}

static int read_path(struct text *t, int parent)
{
    int descendant = 0;
    int number;

    if (t->token == DOT) {
        advance(t);
        if (!expect(t, SLASHES))
            return 0;
        descendant = 1;
    }
    for (;;) {
        number = t->rule->count;
        if (!read_step(t, parent, descendant))
            return 0;
        if (t->token != SLASH && t->token != SLASHES)
            return 1;
        parent = number;
        descendant = t->token == SLASHES;
        advance(t);
    }
}

static struct fault read_rule(const unsigned char *bytes, size_t length,
                              struct rule *rule)
{
    struct text t = { bytes, length, END, 0, 0, 0, rule, { 0, 0 } };

    rule->count = 0;
    if (length < 1 || length > MAX_TEXT)
        return fault_at(10, 0);
    advance(&t);
    if (expect(&t, SLASHES) && read_step(&t, 0, 0))
        expect(&t, END);
    return t.fault;
}

/* ---- the run ---- */

struct level {
    struct name name;
    unsigned number;
    uint64_t met;   /* rule nodes whose test the node meets */
    uint64_t child; /* rule nodes that fit at a closed child */
    uint64_t below; /* rule nodes that fit at a closed node below */
};

struct run {
    const struct rule *rule;
    struct level levels[MAX_OPEN];
    int open;
    unsigned opened;
    unsigned reported;
};

static void open_node(struct run *run, struct name name)
{
    struct level *level = &run->levels[run->open++];
    int x;

    level->name = name;
    level->number = run->opened++;
    level->met = 0;
    level->child = 0;
    level->below = 0;
    for (x = 0; x < run->rule->count; x++) {
        const struct rule_node *node = &run->rule->nodes[x];
        if (node->any || same_name(node->name, name))
            level->met |= (uint64_t)1 << x;
    }
}

static void close_node(struct run *run)
{
    struct level *level = &run->levels[--run->open];
    uint64_t fits = level->met;
    int x;

    for (x = 1; x < run->rule->count; x++) {
        const struct rule_node *node = &run->rule->nodes[x];
        uint64_t placed = node->descendant ? level->below : level->child;
        if (!(placed >> x & 1))
            fits &= ~((uint64_t)1 << node->parent);
    }
    if (fits & 1) {
        printf("%u\n", level->number);
        run->reported++;
    }
    if (run->open > 0) {
        struct level *upper = &run->levels[run->open - 1];
        upper->child |= fits;
        upper->below |= fits | level->below;
    }
}

/* ---- listings ---- */

static size_t name_end(const unsigned char *s, size_t length, size_t at)
{
    while (at < length && is_name_byte(s[at]))
        at++;
    return at;
}

/* Each reader starts at a `<` and moves *at behind its markup. */

static struct fault read_comment(const unsigned char *s, size_t length,
                                 size_t *at)
{
    size_t p = *at;

    if (length - p < 4 || memcmp(s + p, "<!--", 4) != 0)
        return fault_at(34, p);
    for (p += 4; p + 1 < length; p++) {
        if (s[p] == '-' && s[p + 1] == '-') {
            if (p + 2 == length)
                break;
            if (s[p + 2] != '>')
                return fault_at(30, p + 2);
            *at = p + 3;
            return no_fault;
        }
    }
    return fault_at(31, length);
}

static struct fault read_instruction(const unsigned char *s, size_t length,
                                     size_t *at)
{
    size_t p;

    for (p = *at + 2; p + 1 < length; p++) {
        if (s[p] == '?' && s[p + 1] == '>') {
            *at = p + 2;
            return no_fault;
        }
    }
    return fault_at(31, length);
}

static struct fault read_end_tag(const unsigned char *s, size_t length,
                                 size_t *at, struct run *run)
{
    struct name name;
    size_t start = *at + 2;
    size_t p;

    if (start == length)
        return fault_at(31, length);
    if (!is_name_start(s[start]))
        return fault_at(30, start);
    p = name_end(s, length, start);
    name.bytes = s + start;
    name.length = p - start;
    if (name.length > MAX_NAME)
        return fault_at(32, start);
    if (run->open == 0 || !same_name(run->levels[run->open - 1].name, name))
        return fault_at(33, start);
    while (p < length && is_white(s[p]))
        p++;
    if (p == length)
        return fault_at(31, length);
    if (s[p] != '>')
        return fault_at(30, p);
    close_node(run);
    *at = p + 1;
    return no_fault;
}

static struct fault read_start_tag(const unsigned char *s, size_t length,
                                   size_t *at, struct run *run)
{
    struct name name;
    size_t start = *at + 1;
    size_t p;

    if (run->open == 0 && run->opened > 0)
        return fault_at(30, *at);
    if (run->open == MAX_OPEN)
        return fault_at(35, *at);
    p = name_end(s, length, start);
    name.bytes = s + start;
    name.length = p - start;
    if (name.length > MAX_NAME)
        return fault_at(32, start);
    if (p == length)
        return fault_at(31, length);
    if (s[p] == '/') {
        if (p + 1 == length)
            return fault_at(31, length);
        if (s[p + 1] != '>')
            return fault_at(30, p + 1);
        p++;
    } else if (is_white(s[p])) {
        while (p < length && s[p] != '>' && s[p] != '<')
            p++;
        if (p == length)
            return fault_at(31, length);
        if (s[p] == '<')
            return fault_at(30, p);
    } else if (s[p] != '>') {
        return fault_at(30, p);
    }
    open_node(run, name);
    if (s[p - 1] == '/')
        close_node(run);
    *at = p + 1;
    return no_fault;
}

static struct fault read_listing(const unsigned char *s, size_t length,
                                 struct run *run)
{
    size_t at = 0;

    while (at < length) {
        struct fault fault = no_fault;
        if (s[at] != '<') {
            if (run->open == 0 && !is_white(s[at]))
                return fault_at(30, at);
            at++;
            continue;
        }
        if (at + 1 == length)
            return fault_at(31, length);
        if (s[at + 1] == '/')
            fault = read_end_tag(s, length, &at, run);
        else if (s[at + 1] == '!')
            fault = read_comment(s, length, &at);
        else if (s[at + 1] == '?')
            fault = read_instruction(s, length, &at);
        else if (is_name_start(s[at + 1]))
            fault = read_start_tag(s, length, &at, run);
        else
            return fault_at(30, at + 1);
        if (fault.number != 0)
            return fault;
    }
    if (run->open > 0 || run->opened == 0)
        return fault_at(31, length);
    return no_fault;
}

static int refused(struct fault fault)
{
    printf("refused %d at %zu\n", fault.number, fault.place);
    return 0;
}

int main(void)
{
    static unsigned char input[MAX_INPUT + 1];
    static struct rule rule;
    static struct run run;
    const unsigned char *line_end, *listing;
    size_t length, text_length;
    struct fault fault;

    length = fread(input, 1, sizeof input, stdin);
    if (length > MAX_INPUT)
        return refused(fault_at(50, MAX_INPUT));
    line_end = memchr(input, '\n', length);
    text_length = line_end ? (size_t)(line_end - input) : length;
    listing = line_end ? line_end + 1 : input + length;
    fault = read_rule(input, text_length, &rule);
    if (fault.number != 0)
        return refused(fault);
    run.rule = &rule;
    fault = read_listing(listing, (size_t)(input + length - listing), &run);
    if (fault.number != 0)
        return refused(fault);
    printf("selected %u\n", run.reported);
    return 0;
}
