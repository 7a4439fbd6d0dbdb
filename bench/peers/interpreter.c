/* A plain interpreter of traces, to stand beside `melt step`: what one would write without proofs.

       interpreter WORDS < TRACE

   It reads a trace, runs it over a heap of so many words, and writes the replies; docs/TRACES.md has the language.
   Threads take turns by whole operations, and `order` lines are read and not used. So the replies are those of
   `melt step` where a trace has one thread, or threads that share nothing. An object takes one word less than there,
   and nothing moves to a disk: where what is reached leaves no room for an object, the program ends.

   The status is one of those of docs/FORMATS.md. Where it is not 0, a line on standard error says why. */
#define HEAD 1
#include "heap.h"

#include <stdbool.h>
#include <stdio.h>

enum { THREADS_MOST = 8, GLOBALS_MOST = 64, REGISTERS = 16, DEPTH = 4, FIELDS = 3, ORDERS_MOST = 65536 };
enum { USAGE = 1, BAD_TRACE = 2, READ_FAULT = 3, OUT_OF_HEAP = 5, WRITE_FAULT = 7 };
static const size_t LONGEST = 16777216; /* bytes of a trace */
static const uint64_t MOST = 1048576;   /* operations of a trace, with all blocks written out */

static size_t line_number; /* of the line that is read; 0 before the first and after the last one */

_Noreturn static void fail(int status, const char *why) {
    fprintf(stderr, "interpreter: line %zu: %s\n", line_number, why);
    exit(status);
}

/* Bytes that grow at their end. */

struct bytes {
    unsigned char *first;
    size_t length, room;
};

static void grow(struct bytes *bytes, size_t room) {
    while (bytes->room < room) bytes->room = bytes->room ? 2 * bytes->room : 65536;
    bytes->first = realloc(bytes->first, bytes->room);
    if (bytes->first == NULL) abort();
}

static inline void reserve(struct bytes *bytes, size_t more) {
    if (bytes->room - bytes->length < more) grow(bytes, bytes->length + more);
}

/* Puts a line with a number. */
static void put_number(struct bytes *bytes, uint64_t number) {
    unsigned char digits[21];
    int first = 20;
    digits[first] = '\n';
    do digits[--first] = (unsigned char)('0' + number % 10); while (number /= 10);
    reserve(bytes, sizeof digits);
    memcpy(bytes->first + bytes->length, digits + first, sizeof digits - (size_t)first);
    bytes->length += sizeof digits - (size_t)first;
}

/* What standard input has, or a front of it that is too long; a newline stands after it. */
static struct bytes read_all(void) {
    struct bytes bytes = {0};
    size_t got;
    do {
        reserve(&bytes, 65536);
        got = fread(bytes.first + bytes.length, 1, bytes.room - bytes.length - 1, stdin);
        bytes.length += got;
    } while (got > 0 && bytes.length <= LONGEST);
    if (ferror(stdin)) fail(READ_FAULT, "reading failed");
    bytes.first[bytes.length] = '\n';
    return bytes;
}

/* The language: what each line begins with, and which numbers stand after that. */

enum name {
    NEW, LOAD, STORE, GET, PUT, GLOAD, GSTORE, SAME, COPY, DROP, COLLECT, /* the operations */
    REPEAT, END, DONE, MELT, THREADS, GLOBALS, ORDER, THREAD, NAMES
};

enum kind { NONE, REGISTER, PARTS, INDEX, NUMBER, GLOBAL, TIMES, OWNER, VERSION, THREAD_COUNT, GLOBAL_COUNT, KINDS };

static struct range { uint64_t least, most; } ranges[KINDS] = {
    [REGISTER] = {0, REGISTERS - 1}, [PARTS] = {0, 62}, [INDEX] = {0, 63}, [NUMBER] = {0, UINT64_MAX},
    [TIMES] = {1, 1048576}, [VERSION] = {1, 1}, [THREAD_COUNT] = {1, THREADS_MOST}, [GLOBAL_COUNT] = {0, GLOBALS_MOST},
}; /* those of GLOBAL and OWNER are set by the head of the trace */

static const struct form {
    const char *text;
    uint8_t kinds[FIELDS + 1]; /* up to NONE */
} FORMS[NAMES] = {
    [NEW] = {"new", {REGISTER, PARTS, PARTS}}, [LOAD] = {"load", {REGISTER, REGISTER, INDEX}},
    [STORE] = {"store", {REGISTER, INDEX, REGISTER}}, [GET] = {"get", {REGISTER, INDEX}},
    [PUT] = {"put", {REGISTER, INDEX, NUMBER}}, [GLOAD] = {"gload", {REGISTER, GLOBAL}},
    [GSTORE] = {"gstore", {GLOBAL, REGISTER}}, [SAME] = {"same", {REGISTER, REGISTER}},
    [COPY] = {"copy", {REGISTER, REGISTER}}, [DROP] = {"drop", {REGISTER}}, [COLLECT] = {"collect", {NONE}},
    [REPEAT] = {"repeat", {TIMES}}, [END] = {"end", {NONE}}, [DONE] = {"done", {NONE}}, [MELT] = {"melt", {VERSION}},
    [THREADS] = {"threads", {THREAD_COUNT}}, [GLOBALS] = {"globals", {GLOBAL_COUNT}},
    [ORDER] = {"order", {OWNER, TIMES}}, [THREAD] = {"thread", {OWNER}},
};

static uint64_t keys[NAMES]; /* the bytes of each name as one number */

static void make_keys(void) {
    for (int name = 0; name < NAMES; name++)
        for (const char *at = FORMS[name].text; *at; at++) keys[name] = keys[name] << 8 | (unsigned char)*at;
}

/* Reading: a text is taken line by line. */

struct text {
    const unsigned char *at, *end; /* at the end stands a newline more */
};

struct line {
    enum name name;
    uint64_t fields[FIELDS];
};

_Noreturn static void refuse(const char *why) { fail(BAD_TRACE, why); }

static inline const unsigned char *skip_spaces(const unsigned char *at) {
    while (*at == ' ') at++;
    return at;
}

/* Goes to the first field of the next line that is not skipped; whether there is one. */
static inline bool find_line(struct text *text) {
    for (; text->at < text->end; text->at++) {
        line_number++;
        text->at = skip_spaces(text->at);
        if (*text->at == '#')
            while (*text->at >= ' ' && *text->at <= '~') text->at++;
        if (*text->at != '\n') return true;
    }
    line_number++;
    return false;
}

static inline enum name take_name(const unsigned char **at) {
    uint64_t key = 0;
    for (; **at > ' '; ++*at) key = key << 8 | **at;
    for (int name = 0; name < NAMES; name++)
        if (keys[name] == key) return (enum name)name;
    refuse("no word of the language");
}

static inline uint64_t take_number(const unsigned char **at, struct range range) {
    uint64_t number = 0;
    const unsigned char *first = skip_spaces(*at), *end = first;
    for (unsigned digit; (digit = *end - (unsigned)'0') <= 9; end++) number = number * 10 + digit;
    *at = end;
    ptrdiff_t digits = end - first;
    /* From 2^64 on, a number of 20 digits that begins with 1 was wrapped to one of fewer digits. */
    bool is_above = digits > 20 || (digits == 20 && (*first != '1' || number < 10000000000000000000u));
    if (digits == 0 || (digits > 1 && *first == '0') || is_above) refuse("no number");
    if (*end != ' ' && *end != '\n') refuse("no number");
    if (number < range.least || number > range.most) refuse("a number out of its range");
    return number;
}

/* Takes the next line that is not skipped. */
static struct line take_line(struct text *text) {
    if (!find_line(text)) refuse("the text ends before the last done");
    const unsigned char *at = text->at;
    struct line line = {.name = take_name(&at)};
    const uint8_t *kinds = FORMS[line.name].kinds;
    for (int k = 0; kinds[k] != NONE; k++) line.fields[k] = take_number(&at, ranges[kinds[k]]);
    at = skip_spaces(at);
    if (*at != '\n') refuse("a field too many");
    text->at = at + 1;
    return line;
}

/* Programs: the operations of all threads in one row, with the beginnings and the ends of blocks and a `done` each. */

struct operation {
    uint8_t name, a, b, c; /* the fields, but for large numbers */
    uint32_t begin;        /* of an `end`: the first operation of its block */
    uint64_t number;       /* of a `put`: what is put; of a `repeat`: how many rounds there are */
};

static struct {
    struct operation *first;
    size_t length, room;
} row;

static void add(struct operation operation) {
    if (row.length == row.room) {
        row.room = row.room ? 2 * row.room : 1024;
        row.first = realloc(row.first, row.room * sizeof *row.first);
        if (row.first == NULL) abort();
    }
    row.first[row.length++] = operation;
}

struct block {
    size_t begin;
    uint64_t rounds, count; /* and how many operations one round has */
};

/* The number, or one above the most operations. */
static uint64_t bounded(uint64_t number) { return number <= MOST ? number : MOST + 1; }

/* Takes the lines of a program up to its `done`. Answers how many operations it has, with all blocks written out. */
static uint64_t take_program(struct text *text) {
    struct block blocks[DEPTH + 1] = {{0}}, *block = blocks; /* the first stands for the whole program */
    for (;;) {
        struct line line = take_line(text);
        uint64_t *fields = line.fields;
        if (line.name > DONE) refuse("a line that may not stand in a program");
        struct operation operation = {.name = (uint8_t)line.name, .number = fields[0]};
        if (line.name == REPEAT) {
            if (block == blocks + DEPTH) refuse("a block inside four");
            *++block = (struct block){row.length + 1, fields[0], 0};
        } else if (line.name == END) {
            if (block == blocks || block->count == 0) refuse("no block with an operation ends here");
            operation.begin = (uint32_t)block->begin;
            block--;
            block->count = bounded(block->count + block[1].rounds * block[1].count);
        } else if (line.name == DONE) {
            if (block > blocks) refuse("a block is open");
        } else {
            operation.a = (uint8_t)fields[0], operation.b = (uint8_t)fields[1], operation.c = (uint8_t)fields[2];
            operation.number = fields[2];
            block->count = bounded(block->count + 1);
        }
        add(operation);
        if (line.name == DONE) return block->count;
    }
}

static uint64_t take_head(struct text *text, enum name name) {
    struct line line = take_line(text);
    if (line.name != name) refuse("a line that may not stand here");
    return line.fields[0];
}

/* Takes a whole trace. Answers how many threads it has, and where in the row the program of each begins. */
static size_t take_trace(struct text *text, size_t *begins) {
    take_head(text, MELT);
    size_t threads = take_head(text, THREADS), globals = take_head(text, GLOBALS), orders = 0;
    ranges[OWNER] = (struct range){0, threads - 1};
    ranges[GLOBAL] = globals ? (struct range){0, globals - 1} : (struct range){1, 0};
    struct line line = take_line(text);
    for (; line.name == ORDER; line = take_line(text))
        if (++orders > ORDERS_MOST) refuse("an order too many");
    uint64_t count = 0;
    for (size_t k = 0; k < threads; k++) {
        if (k > 0) line = take_line(text);
        if (line.name != THREAD || line.fields[0] != k) refuse("not the beginning of the next program");
        begins[k] = row.length;
        count = bounded(count + take_program(text));
        if (count > MOST) refuse("too many operations");
    }
    if (find_line(text)) refuse("a line after the last done");
    return threads;
}

/* Running: operations by threads, one after the other. */

struct thread {
    word registers[REGISTERS];
    const struct operation *next; /* or NULL at its end */
    uint64_t rounds[DEPTH];       /* that are left of each open block */
    size_t depth;
    struct bytes replies;
};

static struct heap heap;
static word globals[GLOBALS_MOST];
static struct thread threads[THREADS_MOST];

enum reply { OK, REF, NOTHING, NIL, OUT_OF_RANGE, YES, NO, WRITTEN /* a number, by then */ };

static const struct { char text[8]; size_t length; } REPLIES[] = {
    [OK] = {"ok\n", 3}, [REF] = {"ref\n", 4}, [NOTHING] = {"null\n", 5}, [NIL] = {"nil\n", 4},
    [OUT_OF_RANGE] = {"range\n", 6}, [YES] = {"yes\n", 4}, [NO] = {"no\n", 3}, [WRITTEN] = {"", 0},
};

static inline void put_reply(struct bytes *bytes, enum reply reply) {
    reserve(bytes, sizeof REPLIES->text);
    memcpy(bytes->first + bytes->length, REPLIES[reply].text, sizeof REPLIES->text);
    bytes->length += REPLIES[reply].length;
}

static enum reply collect(void) {
    turn_over(&heap);
    for (int t = 0; t < THREADS_MOST; t++)
        for (int r = 0; r < REGISTERS; r++) threads[t].registers[r] = moved(&heap, threads[t].registers[r]);
    for (int g = 0; g < GLOBALS_MOST; g++) globals[g] = moved(&heap, globals[g]);
    follow(&heap);
    return OK;
}

static inline enum reply make_object(word *r, size_t refs, size_t nums) {
    word header = header_of(refs, nums), *object = make(&heap, header);
    if (object == NULL) {
        collect();
        object = make(&heap, header);
        if (object == NULL) fail(OUT_OF_HEAP, "the heap has no room");
    }
    *r = (word)object;
    return OK;
}

static inline enum reply take(word *r, word reference) {
    *r = reference;
    return reference ? REF : NOTHING;
}

static inline enum reply load(word *r, word s, size_t i) {
    const word *object = (const word *)s;
    if (object == NULL) return NIL;
    if (i >= refs_of(object[0])) return OUT_OF_RANGE;
    return take(r, object[HEAD + i]);
}

static inline enum reply store(word s, size_t i, word r) {
    word *object = (word *)s;
    if (object == NULL) return NIL;
    if (i >= refs_of(object[0])) return OUT_OF_RANGE;
    object[HEAD + i] = r;
    return OK;
}

static inline enum reply get(struct bytes *replies, word s, size_t j) {
    const word *object = (const word *)s;
    if (object == NULL) return NIL;
    if (j >= nums_of(object[0])) return OUT_OF_RANGE;
    put_number(replies, object[HEAD + refs_of(object[0]) + j]);
    return WRITTEN;
}

static inline enum reply put(word s, size_t j, uint64_t number) {
    word *object = (word *)s;
    if (object == NULL) return NIL;
    if (j >= nums_of(object[0])) return OUT_OF_RANGE;
    object[HEAD + refs_of(object[0]) + j] = number;
    return OK;
}

/* Does so many operations of a thread, or fewer where it comes to its end. */
static void run(struct thread *thread, uint64_t turns) {
    word *r = thread->registers;
    const struct operation *next = thread->next;
    enum reply reply = OK;
    while (turns > 0) {
        const struct operation *o = next++;
        switch (o->name) {
        case REPEAT: thread->rounds[thread->depth++] = o->number; continue;
        case END:
            if (--thread->rounds[thread->depth - 1] > 0) next = row.first + o->begin;
            else thread->depth--;
            continue;
        case DONE:
            memset(r, 0, sizeof thread->registers);
            thread->next = NULL;
            return;
        case NEW: reply = make_object(&r[o->a], o->b, o->c); break;
        case LOAD: reply = load(&r[o->a], r[o->b], o->c); break;
        case STORE: reply = store(r[o->a], o->b, r[o->c]); break;
        case GET: reply = get(&thread->replies, r[o->a], o->b); break;
        case PUT: reply = put(r[o->a], o->b, o->number); break;
        case GLOAD: reply = take(&r[o->a], globals[o->b]); break;
        case GSTORE: globals[o->a] = r[o->b], reply = OK; break;
        case SAME: reply = r[o->a] == r[o->b] ? YES : NO; break;
        case COPY: r[o->a] = r[o->b], reply = OK; break;
        case DROP: r[o->a] = 0, reply = OK; break;
        case COLLECT: reply = collect(); break;
        }
        put_reply(&thread->replies, reply);
        turns--;
    }
    thread->next = next;
}

static void run_all(size_t count, const size_t *begins) {
    for (size_t k = 0; k < count; k++) threads[k].next = row.first + begins[k];
    for (size_t left = count; left > 1;)
        for (size_t k = 0; k < count; k++) {
            if (threads[k].next == NULL) continue;
            run(&threads[k], 1);
            left -= threads[k].next == NULL;
        }
    for (size_t k = 0; k < count; k++)
        if (threads[k].next != NULL) run(&threads[k], UINT64_MAX); /* the only one that is left */
}

static void write_all(size_t count) {
    for (size_t k = 0; k < count; k++) {
        printf("thread %zu\n", k);
        fwrite(threads[k].replies.first, 1, threads[k].replies.length, stdout);
        puts("end done");
    }
    if (fflush(stdout) || ferror(stdout)) fail(WRITE_FAULT, "writing failed");
}

int main(int count, char **words) {
    if (count != 2) fail(USAGE, "how many words has the heap?");
    struct bytes bytes = read_all();
    if (bytes.length > LONGEST) refuse("more bytes than a trace may have");
    struct text text = {bytes.first, bytes.first + bytes.length};
    size_t begins[THREADS_MOST];
    make_keys();
    size_t programs = take_trace(&text, begins);
    line_number = 0;
    free(bytes.first);
    heap = new_heap(strtoull(words[1], NULL, 10));
    run_all(programs, begins);
    write_all(programs);
    return 0;
}
