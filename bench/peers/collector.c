/* A plain collector, to stand beside a collection of `melt step`.

       collector OBJECTS REFS NUMS ROUNDS

   A heap is filled with a list of so many objects: the first slot of each refers to the object before it, and a global
   holds the newest. The list is collected so many times, from one space to the other, in the order of C. J. Cheney, "A
   Nonrecursive List Compacting Algorithm", Communications of the ACM 13 (1970). The second space is new memory at the
   first collection, as in `melt step`.

   The words are those of Melt, and what a collection makes of them too. A header is odd: its lowest byte is 1, or 3 where
   the object is marked, and after it stand the numbers of slots and of number words. The word after the header is that
   of the home, here 0. A reference is four times the number of the word where its object begins, numbered from 1, and a
   tag: 0, or 1 where it is marked; with the tag 3 it would be to a file, and 0 is none. A collection marks all objects, as no
   register holds one here, and all references. A reference to the copy, with the tag 0, takes the place of an old header.

   Written are the seconds of one collection, by the time of the processor, how many words were reached by the last, and
   a sum over all objects of the list, in its order. The sum has to be the one from before the collections. */
#include <inttypes.h>
#include <stddef.h>
#include <stdio.h>
#include <stdlib.h>
#include <string.h>
#include <time.h>

enum { HEAD = 2, MARK = 2, TAG = 3, MARKED = 1, FILED = 3 };

typedef uint64_t word;

static word *words; /* the space in use */
static word *end;   /* its first word that is not taken */
static word *other; /* the space to which the next collection copies, or NULL before the first one */
static size_t size;
static word global;

static double now(void) {
    struct timespec t;
    clock_gettime(CLOCK_PROCESS_CPUTIME_ID, &t);
    return (double)t.tv_sec + (double)t.tv_nsec / 1e9;
}

static inline size_t refs_of(word header) { return header >> 8 & 255; }

static inline size_t cost_of(word header) { return HEAD + refs_of(header) + (header >> 16); }

/* A clean reference to an object. */
static inline word reference_to(const word *object) { return (word)(object - words + 1) << 2; }

/* A space of all words, of which no page is touched. */
static word *new_space(void) {
    word *space = malloc(size * sizeof(word));
    if (space == NULL) abort();
    return space;
}

static void fill(size_t objects, size_t refs, size_t nums) {
    word header = 1 | (word)refs << 8 | (word)nums << 16;
    size = objects * cost_of(header);
    words = end = new_space();
    for (size_t k = 0; k < objects; k++) {
        word *object = end;
        memset(object, 0, cost_of(header) * sizeof(word));
        object[0] = header;
        object[HEAD] = global;
        for (size_t j = 0; j < nums; j++) object[HEAD + refs + j] = k + j;
        global = reference_to(object);
        end += cost_of(header);
    }
}

/* The word of a reference after the collection: that to the copy of its object, which is made now if there was none. */
static inline word moved(word reference) {
    if (reference == 0 || (reference & TAG) == FILED) return reference;
    word *object = other + (reference >> 2) - 1;
    word header = object[0];
    if (header % 2 == 0) return header | MARKED;
    word *copy = end;
    end += cost_of(header);
    memcpy(copy, object, cost_of(header) * sizeof(word));
    return (object[0] = reference_to(copy)) | MARKED;
}

static void collect(void) {
    word *old = words;
    words = end = other != NULL ? other : new_space();
    other = old;
    global = moved(global);
    for (word *object = words; object < end; object += cost_of(object[0])) {
        object[0] |= MARK;
        word *after = object + HEAD + refs_of(object[0]);
        for (word *slot = object + HEAD; slot < after; slot++) *slot = moved(*slot);
    }
}

/* A sum of all words of the list but its references and marks, which depends on their order. */
static uint64_t checksum(void) {
    uint64_t sum = 0;
    for (word reference = global; reference != 0;) {
        const word *object = words + (reference >> 2) - 1;
        sum = (sum ^ (object[0] & ~(word)MARK)) * 0x100000001b3 + object[1];
        for (size_t j = HEAD + refs_of(object[0]); j < cost_of(object[0]); j++) sum = sum * 31 + object[j];
        reference = object[HEAD];
    }
    return sum;
}

int main(int count, char **arguments) {
    if (count != 5) return 2;
    size_t objects = strtoull(arguments[1], NULL, 10), refs = strtoull(arguments[2], NULL, 10);
    size_t nums = strtoull(arguments[3], NULL, 10), rounds = strtoull(arguments[4], NULL, 10);
    if (objects < 1 || refs < 1 || refs > 62 || nums > 62 || rounds < 1) return 2;
    fill(objects, refs, nums);
    uint64_t sum = checksum();
    double begun = now();
    for (size_t k = 0; k < rounds; k++) collect();
    double took = now() - begun;
    if (checksum() != sum) return 1;
    printf("%.9f %zu %" PRIu64 "\n", took / (double)rounds, (size_t)(end - words), sum);
    return 0;
}
