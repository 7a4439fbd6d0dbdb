/* A heap of words: objects are made one after the other, and a collection copies what is reached into a second space,
   in the order of C. J. Cheney, "A Nonrecursive List Compacting Algorithm", Communications of the ACM 13 (1970).

   An object has HEAD words, then its slots, and then its number words; who includes this says how many HEAD is. The
   first word is the header, which is odd. Once the object was copied, its new address stands there, which is even. A
   slot holds the address of an object, or 0. */
#include <stddef.h>
#include <stdint.h>
#include <stdlib.h>
#include <string.h>

typedef uint64_t word;

struct heap {
    word *words, *free, *end; /* the space in use, its first word that is not taken, and its end */
    word *other;              /* the space to which the next collection copies, or NULL before the first one */
};

static inline word header_of(size_t refs, size_t nums) { return 1 | (word)refs << 8 | (word)nums << 16; }

static inline size_t refs_of(word header) { return header >> 8 & 255; }

static inline size_t nums_of(word header) { return header >> 16; }

static inline size_t cost_of(word header) { return HEAD + refs_of(header) + nums_of(header); }

/* A space of so many words, of which no page is touched. */
static word *new_space(size_t size) {
    word *words = malloc(size * sizeof(word));
    if (words == NULL) abort();
    return words;
}

static struct heap new_heap(size_t size) {
    word *words = new_space(size);
    return (struct heap){.words = words, .free = words, .end = words + size};
}

/* A new object of this header, or NULL where there is no room. */
static inline word *make(struct heap *heap, word header) {
    size_t cost = cost_of(header);
    word *object = heap->free;
    if ((size_t)(heap->end - object) < cost) return NULL;
    heap->free += cost;
    object[0] = header;
    memset(object + 1, 0, (cost - 1) * sizeof(word));
    return object;
}

/* Begins a collection: from here on objects are copied to the other space. */
static void turn_over(struct heap *heap) {
    size_t size = (size_t)(heap->end - heap->words);
    word *old = heap->words;
    heap->words = heap->other != NULL ? heap->other : new_space(size);
    heap->free = heap->words;
    heap->end = heap->words + size;
    heap->other = old;
}

/* The new address of an object, which is copied now if it was not found before. */
static inline word moved(struct heap *heap, word reference) {
    word *object = (word *)reference;
    if (object == NULL) return 0;
    word header = object[0];
    if (header % 2 == 0) return header;
    size_t cost = cost_of(header);
    word *copy = heap->free;
    heap->free += cost;
    memcpy(copy, object, cost * sizeof(word));
    return object[0] = (word)copy;
}

/* Ends a collection: what the copied objects refer to is copied too. */
static inline void follow(struct heap *heap) {
    for (word *object = heap->words; object < heap->free; object += cost_of(object[0])) {
        word *end = object + HEAD + refs_of(object[0]);
        for (word *slot = object + HEAD; slot < end; slot++) *slot = moved(heap, *slot);
    }
}
