// A malloc that counts the requests for memory. As the program ends it prints how many bytes it had at the most, and in the
// last line the number of requests; with REFUSED in the environment it refuses the request of that number. For LD_PRELOAD:
// made and used by bench/gateway.py and bench/refusals.sh.
#define _GNU_SOURCE
#include <dlfcn.h>
#include <malloc.h>
#include <stdio.h>
#include <stdlib.h>
static unsigned long asked, refused, held, most;
static void *(*next_malloc)(size_t);
static void *(*next_realloc)(void *, size_t);
static void (*next_free)(void *);
static int is_refused(void) {
    asked++;
    return asked == refused;
}
static void *taken(void *memory) {
    held += memory ? malloc_usable_size(memory) : 0;
    most = held > most ? held : most;
    return memory;
}
__attribute__((constructor)) static void begin(void) {
    const char *number = getenv("REFUSED");
    next_malloc = dlsym(RTLD_NEXT, "malloc");
    next_realloc = dlsym(RTLD_NEXT, "realloc");
    next_free = dlsym(RTLD_NEXT, "free");
    asked = held = most = 0;
    refused = number ? strtoul(number, NULL, 10) : 0;
}
void *malloc(size_t size) {
    if (!next_malloc) next_malloc = dlsym(RTLD_NEXT, "malloc");
    return is_refused() ? NULL : taken(next_malloc(size));
}
void *realloc(void *memory, size_t size) {
    if (!next_realloc) next_realloc = dlsym(RTLD_NEXT, "realloc");
    if (is_refused()) return NULL;
    size_t before = memory ? malloc_usable_size(memory) : 0;
    void *after = next_realloc(memory, size);
    if (!after) return NULL;
    held -= before < held ? before : held;
    return taken(after);
}
void free(void *memory) {
    if (!next_free) next_free = dlsym(RTLD_NEXT, "free");
    size_t size = memory ? malloc_usable_size(memory) : 0;
    held -= size < held ? size : held;
    next_free(memory);
}
__attribute__((destructor)) static void tell(void) { fprintf(stderr, "%lu bytes\n%lu\n", most, asked); }
