/*
 * What the compiled layer asks of memory: three functions over malloc, realloc and free.
 *
 * The compiler calls them by these names, for a block of `size` octets at a multiple of `align`, a power of two up to
 * 16 that divides the size. Each returns whether there is such a block and where it is. A size of 0 asks for `align`
 * octets, so that a block has an address of its own; where there is none the address is that of an octet, not NULL.
 *
 * bindings/archive compiles this file for each target, and puts it into the archive under names that no one else sees.
 */
typedef __SIZE_TYPE__ size_type;

extern void *malloc(size_type size);
extern void *realloc(void *at, size_type size);
extern void free(void *at);

struct tried {
    _Bool is_there;
    void *at;
};

static char nothing;

static struct tried tried(void *at) {
    struct tried answer = {at != 0, at ? at : &nothing};
    return answer;
}

struct tried rattle_alloc(size_type size, size_type align);
struct tried rattle_realloc(void *at, size_type kept, size_type size, size_type align);
void rattle_dealloc(void *at);

struct tried rattle_alloc(size_type size, size_type align) {
    return tried(malloc(size ? size : align));
}

/* The block moves with its octets, as many as it had or will have; `kept` of them count, and realloc keeps them all. */
struct tried rattle_realloc(void *at, size_type kept, size_type size, size_type align) {
    (void)kept;
    return tried(realloc(at, size ? size : align));
}

void rattle_dealloc(void *at) { free(at); }
