/* The heap of a program that tries refused growths, in the place of the kit's own: malloc and realloc, of which one
   growth can be refused. The program asks for that by growths_refuse and learns by growths_refused whether it was. */
#include <stdlib.h>

/* What a growth answers: whether there is a block, and where. */
struct block {
    unsigned long is_given;
    void *place;
};

static unsigned char nothing;

/* The number of the growth that is refused, counted from 1 (0: none), how many there were, how many were refused. */
static unsigned long chosen, counted, refused;

/* Whether growths are given and not counted. */
static unsigned long paused;

/* Refuses the k-th growth from here on (0: none). */
void growths_refuse(unsigned long k)
{
    chosen = k;
    paused = 0;
    counted = 0;
    refused = 0;
}

/* How many growths were refused since then, 0 or 1; from here on none is. */
unsigned long growths_refused(void)
{
    chosen = 0;
    return refused;
}

/* From here on growths are given and not counted, until this is called with 0. */
void growths_pause(unsigned long is_pause)
{
    paused = is_pause;
}

static int is_refused(void)
{
    if (paused)
        return 0;
    unsigned long number = __atomic_add_fetch(&counted, 1, __ATOMIC_SEQ_CST);
    if (chosen == 0 || number != chosen)
        return 0;
    refused = 1;
    return 1;
}

static struct block block_at(void *place)
{
    struct block none = {0, &nothing}, given = {1, place};
    return place ? given : none;
}

struct block rattle_alloc(unsigned long size, unsigned long alignment)
{
    return block_at(is_refused() ? NULL : malloc(size ? size : alignment));
}

struct block rattle_realloc(void *old, unsigned long before, unsigned long size, unsigned long alignment)
{
    (void)before;
    return block_at(is_refused() ? NULL : realloc(old, size ? size : alignment));
}

void rattle_dealloc(void *old)
{
    free(old);
}
