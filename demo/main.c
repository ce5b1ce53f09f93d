#include "registry.h"

/* a name that another file may use for another type */
struct cursor {
	struct registry *registry;
	union word position;
};

static int by_kind(const void *left, const void *right)
{
	const struct packet *a = left, *b = right;

	return (int)a->kind - (int)b->kind;
}

int main(void)
{
	struct registry registry = { .state = READY, .bound = LAST, .compare = by_kind };
	struct cursor cursor = { .registry = &registry };

	registry.store = store_of(cursor.registry);
	return registry_size(&registry) == 0 ? 0 : 1;
}
