#include "registry.h"

/* what `struct store` is, to this file alone */
struct store {
	struct registry *owner;
	struct packet *packets[8];
	size_t used;
};

static struct store only;

struct store *store_of(struct registry *registry)
{
	only.owner = registry;
	return registry->store ? registry->store : &only;
}

int registry_size(const struct registry *registry)
{
	return (int)registry->count + registry->grid[1][2];
}
