/* A small program with most of what C has for types: what `make demo` encodes. */
#ifndef REGISTRY_H
#define REGISTRY_H

#include <stddef.h>
#include <stdint.h>

/* declared here, defined in registry.c alone */
struct store;

struct list_head {
	struct list_head *next, *prev;
};

enum state { LOST = -1, READY, BUSY, DONE };

enum wide { FIRST = 1, LAST = 0x7fffffffffffffffLL };

typedef int (*compare_fn)(const void *left, const void *right);
typedef void (*report_fn)(const char *format, ...);

/* a structure without a tag */
typedef struct {
	float x, y;
	double weight;
	long double exact;
} point;

union word {
	uint64_t whole;
	uint32_t halves[2];
	struct {
		uint16_t low;
		uint16_t high;
		uint32_t rest;
	};
};

struct packet {
	uint8_t kind : 3;
	uint8_t last : 1;
	uint32_t sequence;
	union {
		point at;
		union word raw;
	};
	struct packet *reply;
	char payload[];
};

struct registry {
	char tag;
	long long count;
	struct list_head entries;
	struct store *store;
	enum state state;
	enum wide bound;
	compare_fn compare;
	report_fn report;
	const volatile uint32_t *restrict mapped;
	_Atomic int users;
#ifdef __SIZEOF_INT128__
	unsigned __int128 digest;
#else
	unsigned long long digest[2];
#endif
	int grid[3][4];
	_Bool ready : 1;
	unsigned level : 5;
	signed delta : 10;
};

struct store *store_of(struct registry *registry);
int registry_size(const struct registry *registry);

#endif
