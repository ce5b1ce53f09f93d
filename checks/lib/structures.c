/* structures FILE: the structures and unions of a BTF file as libbpf reads it, a line for each that
 * has a name: its name, its size, then its members with a name as NAME=BIT:BITS, where BITS is 0
 * for one that is no bit field. */
#include <bpf/btf.h>
#include <bpf/libbpf.h>
#include <stdio.h>

static void show(const struct btf *btf, const struct btf_type *type)
{
	const struct btf_member *members = btf_members(type);
	unsigned i;

	printf("%s %u", btf__name_by_offset(btf, type->name_off), type->size);
	for (i = 0; i < btf_vlen(type); i++)
		if (members[i].name_off)
			printf(" %s=%u:%u", btf__name_by_offset(btf, members[i].name_off),
			       btf_member_bit_offset(type, i), btf_member_bitfield_size(type, i));
	putchar('\n');
}

int main(int count, char **words)
{
	struct btf *btf = count == 2 ? btf__parse(words[1], NULL) : NULL;
	unsigned id;

	if (!btf || libbpf_get_error(btf)) {
		fprintf(stderr, "btf__parse refuses it\n");
		return 1;
	}
	for (id = 1; id < btf__type_cnt(btf); id++) {
		const struct btf_type *type = btf__type_by_id(btf, id);

		if (btf_is_composite(type) && type->name_off)
			show(btf, type);
	}
	btf__free(btf);
	return 0;
}
