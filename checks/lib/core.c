/* A BPF program whose accesses to the structures of demo/ are relocated by their BTF, for
 * checks/bpf.sh. */
#define relocated __attribute__((preserve_access_index))
typedef unsigned int u32;
struct list_head { struct list_head *next, *prev; } relocated;
struct registry { long long count; struct list_head entries; int grid[3][4]; } relocated;
struct packet { u32 sequence; struct packet *reply; } relocated;
static long (*probe_read)(void *, u32, const void *) = (void *)4;
__attribute__((section("kprobe/registry_size"), used)) int at(void *ctx)
{
	struct registry *r = ctx; struct packet *p = ctx;
	long long count; int cell; u32 seq;
	probe_read(&count, sizeof count, &r->count);
	probe_read(&cell, sizeof cell, &r->grid[1][2]);
	probe_read(&seq, sizeof seq, &p->sequence);
	return count + cell + seq;
}
char terms[] __attribute__((section("license"), used)) = "GPL";
