/* functions of most forms, for checks/functions.sh. Types are written so that gcc and clang give
 * them one name. The BPF target has no functions with a variable number of arguments, and none that
 * take structures. */
struct node { struct node *next; int value; };
union either { int number; char letters[4]; };
enum mood { CALM, LOUD };
typedef unsigned int word;
typedef int (*compare_fn)(const struct node *left, const struct node *right);

volatile int kept;

int external_of_none(void) { return kept; }
void external_of_void(int number) { kept = number; }
word external_of_a_typedef(word first, char second) { return first + (word)second + (word)kept; }
struct node *external_of_a_pointer(struct node *node, compare_fn compare)
{
	return compare(node, node->next) ? node : node->next;
}
int external_of_an_enum(enum mood mood, union either *either)
{
	return (int)mood + either->number + kept;
}
int external_of_qualified(const int *restrict at, const char *const *names)
{
	return *at + names[0][0];
}
int external_of_arrays(int rows[4], char (*grid)[8], struct node nodes[])
{
	return rows[0] + grid[0][1] + nodes[2].value;
}
#ifndef __bpf__
int external_of_structures(struct node node, union either either)
{
	return node.value + either.number + kept;
}
int external_with_more(int count, ...) { return count + kept; }
#else
#define external_of_structures(node, either) 0
#define external_with_more(count, other) 0
#endif
static int internal_of_a_number(int number) { return number + kept; }
static void internal_of_a_structure(struct node *node) { kept = node->value; }
static int internal_as_an_argument(const struct node *left, const struct node *right)
{
	return left->value - right->value + kept;
}

int main(int count, char **words)
{
	struct node node = { &node, count };
	union either either = { kept };
	int rows[4] = { 1 };
	char grid[2][8] = { "a" };
	const char *names[] = { words[0] };

	internal_of_a_structure(external_of_a_pointer(&node, internal_as_an_argument));
	external_of_void(internal_of_a_number(external_of_none()));
	return (int)external_of_a_typedef(1, 'a') + external_of_an_enum(LOUD, &either) +
	       external_of_qualified(rows, names) + external_of_arrays(rows, grid, &node) +
	       external_of_structures(node, either) + external_with_more(1, 2);
}
