/* A mark that a forked child does not inherit.
 *
 * A process number does not reveal a fork: in another pid namespace, the child may have the same
 * number as its parent. Therefore the mark is in a page that the kernel fills with zeros in each
 * forked child.
 *
 * A child that shares its parent's memory, by vfork or by clone with CLONE_VM, shares the mark too.
 * Such a child counts as a thread of its parent: only one of them may use a context at a time. */
#ifndef FORK_MARK_H
#define FORK_MARK_H
#include <stdbool.h>

/* A mark that is initialized with zeros has no page. */
struct fork_mark {
    unsigned char *page;
};

/* Allocates the page. If the kernel is older than Linux 4.14, this is impossible, and
 * fork_mark_is_here always returns false. */
void fork_mark_begin(struct fork_mark *mark);
void fork_mark_end(struct fork_mark *mark);

/* Sets the mark in this process. */
/*@ assigns *mark->page; */
void fork_mark_set(struct fork_mark *mark);

/*@ assigns \nothing; */
/* Whether this process itself set the mark. Returns false if only a parent process did. */
bool fork_mark_is_here(const struct fork_mark *mark);

#endif
