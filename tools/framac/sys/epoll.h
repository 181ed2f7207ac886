/* What server.c needs of the system's header of this name, which Frama-C does not have. */
#ifndef SYS_EPOLL_H
#define SYS_EPOLL_H
#include <signal.h>
#include <stdint.h>

enum { EPOLLIN = 1, EPOLLOUT = 4, EPOLL_CLOEXEC = 02000000 };
enum { EPOLL_CTL_ADD = 1, EPOLL_CTL_DEL, EPOLL_CTL_MOD };
struct epoll_event {
    uint32_t events;
    union {
        void *ptr;
    } data;
};

int epoll_create1(int flags);
/*@ requires \valid_read(event) && \initialized(&event->data.ptr); */
int epoll_ctl(int epoll, int how, int socket, struct epoll_event *event);
/*@ requires \valid(events + (0 .. most - 1)) && \valid_read(mask) && \initialized(mask); */
int epoll_pwait(int epoll, struct epoll_event *events, int most, int milliseconds, const sigset_t *mask);
#endif
