/* Steps the wall clock of a program and makes its calls of sockets fail, where it is loaded before
 * the C library (LD_PRELOAD). Another process writes into the file that FAIL_CALLS names what is to
 * be: `struct control`, all of it 0 where nothing is.
 */
#define _GNU_SOURCE
#include <errno.h>
#include <fcntl.h>
#include <netinet/in.h>
#include <stdint.h>
#include <stdlib.h>
#include <sys/mman.h>
#include <sys/socket.h>
#include <sys/syscall.h>
#include <time.h>
#include <unistd.h>

struct control {
    int64_t step;          /* seconds by which the wall clock is ahead */
    int32_t accepts;       /* so many connections that come next are lost as they are accepted */
    int32_t accept_error;  /* with this error */
    int32_t port;          /* each receive at this port fails */
    int32_t receive_error; /* with this error, where it is not 0 */
};

static struct control none;
static volatile struct control *control = &none;

__attribute__((constructor)) static void open_control(void)
{
    const char *name = getenv("FAIL_CALLS");
    int fd = name ? open(name, O_RDWR | O_CLOEXEC) : -1;
    if (fd < 0)
        return;
    void *at = mmap(NULL, sizeof none, PROT_READ | PROT_WRITE, MAP_SHARED, fd, 0);
    if (at != MAP_FAILED)
        control = at;
    close(fd);
}

int clock_gettime(clockid_t clock, struct timespec *time)
{
    int status = (int)syscall(SYS_clock_gettime, clock, time);
    if (status == 0 && clock == CLOCK_REALTIME)
        time->tv_sec += control->step;
    return status;
}

int accept4(int fd, struct sockaddr *address, socklen_t *length, int flags)
{
    int made = (int)syscall(SYS_accept4, fd, address, length, flags);
    if (made >= 0 && control->accepts > 0) {
        control->accepts--;
        close(made);
        errno = control->accept_error;
        return -1;
    }
    return made;
}

static int port_of(int fd)
{
    struct sockaddr_in6 address;
    socklen_t length = sizeof address;
    if (getsockname(fd, (struct sockaddr *)&address, &length) != 0)
        return 0;
    return ntohs(address.sin6_port); /* that of an IPv4 address stands at the same place */
}

ssize_t recvfrom(int fd, void *room, size_t size, int flags, struct sockaddr *address,
                 socklen_t *length)
{
    if (control->receive_error != 0 && port_of(fd) == control->port) {
        errno = control->receive_error;
        return -1;
    }
    return syscall(SYS_recvfrom, fd, room, size, flags, address, length);
}
