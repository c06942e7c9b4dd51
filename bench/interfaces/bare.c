// A bare forwarder, to measure natpair beside: what comes from one side goes to the other with new MAC addresses, and
// nothing is looked up. Its sockets are the launcher's, as the gate's are; it waits by epoll, reads a socket until it is
// empty, and writes each frame by one call.
//
//     bare VIRTUAL-INSIDE HOST VIRTUAL-OUTSIDE ROUTER ..      four MAC addresses; further words are passed over

#include <errno.h>
#include <fcntl.h>
#include <stdio.h>
#include <string.h>
#include <sys/epoll.h>
#include <unistd.h>

enum { INSIDE = 3, OUTSIDE = 4, ROOM = 4096, MAC = 6 };

static int read_mac(const char *text, unsigned char *mac)
{
    return sscanf(text, "%hhx:%hhx:%hhx:%hhx:%hhx:%hhx", mac, mac + 1, mac + 2, mac + 3, mac + 4, mac + 5) == MAC;
}

int main(int count, char **words)
{
    static unsigned char frame[ROOM];
    unsigned char mac[4][MAC];
    if (count < 5)
        return 2;
    for (int number = 0; number < 4; number++)
        if (!read_mac(words[1 + number], mac[number]))
            return 2;
    int table = epoll_create1(0);
    for (int side = INSIDE; side <= OUTSIDE; side++) {
        struct epoll_event event = {.events = EPOLLIN | EPOLLET, .data.fd = side};
        fcntl(side, F_SETFL, O_NONBLOCK);
        epoll_ctl(table, EPOLL_CTL_ADD, side, &event);
    }
    puts("ready");
    fflush(stdout);
    for (;;) {
        struct epoll_event events[2];
        int found = epoll_wait(table, events, 2, -1);
        for (int number = 0; number < found; number++) {
            int from = events[number].data.fd, to = INSIDE + OUTSIDE - from;
            const unsigned char *own = mac[from == INSIDE ? 0 : 2];
            const unsigned char *source = mac[from == INSIDE ? 2 : 0], *target = mac[from == INSIDE ? 3 : 1];
            ssize_t length;
            while ((length = read(from, frame, sizeof frame)) > 0) {
                if (length < 14 || memcmp(frame, own, MAC) != 0)
                    continue;
                memcpy(frame, target, MAC);
                memcpy(frame + MAC, source, MAC);
                if (write(to, frame, length) < 0 && errno != EAGAIN && errno != ENOBUFS)
                    perror("bare");
            }
        }
    }
}
