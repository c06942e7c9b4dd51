// The ends of the traffic: a sender, a sink, one that echoes and one that asks.
//
//     traffic send ADDRESS PORT BYTES SECONDS [RATE]
//                                                 datagrams of so many bytes, so many a second, or as fast as one call each
//                                                 can; prints how many
//     traffic sink PORT BYTES                     counts datagrams of so many bytes until two seconds without one
//                                                 pass; prints how many came, and within how many nanoseconds
//     traffic echo PORT                           sends each datagram back
//     traffic ask ADDRESS PORT BYTES COUNT        one question at a time; prints the median and the 99th hundredth of
//                                                 the round trips in nanoseconds, and how many weren't answered

#include <arpa/inet.h>
#include <poll.h>
#include <stdint.h>
#include <stdio.h>
#include <stdlib.h>
#include <string.h>
#include <sys/socket.h>
#include <time.h>
#include <unistd.h>

enum { OWN_PORT = 6000, ROOM = 4096, BUFFER = 8 << 20 };

static int64_t now(void)
{
    struct timespec moment;
    clock_gettime(CLOCK_MONOTONIC, &moment);
    return (int64_t)moment.tv_sec * 1000000000 + moment.tv_nsec;
}

static int udp(int own_port)
{
    int one = 1, room = BUFFER;
    struct sockaddr_in own = {.sin_family = AF_INET, .sin_port = htons(own_port)};
    int sock = socket(AF_INET, SOCK_DGRAM, 0);
    setsockopt(sock, SOL_SOCKET, SO_REUSEADDR, &one, sizeof one);
    setsockopt(sock, SOL_SOCKET, SO_RCVBUFFORCE, &room, sizeof room);
    if (bind(sock, (struct sockaddr *)&own, sizeof own) < 0) {
        perror("traffic");
        exit(1);
    }
    return sock;
}

static int connected(const char *address, const char *port)
{
    struct sockaddr_in other = {.sin_family = AF_INET, .sin_port = htons(atoi(port))};
    int sock = udp(OWN_PORT);
    if (inet_pton(AF_INET, address, &other.sin_addr) != 1 || connect(sock, (struct sockaddr *)&other, sizeof other) < 0)
        exit(2);
    return sock;
}

static int do_send(int sock, int bytes, double seconds, double rate)
{
    char text[ROOM] = {0};
    int64_t begun = now(), end = begun + (int64_t)(seconds * 1e9), tried = 0, sent = 0;
    for (int64_t moment = begun; moment < end; moment = now()) {
        int64_t due = rate > 0 ? (int64_t)((double)(moment - begun) * rate / 1e9) : tried + 64;
        for (; tried < due; tried++)
            sent += send(sock, text, bytes, 0) == bytes;
    }
    printf("%lld\n", (long long)sent);
    return 0;
}

static int do_sink(int sock, int bytes)
{
    char text[ROOM];
    int64_t first = 0, last = 0, count = 0;
    struct pollfd waited = {sock, POLLIN, 0};
    puts("ready");
    fflush(stdout);
    while (poll(&waited, 1, count == 0 ? 30000 : 2000) > 0)
        while (recv(sock, text, sizeof text, MSG_DONTWAIT) == bytes) {
            last = now();
            first = first == 0 ? last : first;
            count++;
        }
    printf("%lld %lld\n", (long long)count, (long long)(last - first));
    return 0;
}

static _Noreturn void do_echo(int sock)
{
    char text[ROOM];
    struct sockaddr_in from;
    puts("ready");
    fflush(stdout);
    for (;;) {
        socklen_t size = sizeof from;
        ssize_t length = recvfrom(sock, text, sizeof text, 0, (struct sockaddr *)&from, &size);
        if (length >= 0)
            sendto(sock, text, length, 0, (struct sockaddr *)&from, size);
    }
}

static int by_size(const void *one, const void *other)
{
    int64_t a = *(const int64_t *)one, b = *(const int64_t *)other;
    return (a > b) - (a < b);
}

static int do_ask(int sock, int bytes, int count)
{
    char text[ROOM] = {0}, answer[ROOM];
    int64_t *trips = calloc(count, sizeof *trips);
    int answered = 0, lost = 0;
    for (int number = 0; trips != NULL && number < count; number++) {
        struct pollfd waited = {sock, POLLIN, 0};
        int64_t begun = now();
        memcpy(text, &number, sizeof number);
        send(sock, text, bytes, 0);
        int found = 0;
        while (!found && poll(&waited, 1, 1000) > 0)
            found = recv(sock, answer, sizeof answer, 0) == bytes && memcmp(answer, &number, sizeof number) == 0;
        if (found)
            trips[answered++] = now() - begun;
        else
            lost++;
    }
    if (answered == 0)
        return 1;
    qsort(trips, answered, sizeof *trips, by_size);
    printf("%lld %lld %d\n", (long long)trips[answered / 2], (long long)trips[answered * 99 / 100], lost);
    return 0;
}

int main(int count, char **words)
{
    if ((count == 6 || count == 7) && strcmp(words[1], "send") == 0)
        return do_send(connected(words[2], words[3]), atoi(words[4]), atof(words[5]), count == 7 ? atof(words[6]) : 0);
    if (count == 4 && strcmp(words[1], "sink") == 0)
        return do_sink(udp(atoi(words[2])), atoi(words[3]));
    if (count == 3 && strcmp(words[1], "echo") == 0)
        do_echo(udp(atoi(words[2])));
    if (count == 6 && strcmp(words[1], "ask") == 0)
        return do_ask(connected(words[2], words[3]), atoi(words[4]), atoi(words[5]));
    return 2;
}
