// natpair-launch: opens the sockets of a box's two interfaces, leaves a keeper of them behind, gives up every
// privilege, and becomes `natpair gate`.
//
//     natpair-launch --inside IF --outside IF [OPTION..] -- natpair gate SETTINGS ..
//
// README.md beside this file says what it does, in which order, and why.

#define _GNU_SOURCE
#include <arpa/inet.h>
#include <errno.h>
#include <fcntl.h>
#include <grp.h>
#include <limits.h>
#include <linux/capability.h>
#include <linux/filter.h>
#include <linux/if_packet.h>
#include <linux/netlink.h>
#include <linux/rtnetlink.h>
#include <net/ethernet.h>
#include <net/if.h>
#include <netinet/in.h>
#include <poll.h>
#include <pwd.h>
#include <signal.h>
#include <stdarg.h>
#include <stdbool.h>
#include <stddef.h>
#include <stdint.h>
#include <stdio.h>
#include <stdlib.h>
#include <string.h>
#include <sys/ioctl.h>
#include <sys/prctl.h>
#include <sys/signalfd.h>
#include <sys/socket.h>
#include <sys/syscall.h>
#include <sys/un.h>
#include <time.h>
#include <unistd.h>

#ifndef PACKET_IGNORE_OUTGOING
#define PACKET_IGNORE_OUTGOING 23
#endif
#ifndef SO_BINDTOIFINDEX
#define SO_BINDTOIFINDEX 62
#endif
#ifndef SYS_close_range
#define SYS_close_range 436
#endif

enum { INSIDE, OUTSIDE, SIDES };

static const char *const NAMES[SIDES] = {"inside", "outside"};

// The gate's descriptors: 3 and 4 for the sides, 5 for the link, 6 for the service manager, 7 for what ends it.
enum { FIRST = 3, LINK = FIRST + SIDES, MANAGER, STOP, ABOVE = 10 };

// The signals that end a box. Its gate resigns first.
static const int ENDING[] = {SIGTERM, SIGINT};
enum { ENDINGS = sizeof ENDING / sizeof ENDING[0] };

// The longest packet of the two networks, behind its Ethernet header a frame of 1,514 bytes.
enum { LONGEST_PACKET = 1500 };

// The room for frames that wait, in bytes, and a frame counts about twice its length. The kernel doubles the number.
enum { ROOM = 8 << 20, MOST_ROOM = INT_MAX / 2 };

// The link's datagrams leave with this TTL, which each router on the way makes less by one; and where the TTL stands in
// an IP header.
enum { MOST_HOPS = 255, TTL_PLACE = 8 };

// In place of the link's interface: the link's datagrams may come by each.
static const char *const ANY = "any";

// A cable that is out is told once it was out for so long; one that is in, at once. In milliseconds.
enum { HELD_BACK = 1000 };

// How long the keeper sleeps at most, and how soon it tries again where nobody heard it. In milliseconds.
enum { NAP = 1000, AGAIN = 100 };

// How long the gate may take to hear a word, in seconds, and to end once it was told to, in milliseconds.
enum { PATIENCE = 2, LAST_ROUND = 5000 };

struct options {
    const char *interface[SIDES];
    const char *link_ends;
    const char *link_interface;
    const char *boot_file;
    const char *user;
    int room;
    int hops;
    char **gate;
};

// The link's socket, and the number of the interface that it is bound to: 0 where it is bound to none.
struct link {
    int sock;
    int interface;
};

// One line on standard error, by one write, so that the lines of two programs don't mix. It never waits: where nobody
// reads, the line is left out.
__attribute__((format(printf, 1, 2))) static void say(const char *format, ...)
{
    char line[512];
    va_list words;
    va_start(words, format);
    int length = vsnprintf(line, sizeof line - 1, format, words);
    va_end(words);
    if (length < 0)
        return;
    if (length > (int)sizeof line - 2)
        length = sizeof line - 2;
    line[length] = '\n';
    struct pollfd output = {STDERR_FILENO, POLLOUT, 0};
    if (poll(&output, 1, 0) <= 0 || write(STDERR_FILENO, line, length + 1) < 0)
        return;
}

#define refuse(...) (say("natpair-launch: " __VA_ARGS__), exit(1))

static void usage(void)
{
    say("usage: natpair-launch --inside IF --outside IF [--boot-file FILE] [--user NAME] [--room BYTES]\n"
        "                      [--link-udp OWN:PORT,OTHER:PORT --link-interface IF|any [--link-hops N]]\n"
        "                      -- natpair gate SETTINGS ..");
    exit(2);
}

// Descriptors of whoever started it are none of the gate's.
static void close_inherited(void)
{
    if (syscall(SYS_close_range, FIRST, ~0U, 0) < 0)
        refuse("descriptors: %s", strerror(errno));
}

// Reads a number from 1 to `most`, of decimal digits alone, which ends at `end`.
static bool read_number(const char *text, const char *end, long most, long *found)
{
    char *rest = NULL;
    errno = 0;
    *found = strtol(text, &rest, 10);
    return *text >= '0' && *text <= '9' && rest == end && errno == 0 && *found >= 1 && *found <= most;
}

// The sockets

static int number_of(const char *interface)
{
    struct ifreq asked = {0};
    int any = socket(AF_INET, SOCK_DGRAM | SOCK_CLOEXEC, 0);
    strncpy(asked.ifr_name, interface, IFNAMSIZ - 1);
    int done = any < 0 ? -1 : ioctl(any, SIOCGIFINDEX, &asked);
    if (any >= 0)
        close(any);
    return done < 0 ? -1 : asked.ifr_ifindex;
}

// Takes only frames without a VLAN's number. The kernel takes a tag off before a packet socket sees the frame, which
// would then count as one of the interface's own network.
static int pass_own_network(int sock)
{
    struct sock_filter lines[] = {
        BPF_STMT(BPF_LD | BPF_B | BPF_ABS, (uint32_t)(SKF_AD_OFF + SKF_AD_VLAN_TAG_PRESENT)),
        BPF_JUMP(BPF_JMP | BPF_JEQ | BPF_K, 0, 3, 0),
        BPF_STMT(BPF_LD | BPF_H | BPF_ABS, (uint32_t)(SKF_AD_OFF + SKF_AD_VLAN_TAG)),
        BPF_STMT(BPF_ALU | BPF_AND | BPF_K, 0x0fff),
        BPF_JUMP(BPF_JMP | BPF_JEQ | BPF_K, 0, 0, 1),
        BPF_STMT(BPF_RET | BPF_K, 0x7fffffff),
        BPF_STMT(BPF_RET | BPF_K, 0),
    };
    struct sock_fprog filter = {sizeof lines / sizeof lines[0], lines};
    return setsockopt(sock, SOL_SOCKET, SO_ATTACH_FILTER, &filter, sizeof filter);
}

static int pass_nothing(int sock)
{
    struct sock_filter line = BPF_STMT(BPF_RET | BPF_K, 0);
    struct sock_fprog filter = {1, &line};
    return setsockopt(sock, SOL_SOCKET, SO_ATTACH_FILTER, &filter, sizeof filter);
}

static void make_room(int sock, const char *place, int room)
{
    int had = 0;
    socklen_t size = sizeof had;
    if (setsockopt(sock, SOL_SOCKET, SO_RCVBUFFORCE, &room, sizeof room) < 0)
        setsockopt(sock, SOL_SOCKET, SO_RCVBUF, &room, sizeof room);
    getsockopt(sock, SOL_SOCKET, SO_RCVBUF, &had, &size);
    // The kernel gives twice what was asked for, since it counts its own bookkeeping too.
    if (had / 2 < room)
        say("natpair-launch: %s: room for %d bytes and not %d: net.core.rmem_max is smaller", place, had / 2, room);
}

// Takes only what comes with the TTL of a sender that is so near. It takes the place of the filter that was there.
static int pass_near(int sock, int hops)
{
    struct sock_filter lines[] = {
        BPF_STMT(BPF_LD | BPF_B | BPF_ABS, (uint32_t)(SKF_NET_OFF + TTL_PLACE)),
        BPF_JUMP(BPF_JMP | BPF_JGE | BPF_K, (uint32_t)(MOST_HOPS + 1 - hops), 0, 1),
        BPF_STMT(BPF_RET | BPF_K, 0x7fffffff),
        BPF_STMT(BPF_RET | BPF_K, 0),
    };
    struct sock_fprog filter = {sizeof lines / sizeof lines[0], lines};
    return setsockopt(sock, SOL_SOCKET, SO_ATTACH_FILTER, &filter, sizeof filter);
}

// Makes a socket's descriptor one that none of the gate's can be.
static int out_of_the_way(int sock)
{
    int high = fcntl(sock, F_DUPFD_CLOEXEC, ABOVE);
    close(sock);
    return high;
}

// Binds a packet socket to an interface, for all frames that come to it. It needs no privilege.
static int bind_to(int sock, int interface)
{
    struct sockaddr_ll place = {
        .sll_family = AF_PACKET, .sll_protocol = htons(ETH_P_ALL), .sll_ifindex = interface};
    struct packet_mreq member = {.mr_ifindex = interface, .mr_type = PACKET_MR_PROMISC};
    if (setsockopt(sock, SOL_PACKET, PACKET_ADD_MEMBERSHIP, &member, sizeof member) < 0)
        return -1;
    return bind(sock, (struct sockaddr *)&place, sizeof place);
}

// Says where an interface takes fewer bytes than the longest frame has.
static void look_at_length(int sock, const char *side, const char *interface)
{
    struct ifreq asked = {0};
    strncpy(asked.ifr_name, interface, IFNAMSIZ - 1);
    if (ioctl(sock, SIOCGIFMTU, &asked) == 0 && asked.ifr_mtu < LONGEST_PACKET)
        say("natpair-launch: %s: %s has an MTU of %d and not %d: longer packets are lost there", side, interface,
            asked.ifr_mtu, LONGEST_PACKET);
}

static int open_side(const char *side, const char *interface, int room)
{
    int one = 1;
    int number = number_of(interface);
    if (number < 0)
        refuse("%s: no interface %s", side, interface);
    // Protocol 0: until it is bound, nothing comes. With another one frames of all interfaces would.
    int sock = socket(AF_PACKET, SOCK_RAW | SOCK_CLOEXEC, 0);
    if (sock < 0)
        refuse("%s: no packet socket: %s", side, strerror(errno));
    sock = out_of_the_way(sock);
    look_at_length(sock, side, interface);
    make_room(sock, side, room);
    // What this machine itself sends there isn't heard: a read can't tell it from what comes.
    if (setsockopt(sock, SOL_PACKET, PACKET_IGNORE_OUTGOING, &one, sizeof one) < 0 || pass_own_network(sock) < 0
        || bind_to(sock, number) < 0)
        refuse("%s: %s: %s", side, interface, strerror(errno));
    return sock;
}

// Reads ADDRESS:PORT, up to `end`.
static bool read_end(const char *text, const char *end, struct sockaddr_in *found)
{
    char address[INET_ADDRSTRLEN] = {0};
    long port = 0;
    const char *colon = memchr(text, ':', end - text);
    if (colon == NULL || colon - text >= INET_ADDRSTRLEN || !read_number(colon + 1, end, UINT16_MAX, &port))
        return false;
    memcpy(address, text, colon - text);
    found->sin_family = AF_INET;
    found->sin_port = htons((uint16_t)port);
    return inet_pton(AF_INET, address, &found->sin_addr) == 1;
}

// Binds the link's socket to an interface: by an address alone the kernel hands on what comes to it by any. Gives the
// interface's number, or 0 where any was said.
static int bind_link(int sock, const char *interface)
{
    int number = 0;
    socklen_t size = sizeof number;
    bool is_there = number_of(interface) >= 0;
    if (strcmp(interface, ANY) == 0) {
        if (is_there)
            refuse("link: an interface has the name %s, which stands for each", ANY);
        return 0;
    }
    if (!is_there)
        refuse("link: no interface %s", interface);
    if (setsockopt(sock, SOL_SOCKET, SO_BINDTODEVICE, interface, (socklen_t)strlen(interface) + 1) < 0
        || getsockopt(sock, SOL_SOCKET, SO_BINDTOIFINDEX, &number, &size) < 0 || number <= 0)
        refuse("link: %s: %s", interface, strerror(errno));
    return number;
}

// A connected UDP socket: the kernel hands on only what comes from the other end, and what came before it was
// connected is dropped. It has a filter at each moment: one that passes nothing, and then that of the TTL.
static struct link open_link(const struct options *options)
{
    struct sockaddr_in own = {0}, other = {0};
    const char *text = options->link_ends, *comma = strchr(text, ',');
    const int ttl = MOST_HOPS;
    if (comma == NULL || !read_end(text, comma, &own) || !read_end(comma + 1, text + strlen(text), &other))
        refuse("link: %s isn't OWN:PORT,OTHER:PORT", text);
    int sock = socket(AF_INET, SOCK_DGRAM | SOCK_CLOEXEC, 0);
    if (sock < 0)
        refuse("link: %s", strerror(errno));
    struct link link = {.sock = out_of_the_way(sock)};
    make_room(link.sock, "link", options->room);
    link.interface = bind_link(link.sock, options->link_interface);
    if (pass_nothing(link.sock) < 0 || setsockopt(link.sock, IPPROTO_IP, IP_TTL, &ttl, sizeof ttl) < 0
        || bind(link.sock, (struct sockaddr *)&own, sizeof own) < 0
        || connect(link.sock, (struct sockaddr *)&other, sizeof other) < 0 || pass_near(link.sock, options->hops) < 0)
        refuse("link: %s: %s", text, strerror(errno));
    return link;
}

// Where a service manager wants to be told: a path, or behind an @ a name of the abstract namespace. Gives the length
// of the address, or 0 for what is none.
static socklen_t manager_at(const char *text, struct sockaddr_un *place)
{
    size_t length = strlen(text);
    if ((text[0] != '/' && text[0] != '@') || length < 2 || length >= sizeof place->sun_path)
        return 0;
    place->sun_family = AF_UNIX;
    memcpy(place->sun_path, text, length);
    if (text[0] == '@')
        place->sun_path[0] = '\0';
    else
        length++;
    return (socklen_t)(offsetof(struct sockaddr_un, sun_path) + length);
}

// A datagram socket that is connected to the service manager, if there is one. A box that can't tell it anything runs
// all the same.
static int open_manager(void)
{
    struct sockaddr_un place = {0};
    const char *text = getenv("NOTIFY_SOCKET");
    if (text == NULL)
        return -1;
    socklen_t length = manager_at(text, &place);
    int sock = length == 0 ? -1 : socket(AF_UNIX, SOCK_DGRAM | SOCK_CLOEXEC, 0);
    if (length == 0)
        errno = EAFNOSUPPORT;
    if (sock >= 0)
        sock = out_of_the_way(sock);
    if (sock < 0 || connect(sock, (struct sockaddr *)&place, length) < 0) {
        say("natpair-launch: NOTIFY_SOCKET %s: %s: nobody is told that the box is up", text, strerror(errno));
        if (sock >= 0)
            close(sock);
        sock = -1;
    }
    unsetenv("NOTIFY_SOCKET");
    return sock;
}

// The signals that end a box, or those of them that whoever started it doesn't ignore.
static sigset_t ending_signals(bool even_ignored)
{
    sigset_t found;
    sigemptyset(&found);
    for (int next = 0; next < ENDINGS; next++) {
        struct sigaction action = {0};
        sigaction(ENDING[next], NULL, &action);
        if (even_ignored || action.sa_handler != SIG_IGN)
            sigaddset(&found, ENDING[next]);
    }
    return found;
}

// A descriptor that can be read once a signal to end has come. The signals stay blocked when the gate begins, so that
// they don't end it: it sees the descriptor, resigns and ends.
static int open_stop(void)
{
    sigset_t ending = ending_signals(false);
    if (sigprocmask(SIG_BLOCK, &ending, NULL) < 0)
        refuse("signals: %s", strerror(errno));
    int signals = signalfd(-1, &ending, SFD_CLOEXEC | SFD_NONBLOCK);
    if (signals < 0)
        refuse("signals: %s", strerror(errno));
    return out_of_the_way(signals);
}

// Privileges

static const struct passwd *user_of(const char *name)
{
    const struct passwd *user = getpwnam(name);
    if (user == NULL)
        refuse("no user %s", name);
    // Root's files are open to root whatever privileges it has given up.
    if (user->pw_uid == 0)
        refuse("--user %s: the gate doesn't run as root", name);
    return user;
}

static void become(const char *name)
{
    int dies_with_parent = 0;
    const struct passwd *user = user_of(name);
    prctl(PR_GET_PDEATHSIG, &dies_with_parent);
    if (initgroups(name, user->pw_gid) < 0 || setresgid(user->pw_gid, user->pw_gid, user->pw_gid) < 0
        || setresuid(user->pw_uid, user->pw_uid, user->pw_uid) < 0)
        refuse("%s: %s", name, strerror(errno));
    // A change of user forgets whether the process dies with its parent.
    prctl(PR_SET_PDEATHSIG, dies_with_parent);
}

static void give_up_privileges(const char *user)
{
    struct __user_cap_header_struct head = {_LINUX_CAPABILITY_VERSION_3, 0};
    struct __user_cap_data_struct none[2] = {{0}}, left[2] = {{0}};
    for (int number = 0; prctl(PR_CAPBSET_READ, number, 0, 0, 0) >= 0; number++)
        prctl(PR_CAPBSET_DROP, number, 0, 0, 0);
    if (user != NULL)
        become(user);
    prctl(PR_CAP_AMBIENT, PR_CAP_AMBIENT_CLEAR_ALL, 0, 0, 0);
    if (syscall(SYS_capset, &head, none) < 0 || prctl(PR_SET_NO_NEW_PRIVS, 1, 0, 0, 0) < 0)
        refuse("privileges: %s", strerror(errno));
    if (syscall(SYS_capget, &head, left) < 0 || memcmp(left, none, sizeof none) != 0)
        refuse("privileges: some are left");
}

// The keeper

struct side {
    const char *name;
    const char *interface;
    int sock;
    // Whether the cable is in, since when, and what the gate was told last: -1 before anything.
    bool in;
    int64_t since;
    int told;
};

struct keeper {
    struct side side[SIDES];
    struct sockaddr_un place;
    pid_t gate;
    // The link's interface, and the number of that to which its socket is bound: 0 where it is bound to none.
    const char *link_interface;
    int link_number;
    // When the gate was told to end: 0 before that.
    int64_t told_to_end;
};

static int64_t now(void)
{
    struct timespec moment;
    clock_gettime(CLOCK_MONOTONIC, &moment);
    return (int64_t)moment.tv_sec * 1000 + moment.tv_nsec / 1000000;
}

static bool has_carrier(const char *interface)
{
    struct ifreq asked = {0};
    int any = socket(AF_INET, SOCK_DGRAM | SOCK_CLOEXEC, 0);
    strncpy(asked.ifr_name, interface, IFNAMSIZ - 1);
    bool found = any >= 0 && ioctl(any, SIOCGIFFLAGS, &asked) == 0;
    if (any >= 0)
        close(any);
    return found && (asked.ifr_flags & IFF_UP) && (asked.ifr_flags & IFF_RUNNING);
}

// Binds the side's socket anew where its interface was deleted and made again.
static void keep_bound(struct side *side)
{
    struct sockaddr_ll bound = {0};
    socklen_t size = sizeof bound;
    int number = number_of(side->interface);
    if (number < 0 || getsockname(side->sock, (struct sockaddr *)&bound, &size) < 0 || bound.sll_ifindex == number)
        return;
    if (bind_to(side->sock, number) == 0)
        say("keeper %s bound anew to %s", side->name, side->interface);
}

static void look_at(struct side *side)
{
    keep_bound(side);
    bool in = has_carrier(side->interface);
    if (in == side->in)
        return;
    side->in = in;
    side->since = now();
    say("keeper %s cable %s", side->name, in ? "in" : "out");
}

// Whether the gate of this keeper, and no other one, is at the other end.
static bool is_own_gate(int sock, pid_t gate)
{
    struct ucred who = {0};
    socklen_t size = sizeof who;
    return getsockopt(sock, SOL_SOCKET, SO_PEERCRED, &who, &size) == 0 && who.pid == gate;
}

// Hands the gate one word, and says whether it was heard.
static bool is_heard(const struct keeper *keeper, const uint8_t *word, size_t length)
{
    char answer[8];
    struct timeval patience = {PATIENCE, 0};
    int sock = socket(AF_UNIX, SOCK_STREAM | SOCK_CLOEXEC, 0);
    if (sock < 0)
        return false;
    setsockopt(sock, SOL_SOCKET, SO_RCVTIMEO, &patience, sizeof patience);
    setsockopt(sock, SOL_SOCKET, SO_SNDTIMEO, &patience, sizeof patience);
    bool heard = connect(sock, (const struct sockaddr *)&keeper->place, sizeof keeper->place) == 0
        && is_own_gate(sock, keeper->gate) && send(sock, word, length, MSG_NOSIGNAL) == (ssize_t)length
        && recv(sock, answer, 5, MSG_WAITALL) == 5 && memcmp(answer, "heard", 5) == 0;
    close(sock);
    return heard;
}

// Tells the gate a side's cable where that is new to it and was so for long enough; gives how long to wait, in
// milliseconds, until there may be something to tell.
static int tell(struct keeper *keeper, int number)
{
    struct side *side = &keeper->side[number];
    if (keeper->place.sun_path[0] == '\0' || side->told == side->in)
        return NAP;
    int64_t wait = side->since + HELD_BACK - now();
    if (side->told == 1 && wait > 0)
        return wait < NAP ? (int)wait : NAP;
    uint8_t word[5] = {'N', 'S', (uint8_t)number, side->in, 1};
    if (!is_heard(keeper, word, sizeof word))
        return AGAIN;
    side->told = side->in;
    return NAP;
}

// Whether another interface than the one that the link's socket is bound to has its name: then nothing comes to that
// socket any more, and without privileges it can't be bound anew.
static bool has_lost_link(const struct keeper *keeper)
{
    int number = keeper->link_number == 0 ? -1 : number_of(keeper->link_interface);
    return number >= 0 && number != keeper->link_number;
}

// Ends a gate that has lost its link: it is told to, so that it resigns, and is killed where it doesn't end.
static void look_at_link(struct keeper *keeper, int gate)
{
    static const uint8_t stop[] = {'N', 'E'};
    if (keeper->told_to_end != 0 && now() - keeper->told_to_end > LAST_ROUND)
        syscall(SYS_pidfd_send_signal, gate, SIGKILL, NULL, 0);
    if (keeper->told_to_end != 0 || !has_lost_link(keeper))
        return;
    say("keeper link %s was made again, and the link's socket is bound to the old one: the gate ends",
        keeper->link_interface);
    keeper->told_to_end = now();
    if (keeper->place.sun_path[0] == '\0' || !is_heard(keeper, stop, sizeof stop))
        syscall(SYS_pidfd_send_signal, gate, SIGTERM, NULL, 0);
}

// A socket at which the kernel says that some interface has changed.
static int bell(void)
{
    struct sockaddr_nl place = {.nl_family = AF_NETLINK, .nl_groups = RTMGRP_LINK};
    int sock = socket(AF_NETLINK, SOCK_RAW | SOCK_CLOEXEC | SOCK_NONBLOCK, NETLINK_ROUTE);
    if (sock < 0 || bind(sock, (struct sockaddr *)&place, sizeof place) < 0)
        refuse("netlink: %s", strerror(errno));
    return sock;
}

// Until the gate ends.
static void keep(struct keeper *keeper, int changes, int end)
{
    char rest[8192];
    struct pollfd waited[2] = {{changes, POLLIN, 0}, {end, POLLIN, 0}};
    while (waited[1].revents == 0) {
        int nap = NAP;
        for (int number = 0; number < SIDES; number++) {
            look_at(&keeper->side[number]);
            int wait = tell(keeper, number);
            nap = wait < nap ? wait : nap;
        }
        look_at_link(keeper, end);
        poll(waited, 2, nap);
        // What was said of an interface doesn't matter: all are looked at.
        while (recv(changes, rest, sizeof rest, 0) > 0)
            ;
    }
}

static struct keeper keeper_of(const struct options *options, const int *socks, struct link link, pid_t gate)
{
    struct keeper keeper = {.place = {.sun_family = AF_UNIX}, .gate = gate,
        .link_interface = options->link_interface, .link_number = link.interface};
    for (int number = 0; number < SIDES; number++)
        keeper.side[number] = (struct side){NAMES[number], options->interface[number], socks[number],
            has_carrier(options->interface[number]), now(), -1};
    if (options->boot_file != NULL)
        snprintf(keeper.place.sun_path, sizeof keeper.place.sun_path, "%s.control/socket", options->boot_file);
    return keeper;
}

// Leaves a keeper behind, as a child of the process that becomes the gate. Of the sockets it keeps the sides'.
static void leave_keeper(const struct options *options, const int *socks, struct link link, int manager)
{
    pid_t gate = getpid();
    int changes = out_of_the_way(bell());
    int end = out_of_the_way((int)syscall(SYS_pidfd_open, gate, 0));
    if (changes < 0 || end < 0)
        refuse("pidfd: %s", strerror(errno));
    pid_t child = fork();
    if (child < 0)
        refuse("keeper: %s", strerror(errno));
    if (child > 0)
        return;
    prctl(PR_SET_PDEATHSIG, SIGKILL);
    prctl(PR_SET_NAME, "natpair-keeper");
    signal(SIGPIPE, SIG_IGN);
    // Whoever started the launcher may have blocked them.
    sigset_t ending = ending_signals(true);
    sigprocmask(SIG_UNBLOCK, &ending, NULL);
    struct keeper keeper = keeper_of(options, socks, link, gate);
    close(STDIN_FILENO);
    close(STDOUT_FILENO);
    if (link.sock >= 0)
        close(link.sock);
    if (manager >= 0)
        close(manager);
    if (getppid() == gate)
        keep(&keeper, changes, end);
    _exit(0);
}

// The start

// A word that has to be a number from 1 to `most`.
static int number_in(const char *name, const char *value, long most)
{
    long found = 0;
    if (!read_number(value, value + strlen(value), most, &found)) {
        say("natpair-launch: %s %s isn't a number from 1 to %ld", name, value, most);
        exit(2);
    }
    return (int)found;
}

static void take_option(struct options *found, const char *name, const char *value)
{
    if (strcmp(name, "--inside") == 0)
        found->interface[INSIDE] = value;
    else if (strcmp(name, "--outside") == 0)
        found->interface[OUTSIDE] = value;
    else if (strcmp(name, "--link-udp") == 0)
        found->link_ends = value;
    else if (strcmp(name, "--link-interface") == 0)
        found->link_interface = value;
    else if (strcmp(name, "--link-hops") == 0)
        found->hops = number_in(name, value, MOST_HOPS);
    else if (strcmp(name, "--boot-file") == 0)
        found->boot_file = value;
    else if (strcmp(name, "--user") == 0)
        found->user = value;
    else if (strcmp(name, "--room") == 0)
        found->room = number_in(name, value, MOST_ROOM);
    else
        usage();
}

static struct options read_words(int count, char **words)
{
    struct options found = {.room = ROOM};
    int next = 1;
    for (; next + 1 < count && strcmp(words[next], "--") != 0; next += 2)
        take_option(&found, words[next], words[next + 1]);
    if (next + 1 >= count || found.interface[INSIDE] == NULL || found.interface[OUTSIDE] == NULL)
        usage();
    if (found.link_ends != NULL && found.link_interface == NULL) {
        say("natpair-launch: --link-udp wants --link-interface too: IF, by which alone the link is heard, or %s", ANY);
        exit(2);
    }
    if (found.link_ends == NULL && (found.link_interface != NULL || found.hops != 0)) {
        say("natpair-launch: --link-interface and --link-hops belong to --link-udp");
        exit(2);
    }
    if (found.hops == 0)
        found.hops = 1;
    found.gate = words + next + 1;
    return found;
}

static void check(const struct options *options)
{
    struct sockaddr_un place;
    for (int number = 0; number < SIDES; number++)
        if (strlen(options->interface[number]) >= IFNAMSIZ)
            refuse("%s: no interface %s", NAMES[number], options->interface[number]);
    if (options->link_ends != NULL && strlen(options->link_interface) >= IFNAMSIZ)
        refuse("link: no interface %s", options->link_interface);
    if (options->boot_file != NULL && strlen(options->boot_file) + strlen(".control/socket") >= sizeof place.sun_path)
        refuse("the boot file's path is too long for a socket beside it");
    if (geteuid() == 0 && options->user == NULL)
        refuse("as root it wants --user NAME, the user that the gate runs as");
    if (options->user != NULL)
        user_of(options->user);
    if (options->boot_file == NULL)
        say("natpair-launch: without --boot-file the gate isn't told of its cables");
}

// The gate's words, and after them where its places are, the service manager, and what ends it.
static char **gate_words(char *const *gate, bool has_link, bool has_manager)
{
    static char *const ways[] = {"--inside", "descriptor:3", "--outside", "descriptor:4", "--stop-on", "descriptor:7",
        "--link", "descriptor:5", "--notify", "descriptor:6"};
    enum { ALWAYS = 6, MOST = sizeof ways / sizeof ways[0] };
    int count = 0;
    while (gate[count] != NULL)
        count++;
    char **words = calloc(count + MOST + 1, sizeof *words);
    if (words == NULL)
        refuse("no memory");
    memcpy(words, gate, count * sizeof *words);
    for (int next = 0; next < MOST; next++)
        if (next < ALWAYS || (next < ALWAYS + 2 ? has_link : has_manager))
            words[count++] = ways[next];
    return words;
}

static void put_at(int sock, int place)
{
    // The copy stays open when the gate begins.
    if (sock < 0 || dup2(sock, place) < 0)
        refuse("descriptor %d: %s", place, strerror(errno));
}

int main(int count, char **words)
{
    close_inherited();
    struct options options = read_words(count, words);
    int socks[SIDES];
    check(&options);
    for (int number = 0; number < SIDES; number++)
        socks[number] = open_side(NAMES[number], options.interface[number], options.room);
    struct link link = options.link_ends == NULL ? (struct link){-1, 0} : open_link(&options);
    int manager = open_manager();
    give_up_privileges(options.user);
    leave_keeper(&options, socks, link, manager);
    int stop = open_stop();
    for (int number = 0; number < SIDES; number++)
        put_at(socks[number], FIRST + number);
    if (link.sock >= 0)
        put_at(link.sock, LINK);
    if (manager >= 0)
        put_at(manager, MANAGER);
    put_at(stop, STOP);
    char **gate = gate_words(options.gate, link.sock >= 0, manager >= 0);
    execvp(gate[0], gate);
    say("natpair-launch: %s: %s", gate[0], strerror(errno));
    free(gate);
    return 127;
}
