/*
 * UDP sockets. A reply leaves from the address that was asked, also on 0.0.0.0 and ::, by packet info. Datagrams are read
 * and sent in lots, by one system call each.
 */
#include <errno.h>
#include <netdb.h>
#include <netinet/udp.h>
#include <string.h>

#include "llqd.h"

static bool can_cut; /* the system cuts a message into datagrams (since Linux 4.18) */

static void set(int s, int level, int option, const char *address)
{
    int on = 1;
    if (setsockopt(s, level, option, &on, sizeof on))
        die("%s: packet info: %s", address, strerror(errno));
}

/* More room than the system gives by itself, for what comes while a lot is served and for the replies that wait for one
   save. Less is no error. */
static void set_room(int s)
{
    int bytes = 1 << 22;
    if (setsockopt(s, SOL_SOCKET, SO_RCVBUFFORCE, &bytes, sizeof bytes))
        setsockopt(s, SOL_SOCKET, SO_RCVBUF, &bytes, sizeof bytes);
    if (setsockopt(s, SOL_SOCKET, SO_SNDBUFFORCE, &bytes, sizeof bytes))
        setsockopt(s, SOL_SOCKET, SO_SNDBUF, &bytes, sizeof bytes);
}

/* An IPv6 socket takes IPv4 too, unless IPv4 has a socket of its own. */
static int bind_one(const struct addrinfo *found, const char *address, const char *port, int v6_only)
{
    int s = socket(found->ai_family, SOCK_DGRAM | SOCK_CLOEXEC, 0);
    if (s < 0)
        die("%s port %s: %s", address, port, strerror(errno));
    if (found->ai_family == AF_INET)
        set(s, IPPROTO_IP, IP_PKTINFO, address);
    else if (setsockopt(s, IPPROTO_IPV6, IPV6_V6ONLY, &v6_only, sizeof v6_only))
        die("%s port %s: %s", address, port, strerror(errno));
    else
        set(s, IPPROTO_IPV6, IPV6_RECVPKTINFO, address);
    set_room(s);
    int whole = 0;
    can_cut = setsockopt(s, IPPROTO_UDP, UDP_SEGMENT, &whole, sizeof whole) == 0;
    if (bind(s, found->ai_addr, found->ai_addrlen))
        die("%s port %s: %s", address, port, strerror(errno));
    return s;
}

/* The interface of a link-local address, which has to have one; 0 for all others, which must not. */
static uint32_t scope_of(const struct addrinfo *found, const char *address)
{
    if (found->ai_family != AF_INET6)
        return 0;
    const struct sockaddr_in6 *v6 = (const struct sockaddr_in6 *)found->ai_addr;
    if (IN6_IS_ADDR_LINKLOCAL(&v6->sin6_addr) && !v6->sin6_scope_id)
        die("--address %s: a link-local address needs its interface, as %s%%eth0", address, address);
    if (!IN6_IS_ADDR_LINKLOCAL(&v6->sin6_addr) && v6->sin6_scope_id)
        die("--address %s: only a link-local address has an interface", address);
    return v6->sin6_scope_id;
}

void sockets_open(const char *const *addresses, size_t count, const char *port, struct endpoint *endpoints)
{
    struct addrinfo hints = {.ai_family = AF_UNSPEC, .ai_socktype = SOCK_DGRAM, .ai_flags = AI_NUMERICHOST | AI_NUMERICSERV};
    struct addrinfo *found[SOCKETS_MOST];
    int v6_only = 0;
    uint32_t link = 0;
    for (size_t i = 0; i < count; i++) {
        int error = getaddrinfo(addresses[i], port, &hints, &found[i]);
        if (error)
            die("%s port %s: %s", addresses[i], port, gai_strerror(error));
        v6_only |= found[i]->ai_family == AF_INET;
    }
    for (size_t i = 0; i < count; i++) {
        uint32_t scope = scope_of(found[i], addresses[i]);
        if (scope && link && scope != link)
            die("--address %s: link-local addresses of two interfaces cannot be told apart", addresses[i]);
        link = scope ? scope : link;
        endpoints[i] = (struct endpoint){.socket = bind_one(found[i], addresses[i], port, v6_only), .one_link = scope != 0};
    }
    for (size_t i = 0; i < count; i++)
        freeaddrinfo(found[i]);
}

/* ---- receiving */

/* Where the reply comes from: the address that was asked. The way out is the system's choice, but for link-local addresses. */
static void turn_back(struct route *route)
{
    struct msghdr header = {.msg_control = route->control, .msg_controllen = route->control_length};
    struct cmsghdr *info = CMSG_FIRSTHDR(&header);
    if (!info)
        return;
    if (info->cmsg_level == IPPROTO_IP && info->cmsg_type == IP_PKTINFO) {
        struct in_pktinfo *v4 = (struct in_pktinfo *)CMSG_DATA(info);
        v4->ipi_ifindex = 0;
    } else if (info->cmsg_level == IPPROTO_IPV6 && info->cmsg_type == IPV6_PKTINFO) {
        struct in6_pktinfo *v6 = (struct in6_pktinfo *)CMSG_DATA(info);
        if (IN6_IS_ADDR_MULTICAST(&v6->ipi6_addr))
            v6->ipi6_addr = in6addr_any;
        if (!IN6_IS_ADDR_LINKLOCAL(&route->peer.v6.sin6_addr) && !IN6_IS_ADDR_LINKLOCAL(&v6->ipi6_addr))
            v6->ipi6_ifindex = 0;
    } else
        route->control_length = 0;
}

/* The sender's 16-byte address, IPv4 mapped, and its port. */
static void set_sender(struct arrival *arrival, bool one_link)
{
    const struct route *route = &arrival->route;
    arrival->link_local = false;
    if (route->peer.any.sa_family == AF_INET) {
        memset(arrival->address, 0, 10);
        arrival->address[10] = arrival->address[11] = 0xff;
        memcpy(arrival->address + 12, &route->peer.v4.sin_addr, 4);
        arrival->port = ntohs(route->peer.v4.sin_port);
    } else {
        memcpy(arrival->address, &route->peer.v6.sin6_addr, 16);
        arrival->port = ntohs(route->peer.v6.sin6_port);
        arrival->link_local = !one_link && IN6_IS_ADDR_LINKLOCAL(&route->peer.v6.sin6_addr);
    }
}

size_t sockets_receive(const struct endpoint *endpoint, struct arrival *arrivals)
{
    static struct mmsghdr headers[BATCH_MOST];
    static struct iovec bytes[BATCH_MOST];
    for (size_t i = 0; i < BATCH_MOST; i++) {
        struct arrival *to = arrivals + i;
        bytes[i] = (struct iovec){to->bytes, sizeof to->bytes};
        headers[i].msg_hdr = (struct msghdr){.msg_name = &to->route.peer, .msg_namelen = sizeof to->route.peer, .msg_iov = bytes + i,
                                             .msg_iovlen = 1, .msg_control = to->route.control, .msg_controllen = sizeof to->route.control};
    }
    int got = recvmmsg(endpoint->socket, headers, BATCH_MOST, MSG_DONTWAIT, NULL);
    for (int i = 0; i < got; i++) {
        struct arrival *to = arrivals + i;
        to->length = headers[i].msg_len;
        to->route.socket = endpoint->socket;
        to->route.peer_length = headers[i].msg_hdr.msg_namelen;
        to->route.control_length = headers[i].msg_hdr.msg_controllen;
        turn_back(&to->route);
        set_sender(to, endpoint->one_link);
    }
    return got < 0 ? 0 : (size_t)got;
}

/* ---- sending */

static struct mmsghdr waiting[BATCH_MOST];
static struct iovec waiting_bytes[BATCH_MOST];
static size_t waiting_count;
static int waiting_socket;

void sockets_send(const struct route *route, const uint8_t *bytes, size_t length)
{
    if (waiting_count == BATCH_MOST || (waiting_count && waiting_socket != route->socket))
        sockets_flush();
    waiting_socket = route->socket;
    waiting_bytes[waiting_count] = (struct iovec){(void *)bytes, length};
    waiting[waiting_count].msg_hdr =
        (struct msghdr){.msg_name = (void *)&route->peer, .msg_namelen = route->peer_length, .msg_iov = waiting_bytes + waiting_count,
                        .msg_iovlen = 1, .msg_control = (void *)route->control, .msg_controllen = route->control_length};
    waiting_count++;
}

/*
 * Replies in a row that have one length and go one way are handed over as one message, which the system cuts up again
 * (UDP_SEGMENT): so the replies to a chatty sender cost least.
 */
struct lot {
    size_t first, count;
    _Alignas(struct cmsghdr) uint8_t control[CMSG_SPACE(sizeof(struct in6_pktinfo)) + CMSG_SPACE(sizeof(uint16_t))];
};
enum { LOT_BYTES = 60000 }; /* a message has at most 65,507 */

static bool same_way(const struct msghdr *one, const struct msghdr *other)
{
    return one->msg_iov->iov_len == other->msg_iov->iov_len && one->msg_namelen == other->msg_namelen &&
           one->msg_controllen == other->msg_controllen && memcmp(one->msg_name, other->msg_name, one->msg_namelen) == 0 &&
           memcmp(one->msg_control, other->msg_control, one->msg_controllen) == 0;
}

static size_t lot_size(size_t first)
{
    size_t count = 1, length = waiting_bytes[first].iov_len;
    while (can_cut && first + count < waiting_count && (count + 1) * length <= LOT_BYTES &&
           same_way(&waiting[first].msg_hdr, &waiting[first + count].msg_hdr))
        count++;
    return count;
}

static struct msghdr lot_header(struct lot *lot)
{
    struct msghdr header = waiting[lot->first].msg_hdr;
    uint16_t length = (uint16_t)waiting_bytes[lot->first].iov_len;
    header.msg_iovlen = lot->count;
    if (lot->count == 1)
        return header;
    size_t before = header.msg_controllen;
    memset(lot->control, 0, sizeof lot->control);
    memcpy(lot->control, header.msg_control, before);
    struct cmsghdr *cut = (struct cmsghdr *)(lot->control + before);
    cut->cmsg_level = IPPROTO_UDP;
    cut->cmsg_type = UDP_SEGMENT;
    cut->cmsg_len = CMSG_LEN(sizeof length);
    memcpy(CMSG_DATA(cut), &length, sizeof length);
    header.msg_control = lot->control;
    header.msg_controllen = before + CMSG_SPACE(sizeof length);
    return header;
}

/* A lot that is not taken, as one whose replies are too long for the link, is sent reply by reply. One that cannot be sent is
   counted and passed over, as UDP may lose it anyway: the panel asks again. */
static void send_apart(const struct lot *lot)
{
    for (size_t i = 0; i < lot->count; i++)
        if (lot->count == 1 || sendmsg(waiting_socket, &waiting[lot->first + i].msg_hdr, MSG_DONTWAIT) < 0)
            counts.unsent++;
}

void sockets_flush(void)
{
    static struct mmsghdr headers[BATCH_MOST];
    static struct lot lots[BATCH_MOST];
    size_t count = 0;
    for (size_t first = 0; first < waiting_count; first += lots[count++].count) {
        lots[count].first = first;
        lots[count].count = lot_size(first);
        headers[count].msg_hdr = lot_header(lots + count);
    }
    for (size_t sent = 0; sent < count;) {
        int now = sendmmsg(waiting_socket, headers + sent, (unsigned)(count - sent), MSG_DONTWAIT);
        if (now > 0)
            sent += (size_t)now;
        else if (errno != EINTR)
            send_apart(lots + sent++);
    }
    waiting_count = 0;
}
