// A client of STOMP over WebSocket (RFC 6455).

#define _GNU_SOURCE
#include "client.h"

#include <arpa/inet.h>
#include <errno.h>
#include <fcntl.h>
#include <netinet/tcp.h>
#include <stdarg.h>
#include <stdint.h>
#include <stdio.h>
#include <stdlib.h>
#include <string.h>
#include <sys/epoll.h>
#include <sys/socket.h>
#include <time.h>
#include <unistd.h>

struct connection connections[MOST_CONNECTIONS];
int connection_count;
void (*on_message)(struct connection *, const char *frame, size_t length);

static int poller;

void fail(const char *format, ...) {
    va_list words;
    va_start(words, format);
    fprintf(stderr, "load: ");
    vfprintf(stderr, format, words);
    fprintf(stderr, "\n");
    va_end(words);
    exit(1);
}

double now(void) {
    struct timespec time;
    clock_gettime(CLOCK_MONOTONIC, &time);
    return time.tv_sec + time.tv_nsec * 1e-9;
}

static void watch(struct connection *one, int writes) {
    struct epoll_event event = {.events = EPOLLIN | (writes ? EPOLLOUT : 0), .data.ptr = one};
    if (epoll_ctl(poller, EPOLL_CTL_MOD, one->fd, &event) != 0) {
        fail("epoll_ctl: %s", strerror(errno));
    }
    one->waits_to_write = writes;
}

// Writes what the socket takes.
void write_out(struct connection *one) {
    size_t written = 0;
    while (written < one->out_length) {
        ssize_t count = write(one->fd, one->out + written, one->out_length - written);
        if (count < 0 && errno == EAGAIN) {
            break;
        }
        if (count < 0) {
            fail("write: %s", strerror(errno));
        }
        written += count;
    }
    one->out_length -= written;
    memmove(one->out, one->out + written, one->out_length);
    if ((one->out_length > 0) != one->waits_to_write) {
        watch(one, one->out_length > 0);
    }
}

// Adds a frame of STOMP, as a masked Text message. The NUL behind it goes with it.
void add(struct connection *one, const char *format, ...) {
    static const unsigned char mask[4] = {0x37, 0xfa, 0x21, 0x3d};
    static char frame[70000];
    va_list words;
    va_start(words, format);
    int length = vsnprintf(frame, sizeof frame, format, words) + 1;
    va_end(words);
    if (length > (int)sizeof frame || one->out_length + length + 16 > ROOM) {
        fail("no room for a frame");
    }
    unsigned char *out = (unsigned char *)one->out + one->out_length;
    *out++ = 0x81;
    if (length < 126) {
        *out++ = 0x80 | length;
    } else if (length < 65536) {
        *out++ = 0x80 | 126;
        *out++ = length >> 8;
        *out++ = length;
    } else {
        *out++ = 0x80 | 127;
        for (int shift = 56; shift >= 0; shift -= 8) {
            *out++ = (uint64_t)length >> shift;
        }
    }
    memcpy(out, mask, 4);
    out += 4;
    for (int at = 0; at < length; at++) {
        *out++ = frame[at] ^ mask[at % 4];
    }
    one->out_length = (char *)out - one->out;
}

int starts(const char *frame, size_t length, const char *word) {
    size_t count = strlen(word);
    return length > count && memcmp(frame, word, count) == 0;
}

const char *said(const char *name, const char *otherwise) {
    const char *word = getenv(name);
    return word == NULL ? otherwise : word;
}

// What stands behind a header's name, up to the end of its line.
const char *text_of(const char *frame, size_t length, const char *name, int *size) {
    const char *at = memmem(frame, length, name, strlen(name));
    if (at == NULL) {
        fail("no %s in %.*s", name + 1, (int)length, frame);
    }
    at += strlen(name);
    const char *end = memchr(at, '\n', frame + length - at);
    if (end == NULL) {
        fail("a header without a line end");
    }
    *size = end - at;
    return at;
}

// The number that stands behind a header's name.
long number_of(const char *frame, size_t length, const char *name) {
    int size;
    return strtol(text_of(frame, length, name, &size), NULL, 10);
}

// The number that the body of a MESSAGE begins with.
long body_of(const char *frame, size_t length) {
    const char *at = memmem(frame, length, "\n\n", 2);
    if (at == NULL) {
        fail("a frame without an empty line");
    }
    return strtol(at + 2, NULL, 10);
}

// Takes the whole messages of what was read.
static void take_messages(struct connection *one) {
    size_t at = 0;
    for (;;) {
        const unsigned char *head = (unsigned char *)one->in + at;
        size_t left = one->in_length - at, skip = 2, length;
        if (left < 2) {
            break;
        }
        length = head[1];
        if (length == 126) {
            skip = 4;
        } else if (length == 127) {
            skip = 10;
        }
        if (left < skip) {
            break;
        }
        if (skip > 2) {
            length = 0;
            for (size_t place = 2; place < skip; place++) {
                length = length << 8 | head[place];
            }
        }
        if (length > ROOM / 2) {
            fail("a message of %zu bytes", length);
        }
        if (left < skip + length) {
            break;
        }
        int opcode = head[0] & 15;
        if (opcode == 8) {
            fail("closed with %d", length >= 2 ? head[skip] << 8 | head[skip + 1] : 0);
        }
        if (opcode == 1 || opcode == 2) {
            on_message(one, (const char *)head + skip, length);
        }
        at += skip + length;
    }
    one->in_length -= at;
    memmove(one->in, one->in + at, one->in_length);
}

// Reads what a connection has.
static void read_in(struct connection *one) {
    ssize_t count = read(one->fd, one->in + one->in_length, ROOM - one->in_length);
    if (count == 0) {
        fail("the server ended a connection");
    }
    if (count < 0 && errno != EAGAIN) {
        fail("read: %s", strerror(errno));
    }
    if (count > 0) {
        one->in_length += count;
        take_messages(one);
    }
}

// Waits for so many milliseconds at most, and reads and writes what can be.
void pump(int milliseconds) {
    struct epoll_event events[MOST_CONNECTIONS];
    int count = epoll_wait(poller, events, MOST_CONNECTIONS, milliseconds);
    for (int at = 0; at < count; at++) {
        struct connection *one = events[at].data.ptr;
        if (events[at].events & (EPOLLIN | EPOLLHUP | EPOLLERR)) {
            read_in(one);
        }
        if (one->out_length > 0) {
            write_out(one);
        }
    }
}

void write_all(void) {
    for (int at = 0; at < connection_count; at++) {
        if (connections[at].out_length > 0) {
            write_out(&connections[at]);
        }
    }
}

void wait_for(int (*is_done)(void), const char *what) {
    double end = now() + SLACK_SECONDS;
    while (!is_done()) {
        pump(100);
        if (now() > end) {
            fail("waited too long for %s", what);
        }
    }
}

static int heard;

static void on_connected(struct connection *one, const char *frame, size_t length) {
    (void)one;
    if (!starts(frame, length, "CONNECTED\n")) {
        fail("no CONNECTED: %.*s", (int)length, frame);
    }
    heard++;
}

static int all_connected(void) {
    return heard == connection_count;
}

static struct sockaddr_in address_of(int port) {
    struct sockaddr_in address = {.sin_family = AF_INET, .sin_port = htons(port)};
    address.sin_addr.s_addr = htonl(INADDR_LOOPBACK);
    return address;
}

// Connects, asks for a WebSocket, and answers whether all of that left.
static int ask(struct connection *one, const struct sockaddr_in *address) {
    char request[1024];
    int size = snprintf(request, sizeof request,
                        "GET %s HTTP/1.1\r\nHost: localhost\r\nUpgrade: websocket\r\nConnection: Upgrade\r\n"
                        "Sec-WebSocket-Key: dGhlIHNhbXBsZSBub25jZQ==\r\nSec-WebSocket-Version: 13\r\n"
                        "Sec-WebSocket-Protocol: v12.stomp\r\n\r\n",
                        said("LOAD_PATH", "/"));
    if (size >= (int)sizeof request) {
        fail("too long a path");
    }
    one->fd = socket(AF_INET, SOCK_STREAM, 0);
    if (one->fd < 0 || connect(one->fd, (const struct sockaddr *)address, sizeof *address) != 0) {
        fail("connect: %s", strerror(errno));
    }
    int yes = 1;
    setsockopt(one->fd, IPPROTO_TCP, TCP_NODELAY, &yes, sizeof yes);
    return send(one->fd, request, size, MSG_NOSIGNAL) == size;
}

// Whether the server has let it in.
static int is_let_in(struct connection *one) {
    size_t length = 0;
    while (memmem(one->in, length, "\r\n\r\n", 4) == NULL) {
        ssize_t count = read(one->fd, one->in + length, ROOM - length);
        if (count <= 0) {
            return 0;
        }
        length += count;
    }
    return starts(one->in, length, "HTTP/1.1 101");
}

// From here on it is served by the poll, and asks for its session.
static void begin(struct connection *one) {
    fcntl(one->fd, F_SETFL, fcntl(one->fd, F_GETFL) | O_NONBLOCK);
    struct epoll_event event = {.events = EPOLLIN, .data.ptr = one};
    epoll_ctl(poller, EPOLL_CTL_ADD, one->fd, &event);
    add(one, "CONNECT\naccept-version:1.2\n%s\n", said("LOAD_CONNECT", ""));
}

long refused;

// Opens a connection. One whose handshake is refused is tried again, and counted.
static void open_one(int port) {
    struct connection *one = &connections[connection_count++];
    struct sockaddr_in address = address_of(port);
    while (!ask(one, &address) || !is_let_in(one)) {
        close(one->fd);
        if (++refused > MOST_REFUSED) {
            fail("%ld handshakes were refused", refused);
        }
    }
    begin(one);
}

// Opens so many connections with a session each.
void open_all(int port, int count) {
    if (count < 1 || count > MOST_CONNECTIONS) {
        fail("1 to %d connections", MOST_CONNECTIONS);
    }
    poller = epoll_create1(0);
    on_message = on_connected;
    for (int at = 0; at < count; at++) {
        open_one(port);
    }
    write_all();
    wait_for(all_connected, "CONNECTED");
}

// Opens so many connections at the same moment, with a session each.
void open_together(int port, int count) {
    struct sockaddr_in address = address_of(port);
    poller = poller ? poller : epoll_create1(0);
    on_message = on_connected;
    heard = 0;
    connection_count = count;
    for (int at = 0; at < count; at++) {
        if (!ask(&connections[at], &address)) {
            fail("a handshake did not leave");
        }
    }
    for (int at = 0; at < count; at++) {
        if (!is_let_in(&connections[at])) {
            fail("a handshake was refused");
        }
        begin(&connections[at]);
    }
    write_all();
    wait_for(all_connected, "CONNECTED");
}

// Closes all connections, by a reset, so that the system keeps no port for them.
void close_all(void) {
    struct linger at_once = {.l_onoff = 1, .l_linger = 0};
    for (int at = 0; at < connection_count; at++) {
        setsockopt(connections[at].fd, SOL_SOCKET, SO_LINGER, &at_once, sizeof at_once);
        close(connections[at].fd);
        connections[at].in_length = connections[at].out_length = 0;
        connections[at].waits_to_write = 0;
    }
    connection_count = 0;
}
