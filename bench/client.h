// A client of STOMP over WebSocket, for many connections in one thread.

#ifndef CLIENT_H
#define CLIENT_H

#include <stddef.h>

enum {
    MOST_CONNECTIONS = 1024,
    MOST_IN_FLIGHT = 64,
    ROOM = 1 << 18,
    SLACK_SECONDS = 20,
    MOST_REFUSED = 20000,
};

struct connection {
    int fd;
    char in[ROOM];
    size_t in_length;
    char out[ROOM];
    size_t out_length;
    int waits_to_write;
    long asked;     // receipts asked for
    long given;     // receipts that came
    double stamps[MOST_IN_FLIGHT];
    long messages;  // messages that came
};

extern struct connection connections[MOST_CONNECTIONS];
extern int connection_count;

// How many handshakes were refused until all were let in.
extern long refused;

// Hears each frame that comes.
extern void (*on_message)(struct connection *, const char *frame, size_t length);

// Tells why, and ends the program with status 1.
void fail(const char *format, ...);

double now(void);

// Opens so many connections with a session each. Where another broker asks for more, the environment says it: LOAD_PATH is
// the path of the handshake, and LOAD_CONNECT are more header lines of CONNECT, each with its line end.
void open_all(int port, int count);

// Opens so many connections at the same moment, with a session each, and closes all that are open.
void open_together(int port, int count);
void close_all(void);

// Adds a frame of STOMP, as a masked Text message. The NUL behind it goes with it.
void add(struct connection *one, const char *format, ...);

// Writes what the sockets take of what was added.
void write_out(struct connection *one);
void write_all(void);

// Waits for so many milliseconds at most, and reads and writes what can be.
void pump(int milliseconds);

void wait_for(int (*is_done)(void), const char *what);

int starts(const char *frame, size_t length, const char *word);

// A word of the environment, or what stands for it where it isn't there.
const char *said(const char *name, const char *otherwise);

// What stands behind a header's name, and how long that is.
const char *text_of(const char *frame, size_t length, const char *name, int *size);

// The number that stands behind a header's name, and the one that a body begins with.
long number_of(const char *frame, size_t length, const char *name);
long body_of(const char *frame, size_t length);

#endif
