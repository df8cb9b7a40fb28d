// Loads a running `stompd serve` from one thread, and prints what it saw as lines of a name and a number. bench/serve.py
// builds and runs it.
//
//     load receipts PORT CONNECTIONS IN_FLIGHT SECONDS     SENDs with receipts to a topic where nobody listens
//     load latency PORT COUNT PAUSE [DESTINATION]          the same, one at a time, so many microseconds after each
//     load kept PORT CONNECTIONS IN_FLIGHT SECONDS         SENDs with receipts to a queue of each connection's own, which
//                                                          takes and acknowledges what comes there
//     load fanout PORT SUBSCRIBERS SECONDS                 one sender of a topic, and so many subscribers
//     load queue PORT PRODUCERS CONSUMERS SECONDS          a work queue, each job acknowledged
//     load send PORT DESTINATION COUNT BODY                so many SENDs on 31 connections, with bodies of so many bytes
//     load connect PORT COUNT AT_ONCE                      connections with their sessions, so many at the same moment
//     load idle PORT CONNECTIONS SECONDS                   connections that say nothing once they are there
//     load syncs FILE COUNT PAUSE                          two writes and two syncs, as for a block, so often, and a pause
//
// What comes back is compared with what has to come: receipts in order, each message once. What is not so ends the program
// with status 1. LOAD_SEND in the environment are more header lines of each SEND, each with its line end; client.h has what
// else is said there. bench/beside_rabbitmq.py loads another broker so. What is measured for a time tells when that begins and
// ends, at once, so that bench/serving.py sees what the server took meanwhile.

#include "client.h"

#include <errno.h>
#include <fcntl.h>
#include <stdio.h>
#include <stdlib.h>
#include <string.h>
#include <unistd.h>

enum {
    // An outbox has room for 512 outputs, so a sender waits for what its subscribers read.
    MOST_AHEAD = 256,
    // A broker holds 4,096 messages at most.
    MOST_JOBS = 2000,
    MOST_KEPT = 100,
    JOBS = 1 << 25,
    SAMPLES = 1 << 22,
};

static double *samples;
static long sample_count;
static char body[65537];
static const char *more_headers;

static void tell(const char *name, double value) {
    printf("%s %.9g\n", name, value);
}

static int by_size(const void *left, const void *right) {
    double a = *(const double *)left, b = *(const double *)right;
    return (a > b) - (a < b);
}

// Tells the median, the 99th of a hundred and the longest of some times, in microseconds.
static void tell_times(const char *name, double *times, long count) {
    char text[64];
    if (count == 0) {
        return;
    }
    qsort(times, count, sizeof *times, by_size);
    snprintf(text, sizeof text, "%s_median_us", name);
    tell(text, times[count / 2] * 1e6);
    snprintf(text, sizeof text, "%s_99th_us", name);
    tell(text, times[(long)(count * 0.99)] * 1e6);
    snprintf(text, sizeof text, "%s_longest_us", name);
    tell(text, times[count - 1] * 1e6);
}

static double measuring_from, measuring_to;
static long counted;
static int is_ending;

static int is_measured(double time) {
    return time >= measuring_from && time < measuring_to;
}

static void tell_at_once(const char *name) {
    tell(name, now());
    fflush(stdout);
}

// In a second the measured time begins, of so many seconds.
static void begin_to_measure(double seconds) {
    measuring_from = now() + 1;
    measuring_to = measuring_from + seconds;
}

// Whether the measured time is not over. Tells that it has begun, and that it is over.
static int still_measures(void) {
    static int has_begun;
    double time = now();
    if (!has_begun && time >= measuring_from) {
        has_begun = 1;
        tell_at_once("measured_from");
    }
    if (time >= measuring_to) {
        tell_at_once("measured_to");
        is_ending = 1;
    }
    return !is_ending;
}

// Takes a receipt, which has to be the next one of its connection.
static double take_receipt(struct connection *one, const char *frame, size_t length) {
    if (!starts(frame, length, "RECEIPT\n") || number_of(frame, length, "\nreceipt-id:") != one->given) {
        fail("no RECEIPT %ld: %.*s", one->given, (int)length, frame);
    }
    double sent = one->stamps[one->given % MOST_IN_FLIGHT], time = now();
    one->given++;
    if (is_measured(time)) {
        counted++;
        if (sample_count < SAMPLES) {
            samples[sample_count++] = time - sent;
        }
    }
    return time;
}

// Adds a SEND with the next receipt of its connection.
static void add_send(struct connection *one, const char *destination, long number) {
    one->stamps[one->asked % MOST_IN_FLIGHT] = now();
    add(one, "SEND\ndestination:%s\nreceipt:%ld\n%s\n%ld %s", destination, one->asked, more_headers, number, body);
    one->asked++;
}

static int all_given(void) {
    for (int at = 0; at < connection_count; at++) {
        if (connections[at].given < connections[at].asked) {
            return 0;
        }
    }
    return 1;
}

static void measure_for(double seconds) {
    begin_to_measure(seconds);
    while (still_measures()) {
        pump(20);
    }
}

static int in_flight;

static void on_receipt(struct connection *one, const char *frame, size_t length) {
    take_receipt(one, frame, length);
    if (!is_ending) {
        add_send(one, "/topic/none", one->asked);
    }
}

static void receipts(double seconds) {
    on_message = on_receipt;
    for (int at = 0; at < connection_count; at++) {
        for (int place = 0; place < in_flight; place++) {
            add_send(&connections[at], "/topic/none", connections[at].asked);
        }
    }
    write_all();
    measure_for(seconds);
    wait_for(all_given, "receipts");
    tell("receipts_a_second", counted / seconds);
    tell_times("receipt", samples, sample_count);
}

static void on_lone_receipt(struct connection *one, const char *frame, size_t length) {
    take_receipt(one, frame, length);
}

static void latency(long count, long pause, const char *destination) {
    on_message = on_lone_receipt;
    measuring_to = 1e300;
    tell_at_once("measured_from");
    for (long number = 0; number < count; number++) {
        add_send(&connections[0], destination, number);
        write_all();
        wait_for(all_given, "a receipt");
        if (pause > 0) {
            usleep(pause);
        }
    }
    tell_at_once("measured_to");
    tell_times("receipt", samples, sample_count);
}

// Of a fan-out the first connection sends, and the others listen.
static void send_ahead(void) {
    struct connection *sender = &connections[0];
    long slowest = sender->asked;
    for (int at = 1; at < connection_count; at++) {
        slowest = connections[at].messages < slowest ? connections[at].messages : slowest;
    }
    while (!is_ending && sender->asked - sender->given < 8 && sender->asked - slowest < MOST_AHEAD) {
        add_send(sender, "/topic/room", sender->asked);
    }
    if (sender->out_length > 0) {
        write_out(sender);
    }
}

static long subscribed;

static void on_subscribed(struct connection *one, const char *frame, size_t length) {
    (void)one;
    if (!starts(frame, length, "RECEIPT\n")) {
        fail("no RECEIPT: %.*s", (int)length, frame);
    }
    subscribed++;
}

static long to_subscribe;

static int all_subscribed(void) {
    return subscribed == to_subscribe;
}

static void add_subscribe(struct connection *one, const char *destination, const char *mode) {
    add(one, "SUBSCRIBE\nid:s\ndestination:%s\nack:%s\nreceipt:s\n\n", destination, mode);
}

// Waits until so many receipts of SUBSCRIBEs, or of last SENDs, have come.
static void wait_for_receipts(int count, const char *what) {
    on_message = on_subscribed;
    subscribed = 0;
    to_subscribe = count;
    write_all();
    wait_for(all_subscribed, what);
}

static void subscribe(int from, int to, const char *destination, const char *mode) {
    for (int at = from; at < to; at++) {
        add_subscribe(&connections[at], destination, mode);
    }
    wait_for_receipts(to - from, "receipts of SUBSCRIBE");
}

static void acknowledge(struct connection *one, const char *frame, size_t length) {
    int size;
    const char *name = text_of(frame, length, "\nack:", &size);
    add(one, "ACK\nid:%.*s\n\n", size, name);
}

// Each connection from there on is still served, so none of its acknowledgements was refused.
static void see_acknowledged(int from) {
    for (int at = from; at < connection_count; at++) {
        add(&connections[at], "SEND\ndestination:/topic/none\nreceipt:end\n\n");
    }
    wait_for_receipts(connection_count - from, "the last acknowledgements");
}

static long heard_messages;

static void on_fanned(struct connection *one, const char *frame, size_t length) {
    if (one == &connections[0]) {
        take_receipt(one, frame, length);
        send_ahead();
    } else {
        if (!starts(frame, length, "MESSAGE\n") || body_of(frame, length) != one->messages) {
            fail("no MESSAGE %ld: %.*s", one->messages, (int)length, frame);
        }
        one->messages++;
        heard_messages += is_measured(now());
    }
}

static int all_heard(void) {
    for (int at = 1; at < connection_count; at++) {
        if (connections[at].messages < connections[0].asked) {
            return 0;
        }
    }
    return all_given();
}

static void fan_out(double seconds) {
    subscribe(1, connection_count, "/topic/room", "auto");
    on_message = on_fanned;
    begin_to_measure(seconds);
    while (still_measures()) {
        send_ahead();
        pump(20);
    }
    wait_for(all_heard, "the last messages");
    tell("messages_a_second", heard_messages / seconds);
    tell("sends_a_second", counted / seconds);
    tell_times("receipt", samples, sample_count);
}

static int producers;
static unsigned char *done;
static long jobs, jobs_done;

static void send_jobs(struct connection *one) {
    while (!is_ending && one->asked - one->given < 8 && jobs - jobs_done < MOST_JOBS && jobs < JOBS) {
        add_send(one, "/queue/jobs", jobs++);
    }
}

static void on_job(struct connection *one, const char *frame, size_t length) {
    if (one < &connections[producers]) {
        take_receipt(one, frame, length);
        send_jobs(one);
        return;
    }
    if (!starts(frame, length, "MESSAGE\n")) {
        fail("no MESSAGE: %.*s", (int)length, frame);
    }
    long job = body_of(frame, length);
    if (job < 0 || job >= jobs || done[job]++) {
        fail("job %ld was delivered twice, or was none", job);
    }
    jobs_done++;
    heard_messages += is_measured(now());
    acknowledge(one, frame, length);
}

static int all_jobs_done(void) {
    return all_given() && jobs_done == jobs;
}

static void work_queue(double seconds) {
    done = calloc(JOBS, 1);
    subscribe(producers, connection_count, "/queue/jobs", "client-individual");
    on_message = on_job;
    begin_to_measure(seconds);
    while (still_measures()) {
        for (int at = 0; at < producers; at++) {
            send_jobs(&connections[at]);
        }
        write_all();
        pump(1);
    }
    wait_for(all_jobs_done, "the last jobs");
    see_acknowledged(producers);
    tell("jobs_a_second", heard_messages / seconds);
    tell_times("receipt", samples, sample_count);
}

static const char *own_queue(const struct connection *one) {
    static char name[32];
    snprintf(name, sizeof name, "/queue/own%d", (int)(one - connections));
    return name;
}

static void send_kept(struct connection *one) {
    while (!is_ending && one->asked - one->given < in_flight && one->asked - one->messages < MOST_KEPT) {
        add_send(one, own_queue(one), one->asked);
    }
}

static void on_kept(struct connection *one, const char *frame, size_t length) {
    if (starts(frame, length, "MESSAGE\n")) {
        if (body_of(frame, length) != one->messages++) {
            fail("not in order: %.*s", (int)length, frame);
        }
        acknowledge(one, frame, length);
    } else {
        take_receipt(one, frame, length);
    }
    send_kept(one);
}

static int all_taken(void) {
    for (int at = 0; at < connection_count; at++) {
        if (connections[at].messages < connections[at].asked) {
            return 0;
        }
    }
    return all_given();
}

static void kept(double seconds) {
    for (int at = 0; at < connection_count; at++) {
        add_subscribe(&connections[at], own_queue(&connections[at]), "client-individual");
    }
    wait_for_receipts(connection_count, "receipts of SUBSCRIBE");
    on_message = on_kept;
    for (int at = 0; at < connection_count; at++) {
        send_kept(&connections[at]);
    }
    write_all();
    measure_for(seconds);
    wait_for(all_taken, "the last messages");
    see_acknowledged(0);
    tell("receipts_a_second", counted / seconds);
    tell_times("receipt", samples, sample_count);
}

static long left;
static const char *filled;

static void fill_more(struct connection *one) {
    while (one->asked - one->given < 8 && left > 0) {
        add_send(one, filled, one->asked);
        left--;
    }
}

static void on_filled(struct connection *one, const char *frame, size_t length) {
    take_receipt(one, frame, length);
    fill_more(one);
}

// Sends so many messages, on all connections.
static void fill(const char *destination, long count) {
    on_message = on_filled;
    filled = destination;
    left = count;
    for (int at = 0; at < connection_count; at++) {
        fill_more(&connections[at]);
    }
    write_all();
    while (left > 0 || !all_given()) {
        pump(100);
    }
    tell("sent", count);
}

// Connections with their sessions, so many at the same moment.
static void connect_in_turns(int port, long count, int at_once) {
    double begun = now();
    for (long done_so_far = 0; done_so_far < count; done_so_far += at_once) {
        open_together(port, at_once);
        close_all();
    }
    tell("connections_a_second", count / (now() - begun));
}

// A write and a sync of a block's bytes, and a write and a sync of one byte before them, as for each block of the journal.
static void syncs(const char *path, long count, long pause) {
    double *each = calloc(count * 2, sizeof *each), *pairs = calloc(count, sizeof *pairs);
    char block[120] = "block";
    int file = open(path, O_RDWR | O_CREAT, 0600);
    if (file < 0 || each == NULL || pairs == NULL) {
        fail("%s: %s", path, strerror(errno));
    }
    for (long number = 0; number < count; number++) {
        off_t at = 41 + number * (off_t)sizeof block;
        double start = now();
        if (pwrite(file, block, sizeof block, at) < 0 || fsync(file) != 0) {
            fail("%s: %s", path, strerror(errno));
        }
        double middle = now();
        if (pwrite(file, "\1", 1, at - 1) < 0 || fsync(file) != 0) {
            fail("%s: %s", path, strerror(errno));
        }
        double end = now();
        each[number * 2] = middle - start;
        each[number * 2 + 1] = end - middle;
        pairs[number] = end - start;
        if (pause > 0) {
            usleep(pause);
        }
    }
    tell_times("sync", each, count * 2);
    tell_times("two_syncs", pairs, count);
}

static void set_body(long size) {
    if (size < 0 || size > 65000) {
        fail("a body of 0 to 65000 bytes");
    }
    memset(body, 'x', size);
    body[size] = 0;
}

int main(int count, char **words) {
    const char *mode = count > 3 ? words[1] : "";
    long numbers[4] = {0};
    for (int at = 2; at < count && at < 6; at++) {
        numbers[at - 2] = strtol(words[at], NULL, 10);
    }
    int port = numbers[0];
    samples = calloc(SAMPLES, sizeof *samples);
    set_body(64);
    more_headers = said("LOAD_SEND", "");
    if (strcmp(mode, "receipts") == 0 && count == 6 && numbers[2] > 0 && numbers[2] <= MOST_IN_FLIGHT) {
        open_all(port, numbers[1]);
        in_flight = numbers[2];
        receipts(numbers[3]);
    } else if (strcmp(mode, "kept") == 0 && count == 6 && numbers[2] > 0 && numbers[2] <= MOST_IN_FLIGHT) {
        open_all(port, numbers[1]);
        in_flight = numbers[2];
        kept(numbers[3]);
    } else if (strcmp(mode, "latency") == 0 && (count == 5 || count == 6)) {
        open_all(port, 1);
        latency(numbers[1], numbers[2], count == 6 ? words[5] : "/topic/none");
    } else if (strcmp(mode, "fanout") == 0 && count == 5) {
        open_all(port, numbers[1] + 1);
        fan_out(numbers[2]);
    } else if (strcmp(mode, "queue") == 0 && count == 6) {
        producers = numbers[1];
        open_all(port, producers + numbers[2]);
        work_queue(numbers[3]);
    } else if (strcmp(mode, "send") == 0 && count == 6) {
        set_body(numbers[3]);
        open_all(port, 31);
        fill(words[3], numbers[2]);
    } else if (strcmp(mode, "connect") == 0 && count == 5 && numbers[2] > 0 && numbers[2] <= MOST_CONNECTIONS) {
        connect_in_turns(port, numbers[1], numbers[2]);
    } else if (strcmp(mode, "idle") == 0 && count == 5) {
        double begun = now();
        open_all(port, numbers[1]);
        tell("opened_seconds", now() - begun);
        sleep(numbers[2]);
    } else if (strcmp(mode, "syncs") == 0 && count == 5) {
        syncs(words[2], numbers[1], numbers[2]);
    } else {
        fail("the head of load.c says which words are understood");
    }
    if (refused > 0) {
        tell("refused_handshakes", refused);
    }
    return 0;
}
