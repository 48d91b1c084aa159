/* The clients of a server of channels, to measure it with: `bench/channels.py` runs them.

   usage: load window COUNT BYTES FOLDER ADDRESS ..            the time of an acknowledged message and of a ping at each address in turn, and of the bare
                                                                file calls in FOLDER
          load spread READERS MESSAGES BYTES ROUNDS ADDRESS ..  the messages at each address in turn, and until each reader has each of them
          load history CHANNEL ROUNDS ADDRESS ..                a whole history of each address in turn
          load hold COUNT ADDRESS                               connections that are silent until standard input ends
          load slow READERS MESSAGES BYTES ADDRESS              readers that read nothing, and a writer
          load bare COUNT BYTES FOLDER                          the bare file calls alone

   ADDRESS is IP:PORT, and may have a slash and the number of the server's process behind it: then its processor time is told too. Each row is a name, what
   it tells, and one number, or a median, the tenths below and above it, and the mean. */

#define _GNU_SOURCE
#include <arpa/inet.h>
#include <errno.h>
#include <fcntl.h>
#include <netinet/tcp.h>
#include <stdbool.h>
#include <stdint.h>
#include <stdio.h>
#include <stdlib.h>
#include <string.h>
#include <sys/epoll.h>
#include <sys/resource.h>
#include <sys/socket.h>
#include <time.h>
#include <unistd.h>

enum { PIECE = 1 << 18, EVENTS = 1024 };

/* A connection, the bytes that came over it and were not taken, and how many texts came. */
struct peer {
    int fd;
    char *in;
    size_t taken, length, room;
    unsigned long texts, bytes;
};

static void ended(const char *what) {
    perror(what);
    exit(1);
}

static double now(void) {
    struct timespec time;
    clock_gettime(CLOCK_MONOTONIC, &time);
    return time.tv_sec + time.tv_nsec / 1e9;
}

/* The seconds of processor time that the server of an address has taken so far, if its process is named. */
static double used(const char *address) {
    const char *process = strchr(address, '/');
    char path[64];
    double nanoseconds = 0;
    FILE *file;
    if (!process) return 0;
    snprintf(path, sizeof path, "/proc/%.20s/schedstat", process + 1);
    if (!(file = fopen(path, "r"))) ended(path);
    if (fscanf(file, "%lf", &nanoseconds) != 1) ended(path);
    fclose(file);
    return nanoseconds / 1e9;
}

static int by_size(const void *a, const void *b) {
    double x = *(const double *)a, y = *(const double *)b;
    return (x > y) - (x < y);
}

/* The median of figures, which it sorts. */
static double median(double *figures, int count) {
    qsort(figures, count, sizeof *figures, by_size);
    return count % 2 ? figures[count / 2] : (figures[count / 2 - 1] + figures[count / 2]) / 2;
}

static void send_all(int fd, const char *at, size_t length) {
    while (length) {
        ssize_t count = send(fd, at, length, MSG_NOSIGNAL);
        if (count < 0) ended("send");
        at += count;
        length -= count;
    }
}

/* Reads once what came, behind what was not taken. */
static void fill(struct peer *p, int flags) {
    memmove(p->in, p->in + p->taken, p->length - p->taken);
    p->length -= p->taken;
    p->taken = 0;
    if (p->room - p->length < PIECE && !(p->in = realloc(p->in, p->room = 2 * p->length + PIECE))) ended("memory");
    ssize_t count = recv(p->fd, p->in + p->length, p->room - p->length, flags);
    if (count == 0) {
        fprintf(stderr, "a connection was hung up\n");
        exit(1);
    }
    if (count < 0 && errno != EAGAIN) ended("recv");
    if (count > 0) p->length += count;
}

/* The next text of those that came whole, or none. */
static bool take(struct peer *p, char **text, size_t *size) {
    unsigned char *at = (unsigned char *)p->in + p->taken;
    size_t here = p->length - p->taken, head = 2, length;
    if (here < 2) return false;
    length = at[1];
    if (length > 125) head += length == 126 ? 2 : 8;
    if (here < head) return false;
    if (head > 2) {
        length = 0;
        for (size_t i = 2; i < head; i++) length = length << 8 | at[i];
    }
    if (here < head + length) return false;
    if (at[0] != 0x81) ended("a frame");
    *text = (char *)at + head;
    *size = length;
    p->taken += head + length;
    p->texts++;
    p->bytes += head + length;
    return true;
}

static size_t hear(struct peer *p, char **text) {
    size_t size;
    while (!take(p, text, &size)) fill(p, 0);
    return size;
}

/* Says a text, masked with zeros. */
static void say(struct peer *p, const char *text) {
    size_t length = strlen(text), head = length < 126 ? 2 : length < 65536 ? 4 : 10;
    unsigned char *frame = calloc(1, head + 4 + length);
    frame[0] = 0x81;
    frame[1] = 128 | (head == 2 ? length : head == 4 ? 126 : 127);
    for (size_t i = 2; i < head; i++) frame[i] = (uint64_t)length >> 8 * (head - 1 - i);
    memcpy(frame + head + 4, text, length);
    send_all(p->fd, (char *)frame, head + 4 + length);
    free(frame);
}

/* A connection to IP:PORT, after its handshake and its identity. With `buffer` the system keeps so many bytes for it that it has not read. */
static struct peer entered(const char *address, int buffer) {
    static const char request[] =
        "GET / HTTP/1.1\r\nHost: localhost\r\nUpgrade: websocket\r\nConnection: Upgrade\r\n"
        "Sec-WebSocket-Key: dGhlIHNhbXBsZSBub25jZQ==\r\nSec-WebSocket-Version: 13\r\n\r\n";
    struct sockaddr_in to = {.sin_family = AF_INET};
    char ip[64], *text;
    int port, yes = 1;
    struct peer p = {.fd = socket(AF_INET, SOCK_STREAM, 0)};
    if (p.fd < 0 || sscanf(address, "%63[^:]:%d", ip, &port) != 2) ended("an address");
    to.sin_port = htons(port);
    inet_pton(AF_INET, ip, &to.sin_addr);
    if (buffer) setsockopt(p.fd, SOL_SOCKET, SO_RCVBUF, &buffer, sizeof buffer);
    setsockopt(p.fd, IPPROTO_TCP, TCP_NODELAY, &yes, sizeof yes);
    if (connect(p.fd, (struct sockaddr *)&to, sizeof to)) ended("connect");
    send_all(p.fd, request, sizeof request - 1);
    for (;;) {
        char head[1024];
        ssize_t count = recv(p.fd, head, sizeof head, MSG_PEEK);
        if (count <= 0) ended("a handshake");
        char *end = memmem(head, count, "\r\n\r\n", 4);
        if (!end) continue;
        recv(p.fd, head, end + 4 - head, 0);
        break;
    }
    hear(&p, &text);
    return p;
}

/* Joins a channel, and gives the keeper's name. */
static void join(struct peer *p, const char *channel, char *keeper) {
    char *text, words[128];
    snprintf(words, sizeof words, "[1,\"JOIN\",\"%s\"]", channel);
    say(p, words);
    hear(p, &text);
    hear(p, &text);
    memcpy(keeper, text + 4, 16);
    keeper[16] = 0;
}

static void channel_name(char *name) {
    unsigned char bytes[16];
    int file = open("/dev/urandom", O_RDONLY);
    if (file < 0 || read(file, bytes, 16) != 16) ended("random bytes");
    close(file);
    for (int i = 0; i < 16; i++) sprintf(name + 2 * i, "%02x", bytes[i]);
}

/* A message of this many bytes to a channel. */
static char *message_of(const char *channel, int bytes) {
    char *text = malloc(bytes + 128);
    int head = sprintf(text, "[2,\"MSG\",\"%s\",\"", channel);
    for (int i = 0; i < bytes; i++) text[head + i] = 'a' + i % 26;
    strcpy(text + head + bytes, "\"]");
    return text;
}

static bool is_ack(const char *text, size_t size) {
    return size == 9 && !memcmp(text, "[2,\"ACK\"]", 9);
}

/* A file to which entries are added by the four calls alone. */
struct bare {
    int file, bytes;
    off_t gate;
    char *entry;
};

static struct bare bare_in(const char *folder, int bytes) {
    char path[4096];
    snprintf(path, sizeof path, "%s/bare", folder);
    struct bare b = {.file = open(path, O_RDWR | O_CREAT | O_TRUNC, 0666), .bytes = bytes + 45, .gate = 8, .entry = calloc(1, bytes + 45)};
    if (b.file < 0 || pwrite(b.file, "PADLOG2\n", 9, 0) != 9 || fsync(b.file)) ended(path);
    return b;
}

static void append(struct bare *b) {
    if (pwrite(b->file, b->entry, b->bytes, b->gate + 1) != b->bytes || fdatasync(b->file)) ended("write");
    if (pwrite(b->file, "\1", 1, b->gate) != 1 || fdatasync(b->file)) ended("write");
    b->gate += b->bytes;
}

static void tell(const char *name, const char *what, double *figures, int count) {
    double middle = median(figures, count), sum = 0;
    for (int i = 0; i < count; i++) sum += figures[i];
    printf("%s %s %.9g %.9g %.9g %.9g\n", name, what, middle, figures[count / 10], figures[count * 9 / 10], sum / count);
    fflush(stdout);
}

static void ask(struct peer *p, const char *words, const char *wanted) {
    char *text;
    say(p, words);
    size_t size = hear(p, &text);
    if (size != strlen(wanted) || memcmp(text, wanted, size)) ended("an answer");
}

static void window(int count, int bytes, const char *folder, char **addresses, int places) {
    struct peer peers[places + 1];
    int kinds = 2 * places + 1;
    double *times[kinds];
    char channel[33], keeper[17], *text, *message;
    struct bare bare = bare_in(folder, bytes);
    channel_name(channel);
    message = message_of(channel, bytes);
    for (int i = 0; i < kinds; i++) times[i] = calloc(count, sizeof **times);
    for (int i = 0; i < places; i++) {
        peers[i] = entered(addresses[i], 0);
        join(&peers[i], channel, keeper);
        hear(&peers[i], &text);
        ask(&peers[i], message, "[2,\"ACK\"]");
    }
    for (int turn = 0; turn < count; turn++)
        for (int place = 0; place < kinds; place++) {
            int which = (turn / 2 + (turn % 2 ? kinds - 1 - place : place)) % kinds; /* forwards and backwards, from each on */
            double begun = now();
            if (which == 2 * places) append(&bare);
            else if (which < places) ask(&peers[which], message, "[2,\"ACK\"]");
            else ask(&peers[which - places], "[3,\"PING\"]", "[3,\"ACK\"]");
            times[which][turn] = now() - begun;
        }
    for (int i = 0; i < places; i++) {
        tell(addresses[i], "seconds", times[i], count);
        tell(addresses[i], "ping", times[places + i], count);
    }
    tell("bare", "seconds", times[2 * places], count);
}

/* Reads over all connections until so many texts more came over each. */
static void drain(int epoll, struct peer *peers, int count, unsigned long more) {
    unsigned long wanted = 0, got = 0;
    struct epoll_event events[EVENTS];
    char *text;
    size_t size;
    wanted = more * count;
    for (int i = 0; i < count; i++)
        while (take(&peers[i], &text, &size)) got++;
    while (got < wanted) {
        int ready = epoll_wait(epoll, events, EVENTS, 60000);
        if (ready <= 0) ended("nothing more came");
        for (int i = 0; i < ready; i++) {
            struct peer *p = &peers[events[i].data.u32];
            fill(p, MSG_DONTWAIT);
            while (take(p, &text, &size)) got++;
        }
    }
}

static void spread(int readers, int messages, int bytes, int rounds, char **addresses, int places) {
    struct peer *peers[places];
    int epolls[places];
    double *rates[places];
    char channel[33], *message, words[128];
    channel_name(channel);
    message = message_of(channel, bytes);
    snprintf(words, sizeof words, "[1,\"JOIN\",\"%s\"]", channel);
    for (int i = 0; i < places; i++) {
        rates[i] = calloc(rounds, sizeof **rates);
        peers[i] = calloc(readers + 1, sizeof **peers);
        epolls[i] = epoll_create1(0);
        for (int j = 0; j <= readers; j++) {
            peers[i][j] = entered(addresses[i], 0);
            struct epoll_event event = {.events = EPOLLIN, .data.u32 = j};
            epoll_ctl(epolls[i], EPOLL_CTL_ADD, peers[i][j].fd, &event);
        }
        double begun = now();
        for (int j = 0; j <= readers; j++) say(&peers[i][j], words);
        /* Each hears JACK, the keeper, and of all who are there. */
        drain(epolls[i], peers[i], readers + 1, readers + 3);
        printf("%s joins %.9g\n", addresses[i], (readers + 1.0) * (readers + 3) / (now() - begun));
    }
    double before[places];
    for (int i = 0; i < places; i++) before[i] = used(addresses[i]);
    for (int turn = 0; turn < rounds; turn++)
        for (int place = 0; place < places; place++) {
            int which = (turn + place) % places;
            double begun = now();
            for (int i = 0; i < messages; i++) say(&peers[which][0], message);
            drain(epolls[which], peers[which], readers + 1, messages);
            rates[which][turn] = (double)readers * messages / (now() - begun);
        }
    for (int i = 0; i < places; i++) {
        tell(addresses[i], "deliveries", rates[i], rounds);
        printf("%s processor %.9g\n", addresses[i], (used(addresses[i]) - before[i]) / rounds / messages / readers);
    }
}

/* Asks for a whole history, and gives how many bytes came, and how many texts. */
static unsigned long whole(struct peer *p, const char *channel, const char *keeper, unsigned long *texts) {
    char words[256], *text;
    unsigned long bytes = p->bytes, before = p->texts;
    size_t size;
    snprintf(words, sizeof words, "[5,\"MSG\",\"%s\",\"[\\\"GET_FULL_HISTORY\\\",\\\"%s\\\"]\"]", keeper, channel);
    say(p, words);
    do size = hear(p, &text);
    while (size < 40 || memcmp(text + 21, ",\"HISTORY_END\"", 14));
    *texts = p->texts - before;
    return p->bytes - bytes;
}

static void history(const char *channel, int rounds, char **addresses, int places) {
    struct peer peers[places];
    double *rates[places];
    double before[places];
    char keepers[places][17], *text;
    unsigned long texts;
    for (int i = 0; i < places; i++) {
        peers[i] = entered(addresses[i], 0);
        join(&peers[i], channel, keepers[i]);
        hear(&peers[i], &text);
        rates[i] = calloc(rounds, sizeof **rates);
        double begun = now();
        whole(&peers[i], channel, keepers[i], &texts);
        printf("%s first %.9g\n", addresses[i], now() - begun);
        before[i] = used(addresses[i]);
    }
    for (int turn = 0; turn < rounds; turn++)
        for (int place = 0; place < places; place++) {
            int which = (turn + place) % places;
            double begun = now();
            unsigned long bytes = whole(&peers[which], channel, keepers[which], &texts);
            rates[which][turn] = bytes / (now() - begun);
        }
    printf("texts %lu\n", texts);
    for (int i = 0; i < places; i++) {
        tell(addresses[i], "bytes", rates[i], rounds);
        printf("%s processor %.9g\n", addresses[i], (used(addresses[i]) - before[i]) / rounds / texts);
    }
}

static void wait_for_end(void) {
    char byte;
    printf("ready\n");
    fflush(stdout);
    while (read(0, &byte, 1) > 0) {}
}

static void hold(int count, const char *address) {
    for (int i = 0; i < count; i++) {
        struct peer p = entered(address, 0);
        free(p.in);
    }
    wait_for_end();
}

/* Readers that join a channel and read nothing, with as few bytes kept for them by the system as it allows, and a writer. */
static void slow(int readers, int messages, int bytes, const char *address) {
    char channel[33], keeper[17], *text, words[128];
    channel_name(channel);
    snprintf(words, sizeof words, "[1,\"JOIN\",\"%s\"]", channel);
    for (int i = 0; i < readers; i++) {
        struct peer p = entered(address, 4096);
        free(p.in);
        say(&p, words);
    }
    struct peer writer = entered(address, 0);
    join(&writer, channel, keeper);
    char *message = message_of(channel, bytes);
    int lost = 0;
    for (int i = 0; i < messages; i++) {
        say(&writer, message);
        for (;;) {
            size_t size = hear(&writer, &text);
            if (is_ack(text, size)) break;
            lost += size > 60 && !memcmp(text + 37, ",\"LEAVE\"", 8);
        }
    }
    say(&writer, "[3,\"PING\"]");
    for (;;) {
        size_t size = hear(&writer, &text);
        if (size == 9 && text[1] == '3') break;
        lost += size > 60 && !memcmp(text + 37, ",\"LEAVE\"", 8);
    }
    printf("lost %d\n", lost);
    wait_for_end();
}

int main(int count, char **words) {
    struct rlimit limit;
    getrlimit(RLIMIT_NOFILE, &limit);
    limit.rlim_cur = limit.rlim_max;
    setrlimit(RLIMIT_NOFILE, &limit);
    const char *what = count > 1 ? words[1] : "";
    if (!strcmp(what, "window") && count > 5) {
        window(atoi(words[2]), atoi(words[3]), words[4], words + 5, count - 5);
    } else if (!strcmp(what, "spread") && count > 6) {
        spread(atoi(words[2]), atoi(words[3]), atoi(words[4]), atoi(words[5]), words + 6, count - 6);
    } else if (!strcmp(what, "history") && count > 4) {
        history(words[2], atoi(words[3]), words + 4, count - 4);
    } else if (!strcmp(what, "hold") && count == 4) {
        hold(atoi(words[2]), words[3]);
    } else if (!strcmp(what, "slow") && count == 6) {
        slow(atoi(words[2]), atoi(words[3]), atoi(words[4]), words[5]);
    } else if (!strcmp(what, "bare") && count == 5) {
        window(atoi(words[2]), atoi(words[3]), words[4], words, 0);
    } else {
        return 2;
    }
    return 0;
}
