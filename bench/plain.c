/* A plain server of channels, to measure `padnet serve` against: it makes the same file calls and sends the same WebSocket texts, and promises nothing.

   usage: plain IP:PORT FOLDER [apart]

   It knows PING, JOIN, MSG and the question GET_FULL_HISTORY, takes well-formed texts alone, and ends where anything fails. A message is stored by four
   calls: a write of the entry, a sync, a write of the gate, a sync. A text to many readers is made once. A history is read from the file again each time, in one piece, and sent so;
   with `apart` it is read by a call for each entry, and each text is sent by a call. */

#define _GNU_SOURCE
#include <arpa/inet.h>
#include <errno.h>
#include <fcntl.h>
#include <netinet/tcp.h>
#include <stdbool.h>
#include <stdint.h>
#include <stdio.h>
#include <stdlib.h>
#include <string.h>
#include <sys/epoll.h>
#include <sys/resource.h>
#include <sys/socket.h>
#include <sys/stat.h>
#include <time.h>
#include <unistd.h>

#define KEEPER "00000000000000ff"
#define GREETING "HTTP/1.1 101 Switching Protocols\r\nUpgrade: websocket\r\nConnection: Upgrade\r\nSec-WebSocket-Accept: s3pPLMBiTxaQ9kYGzzhZRbK+xOo=\r\n\r\n"
enum { MOST_PEERS = 65536, MOST_CHANNELS = 4096, EVENTS = 1024, PIECE = 1 << 16 };

struct bytes {
    char *at;
    size_t taken, length, room;
};

struct peer {
    bool is_open, waits;
    char name[33];
    struct bytes in, out;
};

struct channel {
    char name[33];
    int file;
    off_t gate;
    int *members;
    size_t count, room;
};

/* A part of a text that came: a string of it without its quotes and escapes, or a number. */
struct part {
    char *at;
    size_t length;
};

static struct peer peers[MOST_PEERS];
static struct channel channels[MOST_CHANNELS];
static size_t channel_count;
static int epoll;
static bool apart;
static const char *folder;

static void ended(const char *what) {
    perror(what);
    exit(1);
}

static void reserve(struct bytes *b, size_t more) {
    if (b->length + more > b->room) {
        b->room = 2 * b->room + more + 256;
        if (!(b->at = realloc(b->at, b->room))) ended("memory");
    }
}

static void add(struct bytes *b, const char *from, size_t count) {
    reserve(b, count);
    memcpy(b->at + b->length, from, count);
    b->length += count;
}

static void add_word(struct bytes *b, const char *word) {
    add(b, word, strlen(word));
}

static void add_number(struct bytes *b, unsigned long number) {
    char digits[32];
    add(b, digits, sprintf(digits, "%lu", number));
}

/* A JSON string. */
static void add_string(struct bytes *b, const char *from, size_t count) {
    reserve(b, 6 * count + 2);
    char *to = b->at + b->length;
    *to++ = '"';
    for (size_t i = 0; i < count; i++) {
        unsigned char byte = from[i];
        const char *at = byte < 0x20 || byte == '"' || byte == '\\' ? strchr("\bb\ff\nn\rr\tt\"\"\\\\", byte) : NULL;
        if (at && byte) {
            *to++ = '\\';
            *to++ = at[1];
        } else if (byte < 0x20) {
            to += sprintf(to, "\\u%04x", byte);
        } else {
            *to++ = byte;
        }
    }
    *to++ = '"';
    b->length = to - b->at;
}

/* A frame with this text behind the others. */
static void add_frame(struct bytes *b, const char *text, size_t length) {
    unsigned char head[10] = {0x81};
    size_t size = 2;
    if (length < 126) {
        head[1] = length;
    } else {
        size = length < 65536 ? 4 : 10;
        head[1] = size == 4 ? 126 : 127;
        for (size_t i = 2; i < size; i++) head[i] = (uint64_t)length >> 8 * (size - 1 - i);
    }
    add(b, (char *)head, size);
    add(b, text, length);
}

static void watch(int fd, int how) {
    struct epoll_event event = {.events = EPOLLIN | (peers[fd].waits ? EPOLLOUT : 0), .data.fd = fd};
    if (epoll_ctl(epoll, how, fd, &event)) ended("epoll_ctl");
}

static void flush(int fd) {
    struct peer *p = &peers[fd];
    while (p->out.taken < p->out.length) {
        ssize_t count = send(fd, p->out.at + p->out.taken, p->out.length - p->out.taken, MSG_NOSIGNAL);
        if (count < 0 && errno == EAGAIN) break;
        if (count < 0) p->out.taken = p->out.length;
        else p->out.taken += count;
    }
    bool waits = p->out.taken < p->out.length;
    if (!waits) p->out.taken = p->out.length = 0;
    if (waits != p->waits) {
        p->waits = waits;
        watch(fd, EPOLL_CTL_MOD);
    }
}

/* Sends bytes at once, if none wait. */
static void pass(int fd, const char *at, size_t length) {
    struct peer *p = &peers[fd];
    ssize_t gone = 0;
    if (!p->waits && (gone = send(fd, at, length, MSG_NOSIGNAL)) < 0) gone = errno == EAGAIN ? 0 : (ssize_t)length;
    if ((size_t)gone < length) {
        add(&p->out, at + gone, length - gone);
        flush(fd);
    }
}

static void pass_text(int fd, struct bytes *text) {
    static struct bytes frame;
    frame.length = 0;
    add_frame(&frame, text->at, text->length);
    pass(fd, frame.at, frame.length);
}

static void begin(struct bytes *text, const char *seq) {
    text->length = 0;
    add_word(text, "[");
    add_word(text, seq);
}

static void answer(int fd, const char *seq, const char *word, const char *about) {
    static struct bytes text;
    begin(&text, seq);
    add_word(&text, ",");
    add_string(&text, word, strlen(word));
    if (about) {
        add_word(&text, ",");
        add_string(&text, about, strlen(about));
    }
    add_word(&text, "]");
    pass_text(fd, &text);
}

static void tell_join(int fd, const char *who, const char *channel) {
    static struct bytes text;
    text.length = 0;
    add_word(&text, "[0,\"");
    add_word(&text, who);
    add_word(&text, "\",\"JOIN\",\"");
    add_word(&text, channel);
    add_word(&text, "\"]");
    pass_text(fd, &text);
}

static struct channel *channel_of(const char *name) {
    for (size_t i = 0; i < channel_count; i++)
        if (!strcmp(channels[i].name, name)) return &channels[i];
    if (channel_count == MOST_CHANNELS) ended("channels");
    struct channel *c = &channels[channel_count++];
    char path[4096];
    snprintf(path, sizeof path, "%s/%s.padlog2", folder, name);
    strcpy(c->name, name);
    if ((c->file = open(path, O_RDWR | O_CREAT, 0666)) < 0) ended(path);
    off_t size = lseek(c->file, 0, SEEK_END);
    if (!size) {
        if (pwrite(c->file, "PADLOG2\n", 9, 0) != 9 || fsync(c->file)) ended(path);
        size = 9;
    }
    c->gate = size - 1;
    return c;
}

static void join(int fd, const char *seq, const char *name) {
    struct channel *c = channel_of(name);
    answer(fd, seq, "JACK", name);
    tell_join(fd, KEEPER, name);
    for (size_t i = 0; i < c->count; i++) tell_join(fd, peers[c->members[i]].name, name);
    tell_join(fd, peers[fd].name, name);
    for (size_t i = 0; i < c->count; i++) tell_join(c->members[i], peers[fd].name, name);
    if (c->count == c->room) c->members = realloc(c->members, (c->room = 2 * c->room + 64) * sizeof *c->members);
    c->members[c->count++] = fd;
}

/* The four file calls. */
static void store(struct channel *c, const char *sender, struct part content) {
    static struct bytes entry;
    entry.length = 0;
    uint32_t size = htonl(40 + content.length);
    uint64_t moment = htobe64(time(NULL));
    add(&entry, (char *)&size, 4);
    add(&entry, (char *)&moment, 8);
    add(&entry, sender, 32);
    add(&entry, content.at, content.length);
    add(&entry, "", 1);
    if (pwrite(c->file, entry.at, entry.length, c->gate + 1) != (ssize_t)entry.length || fdatasync(c->file)) ended("write");
    if (pwrite(c->file, "\1", 1, c->gate) != 1 || fdatasync(c->file)) ended("write");
    c->gate += entry.length;
}

static void message(int fd, const char *seq, const char *name, struct part content) {
    static struct bytes text, frame;
    struct channel *c = channel_of(name);
    store(c, peers[fd].name, content);
    answer(fd, seq, "ACK", NULL);
    text.length = frame.length = 0;
    add_word(&text, "[0,\"");
    add_word(&text, peers[fd].name);
    add_word(&text, "\",\"MSG\",\"");
    add_word(&text, name);
    add_word(&text, "\",");
    add_string(&text, content.at, content.length);
    add_word(&text, "]");
    add_frame(&frame, text.at, text.length);
    for (size_t i = 0; i < c->count; i++)
        if (c->members[i] != fd) pass(c->members[i], frame.at, frame.length);
}

/* Reads an entry at its place in the log, with a call of 512 bytes and one more for what is longer, in place of a table of the entries. */
static bool read_entry(struct channel *c, char *log, off_t at) {
    uint32_t size;
    off_t rest = c->gate - at, first = rest < 512 ? rest : 512;
    if (pread(c->file, log + at, first, at) != first) return false;
    memcpy(&size, log + at + 1, 4);
    size = 5 + ntohl(size);
    return size <= first || (size <= rest && pread(c->file, log + at + first, size - first, at + first) == (ssize_t)(size - first));
}

static void history(int fd, const char *seq, const char *name) {
    static struct bytes text;
    struct channel *c = channel_of(name);
    char *log = malloc(c->gate + 1);
    if (!log) ended("memory");
    for (off_t done = 0; !apart && done < c->gate;) {
        ssize_t count = pread(c->file, log + done, c->gate - done, done);
        if (count <= 0) ended("read");
        done += count;
    }
    answer(fd, seq, "ACK", NULL);
    unsigned long index = 0;
    for (char *at = log + 8; at < log + c->gate;) {
        uint32_t size;
        if (apart && !read_entry(c, log, at - log)) ended("read");
        memcpy(&size, at + 1, 4);
        size = ntohl(size);
        at += 5 + size;
        if (!size) continue;
        text.length = 0;
        add_word(&text, "[0,\"" KEEPER "\",\"HISTORY\",\"");
        add_word(&text, name);
        add_word(&text, "\",");
        add_number(&text, index++);
        add_word(&text, ",\"");
        add(&text, at - size + 8, 32);
        add_word(&text, "\",");
        add_string(&text, at - size + 40, size - 40);
        add_word(&text, "]");
        if (apart) pass_text(fd, &text);
        else add_frame(&peers[fd].out, text.at, text.length);
    }
    text.length = 0;
    add_word(&text, "[0,\"" KEEPER "\",\"HISTORY_END\",\"");
    add_word(&text, name);
    add_word(&text, "\",");
    add_number(&text, index);
    add_word(&text, "]");
    add_frame(&peers[fd].out, text.at, text.length);
    free(log);
    flush(fd);
}

/* The parts of a list of strings and numbers, in place: each ends with a zero. */
static int parts_of(char *at, struct part *parts, int most) {
    int count = 0;
    char *from = at, next = ',';
    while (next == ',' && count < most) {
        char *to = ++from;
        if (*from != '"') {
            parts[count].at = from;
            from += strspn(from, "0123456789");
            to = from;
        } else {
            parts[count].at = to = ++from;
            while (*from && *from != '"') {
                if (*from != '\\') {
                    *to++ = *from++;
                    continue;
                }
                const char *is = strchr("b\bf\fn\nr\rt\t\"\"\\\\//", from[1]);
                if (!is) ended("an escape");
                *to++ = is[1];
                from += 2;
            }
            from++;
        }
        parts[count].length = to - parts[count].at;
        next = *from;
        *to = 0;
        count++;
    }
    return count;
}

static void take(int fd, char *text) {
    struct part parts[4], asked[2];
    int count = parts_of(text, parts, 4);
    if (count == 3 && !strcmp(parts[1].at, "JOIN")) {
        join(fd, parts[0].at, parts[2].at);
    } else if (count == 4 && !strcmp(parts[1].at, "MSG") && !strcmp(parts[2].at, KEEPER)) {
        if (parts_of(parts[3].at, asked, 2) != 2 || strcmp(asked[0].at, "GET_FULL_HISTORY")) ended("a question");
        history(fd, parts[0].at, asked[1].at);
    } else if (count == 4 && !strcmp(parts[1].at, "MSG")) {
        message(fd, parts[0].at, parts[2].at, parts[3]);
    } else if (count == 2 && !strcmp(parts[1].at, "PING")) {
        answer(fd, parts[0].at, "ACK", NULL);
    } else {
        ended("a text");
    }
}

/* Takes the frames that came whole. */
static void take_frames(int fd) {
    struct peer *p = &peers[fd];
    for (;;) {
        unsigned char *at = (unsigned char *)p->in.at + p->in.taken;
        size_t here = p->in.length - p->in.taken, head = 2, length;
        if (here < 2) break;
        length = at[1] & 127;
        if (length > 125) head += length == 126 ? 2 : 8;
        if (here < head + 4) break;
        if (head > 2) {
            length = 0;
            for (size_t i = 2; i < head; i++) length = length << 8 | at[i];
        }
        if (here < head + 4 + length) break;
        unsigned char *mask = at + head, *text = mask + 4;
        for (size_t i = 0; i < length; i++) text[i] ^= mask[i & 3];
        p->in.taken += head + 4 + length;
        unsigned char next = text[length];
        text[length] = 0;
        take(fd, (char *)text);
        ((unsigned char *)p->in.at)[p->in.taken] = next;
    }
    memmove(p->in.at, p->in.at + p->in.taken, p->in.length - p->in.taken);
    p->in.length -= p->in.taken;
    p->in.taken = 0;
}

static void leave(int fd) {
    for (size_t i = 0; i < channel_count; i++)
        for (size_t j = 0; j < channels[i].count; j++)
            if (channels[i].members[j] == fd) channels[i].members[j--] = channels[i].members[--channels[i].count];
    close(fd);
    free(peers[fd].in.at);
    free(peers[fd].out.at);
    peers[fd] = (struct peer){0};
}

static void hear(int fd) {
    static unsigned long number;
    struct peer *p = &peers[fd];
    reserve(&p->in, PIECE + 1);
    ssize_t count = recv(fd, p->in.at + p->in.length, PIECE, 0);
    if (count <= 0) {
        if (count == 0 || errno != EAGAIN) leave(fd);
        return;
    }
    p->in.length += count;
    if (p->is_open) {
        take_frames(fd);
    } else if (memmem(p->in.at, p->in.length, "\r\n\r\n", 4)) {
        struct bytes text = {0};
        p->in.length = 0;
        p->is_open = true;
        sprintf(p->name, "%032lx", ++number);
        pass(fd, GREETING, strlen(GREETING));
        add_word(&text, "[0,\"\",\"IDENT\",\"");
        add_word(&text, p->name);
        add_word(&text, "\"]");
        pass_text(fd, &text);
        free(text.at);
    }
}

int main(int count, char **words) {
    struct sockaddr_in address = {.sin_family = AF_INET};
    struct rlimit limit;
    char *port = count == 3 || count == 4 ? strchr(words[1], ':') : NULL;
    if (!port) return 2;
    *port++ = 0;
    address.sin_port = htons(atoi(port));
    inet_pton(AF_INET, words[1], &address.sin_addr);
    folder = words[2];
    apart = count == 4;
    mkdir(folder, 0777);
    getrlimit(RLIMIT_NOFILE, &limit);
    limit.rlim_cur = limit.rlim_max < MOST_PEERS ? limit.rlim_max : MOST_PEERS;
    setrlimit(RLIMIT_NOFILE, &limit);
    int yes = 1, listener = socket(AF_INET, SOCK_STREAM | SOCK_NONBLOCK, 0);
    setsockopt(listener, SOL_SOCKET, SO_REUSEADDR, &yes, sizeof yes);
    if (bind(listener, (struct sockaddr *)&address, sizeof address) || listen(listener, 4096)) ended("listen");
    epoll = epoll_create1(0);
    watch(listener, EPOLL_CTL_ADD);
    for (;;) {
        struct epoll_event events[EVENTS];
        int ready = epoll_wait(epoll, events, EVENTS, -1);
        for (int i = 0; i < ready; i++) {
            int fd = events[i].data.fd;
            if (fd == listener) {
                while ((fd = accept4(listener, NULL, NULL, SOCK_NONBLOCK)) >= 0) {
                    if (fd >= MOST_PEERS) ended("peers");
                    setsockopt(fd, IPPROTO_TCP, TCP_NODELAY, &yes, sizeof yes);
                    watch(fd, EPOLL_CTL_ADD);
                }
                continue;
            }
            if (events[i].events & EPOLLOUT) flush(fd);
            if (events[i].events & ~EPOLLOUT) hear(fd);
        }
    }
}
