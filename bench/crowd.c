// Clients of one server, all of one thread:
//
//     crowd ADDRESS CLIENTS PIECE MILLISECONDS REQUEST REPLY [ATTACH ATTACHED]
//
// Each client sends PIECE times the REQUEST to the socket at ADDRESS, waits for as many times the
// REPLY, and begins again. With ATTACH the first client does so alone, one request at a time, and
// begins again when every other client, who sent ATTACH and got what ends with ATTACHED, has one
// event more, which is a message that ends with `false`. What is sent and what comes is given
// in hexadecimal digits.
//
// It prints `ready` once all are there and served, and begins at a line of input. Then it prints
// the requests that were answered, the nanoseconds that took, the requests of the slowest and of
// the quickest client, and the most nanoseconds that a piece waited for its last reply. It ends at
// another line.
#include <errno.h>
#include <stdarg.h>
#include <stdio.h>
#include <stdlib.h>
#include <string.h>
#include <sys/epoll.h>
#include <sys/socket.h>
#include <sys/un.h>
#include <time.h>
#include <unistd.h>

struct bytes {
    unsigned char *at;
    size_t length;
};

struct client {
    int socket;
    size_t at;       // how much of a piece's replies came
    long asked;      // when the piece was sent
    long answered;   // how many requests were answered
};

static void fail(const char *what) {
    fprintf(stderr, "crowd: %s: %s\n", what, strerror(errno));
    exit(1);
}

static long now(void) {
    struct timespec time;
    clock_gettime(CLOCK_MONOTONIC, &time);
    return time.tv_sec * 1000000000L + time.tv_nsec;
}

static struct bytes of_digits(const char *digits, size_t times) {
    size_t length = strlen(digits) / 2;
    struct bytes found = {malloc(length * times + 1), length * times};
    for (size_t k = 0; k < found.length; k++) {
        unsigned byte;
        if (sscanf(digits + k % length * 2, "%2x", &byte) != 1) fail(digits);
        found.at[k] = byte;
    }
    return found;
}

static int connected(const char *address) {
    struct sockaddr_un to = {.sun_family = AF_UNIX};
    strncpy(to.sun_path, address, sizeof to.sun_path - 1);
    int made = socket(AF_UNIX, SOCK_STREAM, 0);
    if (made < 0 || connect(made, (struct sockaddr *)&to, sizeof to) < 0) fail(address);
    return made;
}

static void put(struct client *client, struct bytes what) {
    client->at = 0;
    client->asked = now();
    for (size_t done = 0; done < what.length;) {
        ssize_t count = send(client->socket, what.at + done, what.length - done, 0);
        if (count <= 0) fail("send");
        done += count;
    }
}

// What came, which must go on as it is wanted; whether that is all.
static int got(struct client *client, struct bytes wanted) {
    unsigned char piece[65536];
    ssize_t count = recv(client->socket, piece, sizeof piece, 0);
    if (count <= 0) fail("recv");
    if (client->at + count > wanted.length || memcmp(piece, wanted.at + client->at, count)) {
        errno = EPROTO;
        fail("not the reply that is wanted");
    }
    client->at += count;
    return client->at == wanted.length;
}

// Whether what came ends with this.
static int told(struct client *client, struct bytes end) {
    unsigned char piece[65536];
    ssize_t count = recv(client->socket, piece, sizeof piece, 0);
    if (count <= 0) fail("recv");
    size_t length = end.length;
    return (size_t)count >= length && !memcmp(piece + count - length, end.at, length);
}

static struct bytes request, reply;
static struct client *clients;
static int count, poll, follows;
static long slowest;

static struct client *next_ready(void) {
    static struct epoll_event found[256];
    static int have, at;
    if (at == have) {
        have = epoll_wait(poll, found, 256, 20000);
        if (have <= 0) fail("no reply");
        at = 0;
    }
    return &clients[found[at++].data.u32];
}

static void answered(struct client *client, int piece) {
    long took = now() - client->asked;
    if (took > slowest) slowest = took;
    client->answered += piece;
}

// All clients ask until this time, and are answered.
static void ask_until(long end, int piece) {
    int open = count;
    for (int k = 0; k < count; k++) put(&clients[k], request);
    while (open > 0) {
        struct client *client = next_ready();
        if (!got(client, reply)) continue;
        answered(client, piece);
        if (now() < end) put(client, request);
        else open--;
    }
}

// The first client asks until this time, each time when all others were told.
static void tell_until(long end) {
    struct bytes no = {(unsigned char *)"\xc2", 1};
    do {
        int open = count;
        put(&clients[0], request);
        while (open > 0) {
            struct client *client = next_ready();
            open -= client == &clients[0] ? got(client, reply) : told(client, no);
        }
        answered(&clients[0], 1);
    } while (now() < end);
}

static void run_for(long milliseconds, int piece) {
    long end = now() + milliseconds * 1000000L;
    if (follows) tell_until(end);
    else ask_until(end, piece);
}

int main(int words, char **word) {
    if (words != 7 && words != 9) {
        fprintf(stderr, "crowd: six words or eight, as crowd.c says\n");
        return 2;
    }
    count = atoi(word[2]);
    int piece = atoi(word[3]);
    follows = words == 9;
    request = of_digits(word[5], piece);
    reply = of_digits(word[6], piece);
    clients = calloc(count, sizeof *clients);
    poll = epoll_create1(0);
    for (int k = 0; k < count; k++) {
        clients[k].socket = connected(word[1]);
        struct epoll_event event = {.events = EPOLLIN, .data.u32 = k};
        epoll_ctl(poll, EPOLL_CTL_ADD, clients[k].socket, &event);
        if (follows && k > 0) {
            put(&clients[k], of_digits(word[7], 1));
            while (!told(&clients[k], of_digits(word[8], 1))) {}
        }
    }
    run_for(200, piece);
    for (int k = 0; k < count; k++) clients[k].answered = 0;
    slowest = 0;
    printf("ready\n");
    fflush(stdout);
    char line[16];
    if (!fgets(line, sizeof line, stdin)) return 1;
    long begun = now();
    run_for(atol(word[4]), piece);
    long took = now() - begun, all = 0, least = clients[0].answered, most = 0;
    for (int k = 0; k < count; k++) {
        long each = clients[k].answered;
        all += each;
        if (each < least) least = each;
        if (each > most) most = each;
    }
    printf("%ld %ld %ld %ld %ld\n", all, took, least, most, slowest);
    fflush(stdout);
    return fgets(line, sizeof line, stdin) == NULL;
}
