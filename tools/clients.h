/* What tools/heard.c and tools/load.c share: clients over plain sockets of loopback. */
#define _GNU_SOURCE
#include <arpa/inet.h>
#include <errno.h>
#include <netinet/tcp.h>
#include <stdio.h>
#include <stdlib.h>
#include <string.h>
#include <sys/epoll.h>
#include <sys/resource.h>
#include <sys/socket.h>
#include <time.h>
#include <unistd.h>

enum { MOST = 20000, BUFFER = 1 << 16 };

struct client {
    int socket;
    char *bytes;
    size_t length;
    int heard, sent, back;
};

static struct client clients[MOST];

static double microseconds(struct timespec t) {
    return t.tv_sec * 1e6 + t.tv_nsec / 1e3;
}

/* The time of a clock of the host, in microseconds. */
static double time_of(clockid_t clock) {
    struct timespec t;
    clock_gettime(clock, &t);
    return microseconds(t);
}

static void fail(const char *what) {
    fprintf(stderr, "%s: %s\n", what, strerror(errno));
    exit(1);
}

static void put(int socket, const void *bytes, size_t length) {
    for (const char *at = bytes; length > 0;) {
        ssize_t sent = send(socket, at, length, 0);
        if (sent <= 0) fail("send");
        at += sent;
        length -= sent;
    }
}

/* Writes the frame of a text below 126 bytes, with a mask of zeros, and answers how many bytes it has. */
static size_t frame(char *to, const char *text) {
    size_t length = strlen(text);
    memcpy(to, (char[]){0x81, 0x80 | length, 0, 0, 0, 0}, 6);
    memcpy(to + 6, text, length);
    return 6 + length;
}

static void say(int socket, const char *text) {
    char bytes[160];
    put(socket, bytes, frame(bytes, text));
}

/* Reads what there is. */
static void more(struct client *client) {
    ssize_t count = recv(client->socket, client->bytes + client->length, BUFFER - client->length, 0);
    if (count <= 0) fail("a connection ended");
    client->length += count;
}

/* Reads what there is, and throws the front away where there is much of it. */
static void take(struct client *client) {
    if (client->length > BUFFER / 2) {
        memmove(client->bytes, client->bytes + client->length - 256, 256);
        client->length = 256;
    }
    more(client);
}

static int has(struct client *client, const char *part) {
    return memmem(client->bytes, client->length, part, strlen(part)) != NULL;
}

/* Connects client `i`. Where the server isn't plain, it names itself, and joins the lobby if it is a member. */
static void enter(int i, int port, int is_member, int is_plain) {
    static const char request[] =
        "GET / HTTP/1.1\r\nHost: x\r\nUpgrade: websocket\r\nConnection: Upgrade\r\n"
        "Sec-WebSocket-Key: dGhlIHNhbXBsZSBub25jZQ==\r\nSec-WebSocket-Version: 13\r\n\r\n";
    struct sockaddr_in address = {.sin_family = AF_INET, .sin_port = htons(port), .sin_addr = {htonl(INADDR_LOOPBACK)}};
    struct client *client = &clients[i];
    int one = 1;
    char text[64];
    client->socket = socket(AF_INET, SOCK_STREAM, 0);
    client->bytes = malloc(BUFFER);
    if (client->socket < 0 || !client->bytes || connect(client->socket, (void *)&address, sizeof address)) fail("connect");
    setsockopt(client->socket, IPPROTO_TCP, TCP_NODELAY, &one, sizeof one);
    put(client->socket, request, sizeof request - 1);
    while (!has(client, "\r\n\r\n")) take(client);
    if (is_plain) return;
    snprintf(text, sizeof text, "|/trn member%d,0,", i);
    say(client->socket, text);
    while (!has(client, "|updateuser| member")) take(client);
    if (!is_member) return;
    say(client->socket, "|/join lobby");
    while (!has(client, "|init|chat")) take(client);
}

/* Lets the process have as many descriptors as the host allows. */
static void take_all_descriptors(void) {
    struct rlimit most;
    if (getrlimit(RLIMIT_NOFILE, &most)) fail("getrlimit");
    most.rlim_cur = most.rlim_max;
    if (setrlimit(RLIMIT_NOFILE, &most)) fail("setrlimit");
}
