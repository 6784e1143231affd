/* How many texts a server that runs lets its members hear in a second.
 *
 *     cc -O2 -o load tools/load.c && ./load PORT CLIENTS TEXTS [plain]
 *
 * CLIENTS clients join the lobby; then each says TEXTS texts of some forty characters, with at most 64 of its own on the way, and reads
 * what all said. Prints how many texts were said and how many heard, by all clients together, and in how many seconds: from when all have
 * joined until all have heard all, CLIENTS times CLIENTS times TEXTS. The server has to have a room `lobby` in which all may talk, and to
 * serve CLIENTS connections; `plain` is as for tools/heard.c.
 */
#include "clients.h"

enum { WINDOW = 64 };
/* A text ends with these words and four digits, which are its client's. */
static const char mark[] = "hello from ";
enum { MARK = sizeof mark - 1, DIGITS = 4 };

/* Says as many texts as may be on the way. */
static void speak(int i, int texts) {
    struct client *client = &clients[i];
    char bytes[WINDOW * 128], text[120];
    size_t length = 0;
    while (client->sent < texts && client->sent - client->back < WINDOW) {
        snprintf(text, sizeof text, "lobby|message %d of the evening, %s%04d", client->sent++, mark, i);
        length += frame(bytes + length, text);
    }
    if (length > 0) put(client->socket, bytes, length);
}

/* Counts the texts in the whole frames that came, and keeps the rest. */
static void count_texts(int i) {
    struct client *client = &clients[i];
    unsigned char *bytes = (unsigned char *)client->bytes;
    char own[16];
    size_t at = 0;
    snprintf(own, sizeof own, "%04d", i);
    while (client->length >= at + 4) {
        size_t begin = at + 2, length = bytes[at + 1];
        if (length == 126) {
            begin = at + 4;
            length = bytes[at + 2] << 8 | bytes[at + 3];
        }
        if (length == 127 || length > BUFFER / 2) fail("a long message");
        if (client->length < begin + length) break;
        at = begin + length;
        if (length > MARK + DIGITS && memcmp(bytes + at - DIGITS - MARK, mark, MARK) == 0) {
            client->heard++;
            client->back += memcmp(bytes + at - DIGITS, own, DIGITS) == 0;
        }
    }
    memmove(client->bytes, client->bytes + at, client->length - at);
    client->length -= at;
}

/* The clients' turn: each says and reads until all have heard all. */
static void talk(int poll, int count, int texts) {
    int left = count;
    for (int i = 0; i < count; i++) speak(i, texts);
    while (left > 0) {
        struct epoll_event events[256];
        int ready = epoll_wait(poll, events, 256, 20000);
        if (ready <= 0) fail("nobody heard");
        for (int e = 0; e < ready; e++) {
            int i = events[e].data.u32;
            int had = clients[i].heard;
            more(&clients[i]);
            count_texts(i);
            speak(i, texts);
            left -= had < count * texts && clients[i].heard == count * texts;
        }
    }
}

/* Throws away what came before, up to the last line that is told of somebody who joined. */
static void forget(int count, int poll) {
    struct epoll_event events[256];
    for (int i = 0; i < count; i++) {
        struct epoll_event event = {.events = EPOLLIN, .data.u32 = i};
        if (epoll_ctl(poll, EPOLL_CTL_ADD, clients[i].socket, &event)) fail("epoll_ctl");
    }
    for (int ready; (ready = epoll_wait(poll, events, 256, 500)) > 0;)
        for (int e = 0; e < ready; e++) take(&clients[events[e].data.u32]);
    for (int i = 0; i < count; i++) clients[i].length = 0;
}

int main(int words_count, char **words) {
    if (words_count < 4) {
        fprintf(stderr, "usage: load PORT CLIENTS TEXTS [plain]\n");
        return 2;
    }
    int port = atoi(words[1]), count = atoi(words[2]), texts = atoi(words[3]), poll = epoll_create1(0);
    if (count < 1 || texts < 1 || count > 9999) fail("numbers");
    take_all_descriptors();
    for (int i = 0; i < count; i++) enter(i, port, 1, words_count > 4);
    forget(count, poll);
    double begun = time_of(CLOCK_MONOTONIC);
    talk(poll, count, texts);
    printf("said %d, heard %.0f, in %.4f s\n", count * texts, (double)count * count * texts, (time_of(CLOCK_MONOTONIC) - begun) / 1e6);
    return 0;
}
