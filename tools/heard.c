/* How long it takes until the members of a room have heard a text, of a server that runs.
 *
 *     cc -O2 -o heard tools/heard.c && ./heard PORT MEMBERS IDLE TEXTS [PAUSE [plain]]
 *
 * MEMBERS clients join the lobby, and IDLE more connect and are silent. Then TEXTS texts are said, one after the other, by one member
 * after the other, with PAUSE milliseconds (20 if it isn't given) between them. Prints, in microseconds from the call that sends a text,
 * when its sender had it back, when each of the others had it, and when the last of them had it: the median, the ninety-ninth of a
 * hundred and the greatest. A member has a text when the host puts it into its socket: the host notes that time (SO_TIMESTAMPNS), and
 * the clients sleep meanwhile, since a processor that reads for 250 of them is one that the server hasn't. The server has to have a
 * room `lobby` in which all may talk, and to serve MEMBERS + IDLE connections. With `plain` it is one that knows no names and rooms,
 * and sends each text to all that are connected, as tools/node_broadcast.js.
 */
#include "clients.h"

static int by_size(const void *one, const void *other) {
    double a = *(const double *)one, b = *(const double *)other;
    return a < b ? -1 : a > b;
}

static void tell(const char *what, double *times, int count) {
    qsort(times, count, sizeof *times, by_size);
    printf("%s: median %.0f, 99th of 100 %.0f, greatest %.0f\n", what, times[count / 2], times[(count * 99) / 100], times[count - 1]);
}

/* Lets the host note when something comes for a client, and wait for that ten seconds at most. */
static void note_times(struct client *client) {
    int one = 1;
    struct timeval longest = {.tv_sec = 10};
    if (setsockopt(client->socket, SOL_SOCKET, SO_TIMESTAMPNS, &one, sizeof one)) fail("SO_TIMESTAMPNS");
    if (setsockopt(client->socket, SOL_SOCKET, SO_RCVTIMEO, &longest, sizeof longest)) fail("SO_RCVTIMEO");
}

/* Reads what there is, and answers when the last of it came. */
static double take_noted(struct client *client) {
    char control[128];
    struct iovec to = {.iov_base = client->bytes + client->length, .iov_len = BUFFER - client->length};
    struct msghdr message = {.msg_iov = &to, .msg_iovlen = 1, .msg_control = control, .msg_controllen = sizeof control};
    ssize_t count = recvmsg(client->socket, &message, 0);
    if (count <= 0) fail("nothing was heard");
    client->length += count;
    for (struct cmsghdr *note = CMSG_FIRSTHDR(&message); note; note = CMSG_NXTHDR(&message, note)) {
        if (note->cmsg_level != SOL_SOCKET || note->cmsg_type != SCM_TIMESTAMPNS) continue;
        struct timespec t;
        memcpy(&t, CMSG_DATA(note), sizeof t);
        return microseconds(t);
    }
    fail("the host noted no time");
    return 0;
}

/* Reads until a client has the part, and answers when it came. */
static double hear(struct client *client, const char *part) {
    for (;;) {
        double time = take_noted(client);
        if (!has(client, part)) continue;
        client->length = 0;
        return time;
    }
}

int main(int count, char **words) {
    if (count < 5) {
        fprintf(stderr, "usage: heard PORT MEMBERS IDLE TEXTS [PAUSE [plain]]\n");
        return 2;
    }
    int port = atoi(words[1]), members = atoi(words[2]), idle = atoi(words[3]), texts = atoi(words[4]);
    int pause = count > 5 ? atoi(words[5]) : 20, is_plain = count > 6, all = members + idle, heard = 0;
    if (members < 1 || idle < 0 || texts < 1 || all > MOST || (is_plain && idle > 0)) fail("numbers");
    take_all_descriptors();
    for (int i = 0; i < all; i++) {
        enter(i, port, i < members, is_plain);
        note_times(&clients[i]);
    }
    double *back = calloc(texts, sizeof *back), *last = calloc(texts, sizeof *last), *each = calloc((size_t)texts * members, sizeof *each);
    usleep(500000);
    for (int n = 0; n < texts; n++) {
        char text[96], part[64];
        int sender = n % members;
        snprintf(part, sizeof part, "text number %d.", n);
        snprintf(text, sizeof text, "lobby|%s", part);
        double begun = time_of(CLOCK_REALTIME);
        say(clients[sender].socket, text);
        usleep(pause * 1000);
        for (int i = 0; i < members; i++) {
            double time = hear(&clients[i], part) - begun;
            if (i == sender) {
                back[n] = time;
                continue;
            }
            each[heard++] = time;
            if (time > last[n]) last[n] = time;
        }
    }
    tell("its sender had it back", back, texts);
    if (members > 1) {
        tell("each of the others had it", each, heard);
        tell("all others had it", last, texts);
    }
    return 0;
}
