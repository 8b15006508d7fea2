/*
 * Answers each request in the language that its user wants, by the header Accept-Language: negotiate [PORT]
 *
 *     cc negotiate.c $(pkg-config --cflags --libs langtag_verified) -o negotiate && ./negotiate 8080
 *     curl -H 'Accept-Language: zh-TW,zh;q=0.9,en;q=0.8' localhost:8080
 *
 * It serves one request at a time, waits at most two seconds for each piece of it, and reads at most 8 kB. It is an example of
 * choosing a language, and not a real web server.
 */
#define _POSIX_C_SOURCE 200809L
#include <langtag.h>

#include <arpa/inet.h>
#include <stdio.h>
#include <stdlib.h>
#include <string.h>
#include <strings.h>
#include <sys/socket.h>
#include <sys/time.h>
#include <unistd.h>

static const char tags[] = "en de de-CH fr zh-Hant";
static const char *const greetings[] = {"Hello", "Guten Tag", "Gr\u00fcezi", "Bonjour", "\u4f60\u597d"};
enum { COUNT = sizeof greetings / sizeof *greetings, DEFAULT = 0 };

/* The spans of the tags in their text, as the library reads them. */
static void find_tags(langtag_span *spans) {
    size_t at = 0;
    for (size_t k = 0; k < COUNT; k++) {
        spans[k] = (langtag_span){at, strcspn(tags + at, " ")};
        at += spans[k].len + 1;
    }
}

/* Returns the index of the best tag for the user, or of the default. */
static size_t choose(const char *accept, size_t len, const langtag_span *spans) {
    const size_t best = accept ? langtag_best_for_header(accept, len < 1000 ? len : 1000, tags, strlen(tags), spans, COUNT) : COUNT;
    return best < COUNT ? best : DEFAULT;
}

/* Returns the value of a header of a request, up to the end of its line, or NULL if there is no such header. */
static const char *header(const char *request, const char *name, size_t *len) {
    for (const char *line = strstr(request, "\r\n"); line; line = strstr(line, "\r\n")) {
        line += 2;
        if (strncasecmp(line, name, strlen(name)) == 0 && line[strlen(name)] == ':') {
            line += strlen(name) + 1;
            *len = strcspn(line, "\r\n");
            return line;
        }
    }
    return NULL;
}

/* Reads a request up to the empty line after the headers, or as much as arrives, and ends it with a NUL. A request that contains a
 * NUL counts as empty. */
static void receive(int connection, char *request, size_t room) {
    static const struct timeval patience = {2, 0};
    size_t got = 0;
    ssize_t more;
    request[0] = '\0';
    if (setsockopt(connection, SOL_SOCKET, SO_RCVTIMEO, &patience, sizeof patience) != 0) return;
    while (got < room - 1 && (more = read(connection, request + got, room - 1 - got)) > 0) {
        got += (size_t)more;
        request[got] = '\0';
        if (strlen(request) < got) request[0] = '\0';
        if (request[0] == '\0' || strstr(request, "\r\n\r\n")) return;
    }
}

static void answer(int connection) {
    char request[8192], reply[512];
    langtag_span spans[COUNT];
    size_t len = 0;
    receive(connection, request, sizeof request);
    find_tags(spans);
    const char *accept = header(request, "Accept-Language", &len);
    const size_t chosen = choose(accept, len, spans);
    int size =
        snprintf(reply, sizeof reply,
                 "HTTP/1.1 200 OK\r\nContent-Type: text/plain; charset=utf-8\r\nContent-Language: %.*s\r\nVary: "
                 "Accept-Language\r\n"
                 "Content-Length: %zu\r\nConnection: close\r\n\r\n%s\n",
                 (int)spans[chosen].len, tags + spans[chosen].start, strlen(greetings[chosen]) + 1, greetings[chosen]);
    if (send(connection, reply, (size_t)size, MSG_NOSIGNAL) != size) perror("send");
}

int main(int argc, char **argv) {
    struct sockaddr_in address = {.sin_family = AF_INET,
                                  .sin_port = htons((unsigned short)atoi(argc > 1 ? argv[1] : "8080"))};
    socklen_t size = sizeof address;
    int server = socket(AF_INET, SOCK_STREAM, 0);
    address.sin_addr.s_addr = htonl(INADDR_LOOPBACK);
    if (server < 0 || bind(server, (struct sockaddr *)&address, size) != 0 || listen(server, 16) != 0 ||
        getsockname(server, (struct sockaddr *)&address, &size) != 0) {
        perror("negotiate");
        return 1;
    }
    printf("http://127.0.0.1:%d\n", ntohs(address.sin_port));
    fflush(stdout);
    for (;;) {
        int connection = accept(server, NULL, NULL);
        if (connection < 0) {
            perror("accept");
            continue;
        }
        answer(connection);
        close(connection);
    }
}
