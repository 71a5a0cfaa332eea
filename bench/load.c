/* Asks for a sequence, and sends so many messages of it, each on a connection of its own, one after the other.

   load PORT COUNT SIZE    the payload of a message has SIZE bytes, 100 at least; prints how many were answered with
                           200, the seconds that they took, and the messages a second */
#include <arpa/inet.h>
#include <netinet/in.h>
#include <netinet/tcp.h>
#include <stdio.h>
#include <stdlib.h>
#include <string.h>
#include <sys/socket.h>
#include <time.h>
#include <unistd.h>

#define RM "http://docs.oasis-open.org/ws-rx/wsrm/200702"
#define BEGIN "<s:Envelope xmlns:s=\"http://www.w3.org/2003/05/soap-envelope\"" \
    " xmlns:a=\"http://www.w3.org/2005/08/addressing\" xmlns:r=\"" RM "\"><s:Header><a:To>http://localhost:%d/</a:To>"
#define NOTE "<m:note xmlns:m=\"urn:wsrm:interop\"><text>%0*d</text></m:note>"
#define MIDDLE "</s:Header><s:Body>"
#define END "</s:Body></s:Envelope>"

enum { ROOM = 1 << 22 };

static int port;
static char request[ROOM + 512], body[ROOM], answer[ROOM];

static double seconds(void) {
    struct timespec now;
    clock_gettime(CLOCK_MONOTONIC, &now);
    return now.tv_sec + now.tv_nsec * 1e-9;
}

static void fail(const char *what) {
    perror(what);
    exit(1);
}

/* Posts the body, and reads the answer to its end. */
static void post(int length) {
    struct sockaddr_in place = {.sin_family = AF_INET, .sin_port = htons(port), .sin_addr = {htonl(INADDR_LOOPBACK)}};
    int conn = socket(AF_INET, SOCK_STREAM, 0), yes = 1;
    if (conn < 0 || connect(conn, (struct sockaddr *)&place, sizeof place)) fail("connect");
    setsockopt(conn, IPPROTO_TCP, TCP_NODELAY, &yes, sizeof yes);
    size_t all = sprintf(request, "POST / HTTP/1.1\r\nHost: localhost:%d\r\n"
        "Content-Type: application/soap+xml; charset=utf-8\r\nContent-Length: %d\r\nConnection: close\r\n\r\n",
        port, length);
    memcpy(request + all, body, length);
    all += length;
    for (size_t sent = 0; sent < all;) {
        ssize_t count = write(conn, request + sent, all - sent);
        if (count <= 0) fail("write");
        sent += count;
    }
    size_t got = 0;
    for (ssize_t count; (count = read(conn, answer + got, ROOM - 1 - got)) > 0;) got += count;
    answer[got] = 0;
    close(conn);
}

int main(int count, char **words) {
    if (count != 4) return 2;
    port = atoi(words[1]);
    int messages = atoi(words[2]), size = atoi(words[3]), good = 0;
    if (size < 100 || size > ROOM - 4096) return 2;
    post(sprintf(body, BEGIN "<a:Action>" RM "/CreateSequence</a:Action>"
        "<a:MessageID>urn:load:%ld:%ld</a:MessageID>" MIDDLE
        "<r:CreateSequence><r:AcksTo><a:Address>http://www.w3.org/2005/08/addressing/anonymous</a:Address></r:AcksTo>"
        "</r:CreateSequence>" END, port, (long)getpid(), (long)time(0)));
    char *from = strstr(answer, "Identifier>"), *to = from ? strchr(from, '<') : 0;
    if (!to || to - from > 512) {
        fprintf(stderr, "load: no sequence: %s\n", answer);
        return 1;
    }
    char name[600];
    snprintf(name, sizeof name, "%.*s", (int)(to - from - 11), from + 11);
    char *payload = malloc(size + 1);
    sprintf(payload, NOTE, size - (int)sizeof NOTE + 5, 0);
    double start = seconds();
    for (int number = 1; number <= messages; number++) {
        post(sprintf(body, BEGIN "<a:Action>urn:wsrm:payload</a:Action><r:Sequence s:mustUnderstand=\"true\">"
            "<r:Identifier>%s</r:Identifier><r:MessageNumber>%d</r:MessageNumber></r:Sequence>" MIDDLE "%s" END,
            port, name, number, payload));
        if (!strncmp(answer, "HTTP/1.1 200", 12)) good++;
        else if (good == number - 1) fprintf(stderr, "load: message %d: %.200s\n", number, answer);
    }
    double took = seconds() - start;
    printf("%d of %d answered, %.3f s, %.0f a second\n", good, messages, took, messages / took);
    return good != messages;
}
