/* What connections cost a program that does nothing else.

   connections COUNT EACH SIZE: one process accepts COUNT connections over loopback, one after
   another, reads EACH requests of each, writes SIZE bytes after every one and waits for the client's
   end, with the system calls of the door of `misp serve`. Another asks so often over each and reads
   to the end, with those of the dial of `misp sync`. It prints the microseconds of processor of the
   first and of the second, for each request. */

#define _GNU_SOURCE

#include <arpa/inet.h>
#include <fcntl.h>
#include <stdio.h>
#include <stdlib.h>
#include <string.h>
#include <sys/resource.h>
#include <sys/socket.h>
#include <sys/wait.h>
#include <unistd.h>

static const char request[] =
    "GET /sync/part/e1000000-0000-4000-8000-000000000001/0 HTTP/1.1\r\n"
    "Authorization: AAAAAAAAAAAAAAAAAAAAAAAAAAAAAAAAAAAAAAAA\r\n"
    "Connection: close\r\nContent-Length: 0\r\n\r\n";

static void check(int is_well, const char *what) {
    if (!is_well) {
        perror(what);
        exit(1);
    }
}

static void limit(int stream, long seconds) {
    struct timeval wait = {seconds, 0};
    check(!setsockopt(stream, SOL_SOCKET, SO_RCVTIMEO, &wait, sizeof wait), "setsockopt");
}

static void limit_both(int stream) {
    struct timeval wait = {30, 0};
    limit(stream, 30);
    check(!setsockopt(stream, SOL_SOCKET, SO_SNDTIMEO, &wait, sizeof wait), "setsockopt");
}

static void answer(int listener, long each, const char *reply, size_t size) {
    char into[1024];
    int stream = accept4(listener, NULL, NULL, SOCK_CLOEXEC);
    check(stream >= 0, "accept");
    limit_both(stream);
    int second = fcntl(stream, F_DUPFD_CLOEXEC, 3);
    for (long k = 0; k < each; k++) {
        check(read(stream, into, sizeof into) > 0, "read");
        check(write(second, reply, size) == (ssize_t)size, "write");
    }
    check(!shutdown(stream, SHUT_WR), "shutdown");
    limit(stream, 1);
    check(read(stream, into, sizeof into) == 0, "end");
    close(stream);
    close(second);
}

static void take(int stream, char *into, size_t size) {
    for (size_t had = 0; had < size;) {
        ssize_t count = read(stream, into + had, size - had);
        check(count > 0, "read");
        had += count;
    }
}

static void ask(const struct sockaddr_in *to, long each, char *into, size_t size) {
    int stream = socket(AF_INET, SOCK_STREAM | SOCK_CLOEXEC, 0);
    check(!connect(stream, (const struct sockaddr *)to, sizeof *to), "connect");
    limit_both(stream);
    for (long k = 0; k < each; k++) {
        check(write(stream, request, sizeof request - 1) == sizeof request - 1, "write");
        take(stream, into, size);
    }
    check(read(stream, into, size) == 0, "end");
    close(stream);
}

static double spent(int who) {
    struct rusage used;
    getrusage(who, &used);
    return (used.ru_utime.tv_sec + used.ru_stime.tv_sec) * 1e6 + used.ru_utime.tv_usec + used.ru_stime.tv_usec;
}

int main(int words, char **word) {
    check(words == 4, "usage: connections COUNT EACH SIZE");
    long count = atol(word[1]), each = atol(word[2]);
    size_t size = strtoul(word[3], NULL, 10);
    char *bytes = calloc(1, size + 1);
    struct sockaddr_in at = {.sin_family = AF_INET, .sin_addr.s_addr = htonl(INADDR_LOOPBACK)};
    socklen_t length = sizeof at;
    int listener = socket(AF_INET, SOCK_STREAM | SOCK_CLOEXEC, 0);
    check(!bind(listener, (struct sockaddr *)&at, sizeof at), "bind");
    check(!listen(listener, 128), "listen");
    check(!getsockname(listener, (struct sockaddr *)&at, &length), "getsockname");
    pid_t server = fork();
    check(server >= 0, "fork");
    if (server == 0) {
        for (long k = 0; k < count; k++) answer(listener, each, bytes, size);
        _exit(0);
    }
    double before = spent(RUSAGE_SELF);
    for (long k = 0; k < count; k++) ask(&at, each, bytes, size);
    double client = spent(RUSAGE_SELF) - before;
    int status;
    check(waitpid(server, &status, 0) == server && status == 0, "server");
    double requests = (double)count * each;
    printf("%.1f %.1f\n", spent(RUSAGE_CHILDREN) / requests, client / requests);
    return 0;
}
