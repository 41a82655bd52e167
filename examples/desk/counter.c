/* A desk in C: asks `nrm-tools serve` the lines of standard input in the name of a desk, and writes its replies.

       cc -o counter counter.c && ./counter /run/nrm/desks COUNTER-7 [NETWORK] < lines

   Each line has a number of the desk's own. If the connection is lost before its reply is there, the line is sent again on a new one, under
   its number: it is carried out once. Where several servers share the networks, it goes on at the one that `closed moved HOST:PORT` names.
   It ends with 0, or with 1 if it is turned away for good, as a line `closed WHY` tells, or if no connection comes in some 30 seconds. */
#include <netdb.h>
#include <signal.h>
#include <stdio.h>
#include <stdlib.h>
#include <string.h>
#include <sys/socket.h>
#include <sys/un.h>
#include <unistd.h>

enum { TRIES = 300, PAUSE = 100000 }; /* microseconds */

static struct sockaddr_un place = {.sun_family = AF_UNIX};
static const char *name, *network = "";
static FILE *say, *hear;
static long long sequence; /* of the next line; 0 until the journal has told it */
static char reply[4096];
static char host[256], port[6]; /* of the server to which the next connection goes, if that was told; else empty */

static void leave(void) {
    if (say)
        fclose(say), fclose(hear);
    say = hear = NULL;
}

/* Whether another server has the network, and where. */
static int is_moved(void) {
    static const char front[] = "closed moved ";
    char *from = reply + sizeof front - 1, *colon = strrchr(reply, ':');
    if (strncmp(reply, front, sizeof front - 1) != 0 || !colon || colon == from)
        return 0;
    from += *from == '[';
    snprintf(host, sizeof host, "%.*s", (int)(colon - from) - (colon[-1] == ']'), from);
    snprintf(port, sizeof port, "%.*s", (int)strcspn(colon + 1, "\n"), colon + 1);
    return 1;
}

/* The next line that comes; 0 if the connection has ended or another may do, and no return if none will. */
static int is_heard(void) {
    static const char *passes[] = {"clients", "half", "idle", "journal", "stopping", "memory", "gone", "wait", "program"};
    if (!fgets(reply, sizeof reply, hear) || !strchr(reply, '\n'))
        return 0;
    if (strncmp(reply, "closed ", 7) != 0)
        return 1;
    if (is_moved())
        return 0;
    for (size_t at = 0; at < sizeof passes / sizeof *passes; at++)
        if (strncmp(reply + 7, passes[at], strlen(passes[at])) == 0)
            return 0;
    fputs(reply, stdout);
    exit(1);
}

/* A connection to an address; -1 if there is none. */
static int connected(int family, const struct sockaddr *address, socklen_t size) {
    int server = socket(family, SOCK_STREAM, 0);
    if (server >= 0 && connect(server, address, size) != 0)
        close(server), server = -1;
    return server;
}

/* A connection to the server that was told, else to the socket; -1 if there is none. */
static int connected_once(void) {
    struct addrinfo wanted = {.ai_socktype = SOCK_STREAM}, *found = NULL;
    int server = -1;
    if (!host[0])
        return connected(AF_UNIX, (struct sockaddr *)&place, sizeof place);
    if (getaddrinfo(host, port, &wanted, &found) == 0)
        for (struct addrinfo *it = found; it && server < 0; it = it->ai_next)
            server = connected(it->ai_family, it->ai_addr, it->ai_addrlen);
    if (found)
        freeaddrinfo(found);
    host[0] = 0;
    return server;
}

/* Connects and greets with the number of the next line. */
static int is_connected(void) {
    int server = connected_once();
    if (server < 0)
        return 0;
    say = fdopen(server, "w"), hear = fdopen(dup(server), "r");
    fprintf(say, "desk %s%s", network, name);
    fprintf(say, sequence ? " %lld\n" : "\n", sequence);
    return fflush(say) == 0 && is_heard() && sscanf(reply, "at %lld", &sequence) == 1;
}

/* Whether more lines follow, up to an empty one: the text of a plan, and that of a leg with seats sold, have several. */
static int has_more(void) {
    char *sold = strncmp(reply, "leg ", 4) == 0 ? strstr(reply, " sold ") : NULL;
    return strncmp(reply, "value ", 6) == 0 || (sold && sold[6] != '0');
}

/* Asks a line, and writes its reply once all of it is there. */
static int is_answered(const char *line) {
    static char text[1 << 20];
    size_t size = 0;
    fprintf(say, "%s\n", line);
    fflush(say);
    do
        if (!is_heard())
            return 0;
    while (strcmp(reply, "\n") == 0); /* what may end the text before */
    for (int more = has_more(); ; more = strcmp(reply, "\n") != 0) {
        if (size + strlen(reply) < sizeof text)
            size += (size_t)sprintf(text + size, "%s", reply);
        if (!more)
            break;
        if (!is_heard())
            return 0;
    }
    return fwrite(text, 1, size, stdout) == size && fflush(stdout) == 0;
}

int main(int count, char **words) {
    char line[4096], with_blank[64];
    if ((count != 3 && count != 4) || strlen(words[1]) >= sizeof place.sun_path)
        return fputs("usage: counter PATH NAME [NETWORK] < lines\n", stderr), 2;
    strcpy(place.sun_path, words[1]);
    name = words[2];
    if (count == 4)
        snprintf(with_blank, sizeof with_blank, "%s ", words[3]), network = with_blank;
    signal(SIGPIPE, SIG_IGN);
    while (fgets(line, sizeof line, stdin)) {
        line[strcspn(line, "\n")] = 0;
        for (int tries = 0; !((say || is_connected()) && is_answered(line)); tries++) {
            leave();
            if (tries == TRIES)
                return fputs("no connection\n", stderr), 1;
            usleep(PAUSE);
        }
        sequence++;
    }
    leave();
    return 0;
}
