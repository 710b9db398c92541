/* Plays a student's nodes: cc -o bot bot.c, then ./bot SLIP, or ./bot PORT NAME KEYFILE NODE,..
   If SLIP is -, the slip is in the environment's CENDUWA_SLIP. If KEYFILE is -, the key is in CENDUWA_KEY. */
#include <arpa/inet.h>
#include <signal.h>
#include <stdio.h>
#include <stdlib.h>
#include <string.h>
#include <unistd.h>
#define STOP(status, ...) (fprintf(stderr, "bot: " __VA_ARGS__), fputc('\n', stderr), exit(status))
#define EACH(part, all, end) (const char *part = all; part; part = strchr(part, end) ? strchr(part, end) + 1 : NULL)
#define ASK(...) (fprintf(server, __VA_ARGS__), hear())
static char reply[1 << 16], text[1 << 12];
static FILE *server;
/* The denials and refusals that end the bot, each with its exit status and a line. After others, the bot looks again. */
static const char *STOPS[][2] = {
    {"\"unknown\"", "2 name and key don't match: take both from your slip"},
    {"\"not-owner\"", "3 a node isn't yours: take the nodes from your slip"},
    {"\"malformed\"", "3 the server couldn't read a line as a request: correct the program"},
    {"\"full\"", "6 nothing is granted any longer: tell your teacher"},
    {"\"journal\"", "6 nothing is granted any longer: tell your teacher"}, {"\"over\"", "0 the run is over"}};
/* Sends what was written, and reads the reply. Returns whether there is one. */
static int hear(void) {
    if (fflush(server) || !fgets(reply, sizeof reply, server)) return 0;
    int is_no = !strncmp(reply, "{\"refuse\"", 9) || strstr(reply, "\"deny\"");
    for (size_t i = 0; is_no && i < sizeof STOPS / sizeof *STOPS; i++)
        if (strstr(reply, STOPS[i][0])) STOP(STOPS[i][1][0] - '0', "%s", STOPS[i][1] + 2);
    return 1;
}

/* Looks at a node, and asks for the rule that is enabled there. Returns whether all requests were answered. */
static int move(long node) {
    char rule[32], with[64] = "";
    if (!ASK("{\"do\":\"look\",\"node\":%ld}\n", node)) return 0;
    const char *enabled = strstr(reply, "\"rule\":\"");
    if (!enabled || !strstr(reply, "\"chosen\":null") || sscanf(enabled, "\"rule\":\"%31[a-z]", rule) != 1) return 1;
    long at = strtol(reply + strlen("{\"at\":"), NULL, 10), other, p;
    for EACH(near, reply, '{')
        if (*rule == 'm' && sscanf(strchr(near, ',') + 1, "\"node\":%ld,\"p\":%ld}", &other, &p) == 2 && p == node)
            sprintf(with, ",\"with\":%ld", other);
    if (!ASK("{\"do\":\"move\",\"node\":%ld,\"rule\":\"%s\",\"at\":%ld%s}\n", node, rule, at, with)) return 0;
    if (printf("%s", reply) < 0 || fflush(stdout)) exit(141); /* The reader of the output has closed it. */
    return 1;
}

/* Connects, says hello and plays. If no seat is free or the connection is lost, tries again each second for a minute. */
static void play(const char *port, const char *name, const char *key, const char *nodes) {
    struct sockaddr_in to = {.sin_family = AF_INET, .sin_port = htons(atoi(port)), .sin_addr.s_addr = htonl(INADDR_LOOPBACK)};
    int was_greeted = 0;
    for (int second = 0; second <= 60; second++, fclose(server), sleep(1)) {
        int it = socket(AF_INET, SOCK_STREAM, 0), is_in = !connect(it, (struct sockaddr *)&to, sizeof to);
        server = fdopen(it, "r+");
        fprintf(server, "{\"do\":\"hello\",\"name\":\"%s\",\"key\":\"", name);
        for (const char *byte = key; *byte; byte++) fprintf(server, strchr("\\\"", *byte) ? "\\%c" : "%c", *byte);
        is_in = is_in && ASK("\"}\n");
        if (!is_in && !was_greeted) STOP(4, "no server at port %s answers a hello; ask your teacher for the port", port);
        if (is_in && *reply != '{') STOP(4, "another program uses port %s; ask your teacher for the port", port);
        for (is_in &= !strncmp(reply, "{\"ok\"", 5), was_greeted |= is_in; is_in; second = 0, usleep(100000))
            for EACH(node, nodes, ',') is_in = is_in && move(strtol(node, NULL, 10));
    }
    STOP(was_greeted ? 7 : 5, "%s", was_greeted ? "the connection was lost: start again" : "all seats were taken for a minute: try again later");
}

int main(int count, char **words) {
    static char port[16], name[64], key[128], nodes[2048];
    if (count != 2 && count != 5) STOP(1, "usage: bot SLIP, or PORT NAME KEYFILE NODE,..");
    const char *file = words[count == 2 ? 1 : 3], *variable = count == 2 ? "CENDUWA_SLIP" : "CENDUWA_KEY", *given = getenv(variable), *place = count == 2 ? file : "the arguments";
    FILE *from = strcmp(file, "-") ? fopen(file, "r") : given ? fmemopen((char *)given, strlen(given), "r") : NULL;
    if (!from && !strcmp(file, "-")) STOP(1, "the environment variable %s isn't set", variable);
    if (!from) STOP(1, "%s can't be read", file);
    text[fread(text, 1, sizeof text - 1, from)] = 0, sscanf(text, "%127s", key);
    for EACH(line, text, '\n')
        sscanf(line, "port %15s", port), sscanf(line, "name %63s", name), sscanf(line, "key %127s", key), sscanf(line, "nodes %2047s", nodes);
    if (count == 5) snprintf(port, 16, "%s", words[1]), snprintf(name, 64, "%s", words[2]), snprintf(nodes, 2048, "%s", words[4]);
    if (!*port || strspn(port, "0123456789") != strlen(port)) STOP(1, "there is no port in %s", place);
    if (!*nodes || strspn(nodes, "0123456789,") != strlen(nodes)) STOP(1, "there are no nodes in %s", place);
    signal(SIGPIPE, SIG_IGN);
    play(port, name, key, nodes);
}
