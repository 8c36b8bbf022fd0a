/* A ground system that sends commands as fast as it is told, for tools/develop/check-load: a burst, commands at a rate, or one after the
   other, each after the answer to the one before. `echo` answers each datagram with as many bytes as an event has.

       load burst COUNT COMMANDS TELEMETRY      load rate PER_SECOND SECONDS COMMANDS TELEMETRY
       load latency COUNT COMMANDS TELEMETRY    load echo COMMANDS TELEMETRY

   COMMANDS and TELEMETRY are ports of this machine. It prints numbers: how many were sent and answered, and the seconds; for the
   latency the median, the 99th of 100 and the greatest, in microseconds. */
#include <arpa/inet.h>
#include <errno.h>
#include <poll.h>
#include <stdint.h>
#include <stdio.h>
#include <stdlib.h>
#include <string.h>
#include <sys/socket.h>
#include <time.h>

/* A NOOP, and how many bytes an event has in cFE's layouts. */
static const uint8_t noop[] = {0x18, 0x04, 0xC0, 0x00, 0x00, 0x01, 0x00, 0x22};
enum { EVENT_BYTES = 172, QUIET_MILLISECONDS = 5000 };

static double now(void)
{
    struct timespec time;
    clock_gettime(CLOCK_MONOTONIC, &time);
    return (double)time.tv_sec + (double)time.tv_nsec / 1e9;
}

static struct sockaddr_in at_port(const char *port)
{
    struct sockaddr_in address = {.sin_family = AF_INET, .sin_port = htons((uint16_t)atoi(port))};
    address.sin_addr.s_addr = htonl(INADDR_LOOPBACK);
    return address;
}

static int bound(const char *port)
{
    int room = 64 << 20, made = socket(AF_INET, SOCK_DGRAM, 0);
    struct sockaddr_in address = at_port(port);
    if (setsockopt(made, SOL_SOCKET, SO_RCVBUFFORCE, &room, sizeof room) != 0)
        setsockopt(made, SOL_SOCKET, SO_RCVBUF, &room, sizeof room);
    if (made < 0 || bind(made, (struct sockaddr *)&address, sizeof address) != 0) {
        perror(port);
        exit(2);
    }
    return made;
}

static void send_noop(int to, const struct sockaddr_in *address)
{
    while (sendto(to, noop, sizeof noop, 0, (const struct sockaddr *)address, sizeof *address) < 0 && errno == ENOBUFS)
        poll(NULL, 0, 1);
}

/* Takes answers for so many milliseconds; how many came. */
static long take(int from, int milliseconds)
{
    uint8_t packet[2048];
    struct pollfd wait = {.fd = from, .events = POLLIN};
    long taken = 0;
    if (poll(&wait, 1, milliseconds) > 0)
        while (recv(from, packet, sizeof packet, MSG_DONTWAIT) >= 0)
            taken++;
    return taken;
}

static int burst(long count, int ground, const struct sockaddr_in *service)
{
    double begun = now(), sent, last;
    long answered = 0, more;
    for (long number = 0; number < count; number++)
        send_noop(ground, service);
    sent = last = now();
    while (answered < count && (more = take(ground, QUIET_MILLISECONDS)) > 0) {
        answered += more;
        last = now();
    }
    printf("%ld %ld %.6f %.6f\n", count, answered, sent - begun, last - begun);
    return 0;
}

static int rate(double per_second, double seconds, int ground, const struct sockaddr_in *service)
{
    double begun = now();
    long sent = 0, answered = 0, more;
    while (now() - begun < seconds) {
        for (; sent < (now() - begun) * per_second; sent++)
            send_noop(ground, service);
        answered += take(ground, 1);
    }
    while (answered < sent && (more = take(ground, QUIET_MILLISECONDS)) > 0)
        answered += more;
    printf("%ld %ld %.6f\n", sent, answered, now() - begun);
    return 0;
}

static int by_size(const void *one, const void *other)
{
    double a = *(const double *)one, b = *(const double *)other;
    return (a > b) - (a < b);
}

static int latency(long count, int ground, const struct sockaddr_in *service)
{
    double *took = calloc((size_t)count, sizeof *took);
    uint8_t packet[2048];
    for (long number = 0; took != NULL && number < count; number++) {
        double begun = now();
        send_noop(ground, service);
        if (recv(ground, packet, sizeof packet, 0) < 0)
            return 1;
        took[number] = 1e6 * (now() - begun);
    }
    if (took == NULL)
        return 1;
    qsort(took, (size_t)count, sizeof *took, by_size);
    printf("%.1f %.1f %.1f\n", took[count / 2], took[count * 99 / 100], took[count - 1]);
    free(took);
    return 0;
}

static int echo(const char *commands, const char *telemetry)
{
    int service = bound(commands);
    struct sockaddr_in ground = at_port(telemetry);
    uint8_t packet[2048] = {0};
    for (;;)
        if (recv(service, packet, sizeof packet, 0) < 0 ||
            sendto(service, packet, EVENT_BYTES, 0, (struct sockaddr *)&ground, sizeof ground) < 0)
            return 1;
}

int main(int count, char **words)
{
    const char *word = count > 1 ? words[1] : "";
    if (strcmp(word, "echo") == 0 && count == 4)
        return echo(words[2], words[3]);
    if (count >= 5) {
        struct sockaddr_in service = at_port(words[count - 2]);
        int ground = bound(words[count - 1]);
        if (strcmp(word, "burst") == 0 && count == 5)
            return burst(atol(words[2]), ground, &service);
        if (strcmp(word, "latency") == 0 && count == 5)
            return latency(atol(words[2]), ground, &service);
        if (strcmp(word, "rate") == 0 && count == 6)
            return rate(atof(words[2]), atof(words[3]), ground, &service);
    }
    fprintf(stderr, "load: wrong words\n");
    return 2;
}
