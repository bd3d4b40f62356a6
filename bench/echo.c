/* Sends each datagram that comes to a port of 127.0.0.1 back to where it came from: `echo PORT`.
 * What that costs is what any server of datagrams costs at least. */
#include <arpa/inet.h>
#include <netinet/in.h>
#include <stdint.h>
#include <stdio.h>
#include <stdlib.h>
#include <sys/socket.h>

enum { MOST_OCTETS = 4096 };

static void fail(const char *what)
{
    perror(what);
    exit(1);
}

int main(int count, char **words)
{
    if (count != 2) {
        fprintf(stderr, "usage: echo PORT\n");
        return 1;
    }
    struct sockaddr_in here = {.sin_family = AF_INET, .sin_port = htons((uint16_t)atoi(words[1]))};
    here.sin_addr.s_addr = htonl(INADDR_LOOPBACK);
    int link = socket(AF_INET, SOCK_DGRAM, 0);
    if (link < 0)
        fail("socket");
    if (bind(link, (struct sockaddr *)&here, sizeof here) < 0)
        fail("bind");
    for (;;) {
        uint8_t datagram[MOST_OCTETS];
        struct sockaddr_in peer;
        socklen_t size = sizeof peer;
        ssize_t length =
            recvfrom(link, datagram, sizeof datagram, 0, (struct sockaddr *)&peer, &size);
        if (length >= 0)
            sendto(link, datagram, (size_t)length, 0, (struct sockaddr *)&peer, size);
    }
}
