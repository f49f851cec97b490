/* The unit as a virtual H4 device: its host is on standard input and output, for instance a pseudo terminal that socat
 * makes and BlueZ's btattach opens (../README.md). There is no radio. Data that the host sends is taken and reported as
 * completed at once and goes nowhere, and the peer of every link acknowledges a Disconnect at once. A central connects,
 * if the unit advertises, at each SIGUSR1, or at once with --central; at SIGUSR2 the central of the last link leaves.
 * Ends with its input. */
#define _POSIX_C_SOURCE 200809L
#include "unit.h"

#include <errno.h>
#include <fcntl.h>
#include <signal.h>
#include <stdio.h>
#include <sys/select.h>
#include <unistd.h>

static volatile sig_atomic_t central_asks, central_goes;
static bool output_closed;

static void on_signal(int which) {
    if (which == SIGUSR1) {
        central_asks = 1;
    } else {
        central_goes = 1;
    }
}

static void write_to_host(const uint8_t *octets, size_t count) {
    while (count > 0) {
        ssize_t written = write(STDOUT_FILENO, octets, count);
        if (written < 0 && errno != EINTR) {
            output_closed = true;
            return;
        }
        if (written > 0) {
            octets += written;
            count -= (size_t)written;
        }
    }
}

static void nowhere(const uint8_t *octets, size_t count) {
    (void)octets;
    (void)count;
}

static void tell_refusal(const unit *u, const char *call, int number) {
    (void)u;
    if (number != WEGRULSTA_ACCEPTED) {
        fprintf(stderr, "unit: %s was refused by question %d\n", call, number);
    }
}

/* LE Rand is for keys, so it has to come from the system. */
static uint64_t system_random(void) {
    static int source = -1;
    uint64_t number = 0;
    if (source < 0) {
        source = open("/dev/urandom", O_RDONLY);
    }
    if (source < 0 || read(source, &number, sizeof number) != (ssize_t)sizeof number) {
        fprintf(stderr, "unit: no random number\n");
    }
    return number;
}

static const unit_sides piped = {write_to_host, nowhere, nowhere, tell_refusal, system_random};

/* What a radio would do, at once: sends what waits, has it acknowledged, and has a Disconnect acknowledged. */
static void do_air(unit *u) {
    size_t i = 0;
    while (i < u->state.links.count) {
        uint16_t handle = u->state.links.connections[i].handle;
        unit_send(u, handle, UNIT_ACL_COUNT, WEGRULSTA_POOL(UNIT_ACL_COUNT, UNIT_ACL_LEN));
        if (u->in_air[handle] > 0) {
            unit_sent(u, handle, u->in_air[handle]);
        }
        if (!unit_disconnect_acknowledged(u, handle)) {
            i++;
        }
    }
}

static void do_signals(unit *u, bool central_waits) {
    static const unit_central central = {1, {0xA1, 0xA2, 0xA3, 0xA4, 0xA5, 0xC6}, 80, 0, 200, 0};
    if (central_goes && u->state.links.count > 0) {
        unit_link_lost(u, u->state.links.connections[u->state.links.count - 1].handle, 0x13);
    }
    if ((central_asks || central_waits) && u->state.advertising.enabled) {
        uint16_t handle = unit_connect(u, &central);
        if (handle != 0) {
            fprintf(stderr, "unit: a central connected, handle %u\n", handle);
        }
    } else if (central_asks) {
        fprintf(stderr, "unit: not advertising, so no central connects\n");
    }
    central_asks = 0;
    central_goes = 0;
}

/* Octets of the host, as many as there are; false at their end, or where framing is lost. */
static bool read_host(unit *u) {
    uint8_t octets[4096];
    ssize_t count = read(STDIN_FILENO, octets, sizeof octets);
    if (count < 0) {
        return errno == EINTR || errno == EAGAIN;
    }
    if (count == 0) {
        return false;
    }
    if (!unit_receive(u, octets, (size_t)count)) {
        fprintf(stderr, "unit: framing is lost: the host's octets are no H4 packets\n");
        return false;
    }
    return true;
}

/* Signals are let in only while it waits, so none is missed. */
static void take_signals(sigset_t *while_waiting) {
    struct sigaction action = {.sa_handler = on_signal};
    sigset_t held;
    sigemptyset(&held);
    sigaddset(&held, SIGUSR1);
    sigaddset(&held, SIGUSR2);
    sigprocmask(SIG_BLOCK, &held, while_waiting);
    sigaction(SIGUSR1, &action, NULL);
    sigaction(SIGUSR2, &action, NULL);
    signal(SIGPIPE, SIG_IGN);
}

int run_device(bool central_waits) {
    static unit u;
    sigset_t while_waiting;
    bool open = true;
    take_signals(&while_waiting);
    unit_start(&u, &piped);
    fprintf(stderr, "unit: H4 on standard input and output, no radio; kill -USR1 %ld connects a central\n", (long)getpid());
    while (open && !output_closed) {
        fd_set inputs;
        FD_ZERO(&inputs);
        FD_SET(STDIN_FILENO, &inputs);
        if (pselect(STDIN_FILENO + 1, &inputs, NULL, NULL, NULL, &while_waiting) > 0) {
            open = read_host(&u);
        }
        do_air(&u);
        do_signals(&u, central_waits);
    }
    return 0;
}
