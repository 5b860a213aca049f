/*
 * A terminal's main loop over the engine, to be copied into firmware.
 *
 * The first half is what a terminal needs: power-on, a loop that polls for
 * messages, an interrupt handler that only notes what it saw, and the reports
 * that the loop makes of it afterwards. The second half plays the hardware
 * from a script, so that the program runs to an end and prints what a terminal
 * would send. tests/terminal.expected is what it prints.
 *
 *     gcc -std=c99 -Wall -Wextra -pedantic -Werror -Iinclude examples/terminal.c target/staticlib/libgwezhelin.a -o target/terminal
 *     target/terminal
 *
 * One table, one hand: only the loop calls the engine. The interrupt handler
 * may run at any time, also in the middle of a call, so it must not.
 */
#include <stdio.h>
#include <string.h>

#include "gwezhelin.h"

/* Small has one link, as GWZ_METER has; GWZ_LARGE has four. */
enum { PRODUCT = GWZ_SMALL, LINKS = 1 };

/* What the hardware tells is about class 11, the Ethernet UNI of each link. */
enum { UNI = 11, FIRST_UNI = 0x0101, OPERATIONAL_STATE = 6, LOSS_OF_SIGNAL = 0 };

/* ---- the hardware, as the loop sees it; its other side is played below ---- */

/* Takes a message from the receive FIFO: its length, 0 if there is none. */
static size_t receive(uint8_t *message, size_t room);
static void transmit(const uint8_t *message);
/* A line for whoever looks after the terminal: count it, log it, or leave it. */
static void tell(const char *line);
/* Firmware has no end: for (;;) takes its place. */
static int has_power(void);

/* ---- what is lent ---- */

/* All that the engine knows is in here. Nothing else may write to it. */
static uint8_t store[GWZ_STORE_SIZE];
static uint8_t outgoing[GWZ_MESSAGE_LENGTH];

/* ---- the interrupt's side ---- */

/* For each link: how it was when last seen, and whether that is news. */
static volatile struct {
    uint8_t news;      /* set by the interrupt, cleared by the loop */
    uint8_t down;      /* as the operational state has it: 0 able, 1 unable */
    uint8_t no_signal; /* 1 while the LAN's signal is lost */
} noted[LINKS];

/* The mark is set last: who sees it finds what it stands for. */
static void link_interrupt(unsigned link, uint8_t down, uint8_t no_signal)
{
    noted[link].down = down;
    noted[link].no_signal = no_signal;
    noted[link].news = 1;
}

/* ---- the loop's side ---- */

/*
 * A fresh table doesn't know how the links are, so every link is news. Firmware
 * fills `noted` from the hardware before it lets interrupts in.
 */
static void start(void)
{
    if (gwz_power_on(store, sizeof store, PRODUCT) != GWZ_ANSWERED)
        tell("no such product, or too short a store: this program is wrong");
    for (unsigned i = 0; i < LINKS; i++)
        noted[i].news = 1;
}

/* Why a call was dropped. Then the table and `outgoing` are as they were. */
static const char *drop_name(uint8_t outcome)
{
    switch (outcome) {
    /* No command, or spoilt on its way: the exchange will send it again. */
    case GWZ_DROP_LENGTH: return "drop 3, the message isn't 48 bytes long";
    case GWZ_DROP_DEVICE: return "drop 4, the device isn't 0x0A";
    case GWZ_DROP_TYPE: return "drop 5, the type is no command's";
    case GWZ_DROP_ID: return "drop 6, the correlation id is 0";
    case GWZ_DROP_TRAILER: return "drop 7, bytes 40 to 43 are wrong";
    /* Something else wrote to the store. */
    case GWZ_DROP_STORE: return "drop 2, the store holds no table";
    /* Bridges and ports may be deleted before they are reported on. Links
       are always there: for them it is a fault of this program. */
    case GWZ_DROP_INSTANCE: return "drop 11, the report names no instance";
    /* This program is wrong. */
    case GWZ_DROP_REPLY_ROOM: return "drop 1, there is no room for a reply";
    case GWZ_DROP_NOT_DECLARED: return "drop 12, that isn't reported";
    case GWZ_DROP_CONTENT: return "drop 13, the report's content is wrong";
    default: return "an outcome that the header doesn't have";
    }
}

/* What follows from a message or a report: every outcome comes here. */
static void settle(uint8_t outcome)
{
    if (outcome == GWZ_ANSWERED) {
        transmit(outgoing);
    } else if (outcome == GWZ_QUIET) {
        /* The table knew it already, or the exchange isn't told of such. */
        tell("quiet");
    } else {
        tell(drop_name(outcome));
        /* No table is left to save. The exchange sees from the sync counter,
           which is 0 again, that it has to send everything anew. */
        if (outcome == GWZ_DROP_STORE)
            start();
    }
}

/*
 * The mark is cleared before the link is looked at. An interrupt in between
 * sets it again, and the next turn reports once more: a report of what the
 * table knows already is quiet, so twice does no harm, and none is lost.
 */
static void report_link(unsigned link)
{
    uint16_t uni = (uint16_t)(FIRST_UNI + link);
    uint8_t down, no_signal;

    noted[link].news = 0;
    down = noted[link].down;
    no_signal = noted[link].no_signal;
    settle(gwz_report_attribute(store, sizeof store, UNI, uni, OPERATIONAL_STATE,
                                &down, 1, outgoing, sizeof outgoing));
    settle(gwz_report_alarm(store, sizeof store, UNI, uni, LOSS_OF_SIGNAL,
                            no_signal, outgoing, sizeof outgoing));
}

int main(void)
{
    /* a byte longer than a message, so that one that is too long shows */
    static uint8_t message[GWZ_MESSAGE_LENGTH + 1];

    start();
    while (has_power()) {
        size_t length = receive(message, sizeof message);

        if (length > 0)
            settle(gwz_handle(store, sizeof store, message, length,
                              outgoing, sizeof outgoing));
        for (unsigned i = 0; i < LINKS; i++)
            if (noted[i].news)
                report_link(i);
    }
    return 0;
}

/* ---- from here on the hardware is played; firmware has its own ---- */

enum kind { MESSAGE, CUT_SHORT, BAD_TRAILER, LINK, WILD_WRITE };

/*
 * Messages in hex, up to where only zeros follow; the trailer is added. Links:
 * down, no signal. What stands behind a message happens while the loop has it
 * in hand, before it is answered.
 */
static const struct step {
    enum kind kind;
    const char *what, *bytes;
} script[] = {
    { MESSAGE, "MIB reset", "0001 4F0A 0002 0000" },
    { MESSAGE, "Create bridge 1",
      "0002 440A 002D 0001 01 01 00 8000 1400 0200 0F00" },
    { MESSAGE, "Create port 1 of bridge 1, at the link",
      "0003 440A 002F 0001 0001 01 01 0101 0080 0001 01 00 00" },
    { MESSAGE, "Get the sync counter", "0004 490A 0002 0000 8000" },
    { MESSAGE, "MIB upload", "0005 4D0A 0002 0000" },
    { MESSAGE, "MIB upload next, 0", "0006 4E0A 0002 0000 0000" },
    { LINK, "the link goes down", "01 01" },
    { MESSAGE, "MIB upload next, 1", "0007 4E0A 0002 0000 0001" },
    { MESSAGE, "MIB upload next, 2", "0008 4E0A 0002 0000 0002" },
    { MESSAGE, "MIB upload next, 3", "0009 4E0A 0002 0000 0003" },
    { MESSAGE, "the same again: a repeat", "0009 4E0A 0002 0000 0003" },
    { MESSAGE, "MIB upload next, 0: the link as it was at the upload",
      "000A 4E0A 0002 0000 0000" },
    { MESSAGE, "Get the link's state: as it is now",
      "000B 490A 000B 0101 0400" },
    { MESSAGE, "Get all alarms", "000C 4B0A 0002 0000" },
    { LINK, "the link comes up", "00 00" },
    { MESSAGE, "Get all alarms next, 0: as it was when they were asked for",
      "000D 4C0A 0002 0000 0000" },
    { CUT_SHORT, "a message of 47 bytes", "000E 490A 0002 0000 8000" },
    { MESSAGE, "another device", "000E 490B 0002 0000 8000" },
    { MESSAGE, "a reply of another terminal", "000E 290A 0002 0000 8000" },
    { MESSAGE, "correlation id 0", "0000 490A 0002 0000 8000" },
    { BAD_TRAILER, "a wrong byte 43", "000E 490A 0002 0000 8000" },
    { MESSAGE, "Get the sync counter", "000E 490A 0002 0000 8000" },
    { WILD_WRITE, "something else writes into the store", "" },
    { MESSAGE, "the same again: the table is fresh, the counter 0",
      "000E 490A 0002 0000 8000" },
};

static size_t played;

static int has_power(void)
{
    return played < sizeof script / sizeof script[0];
}

static void unhex(const char *hex, uint8_t *bytes)
{
    unsigned value;
    int used;

    for (; sscanf(hex, "%2x%n", &value, &used) == 1; hex += used)
        *bytes++ = (uint8_t)value;
}

static void happen(const struct step *step)
{
    uint8_t link[2] = { 0 };

    printf("%s\n", step->what);
    unhex(step->bytes, link);
    if (step->kind == LINK)
        link_interrupt(0, link[0], link[1]);
    else
        store[0] ^= 0xFF;
}

static size_t receive(uint8_t *message, size_t room)
{
    const struct step *step = &script[played++];

    memset(message, 0, room);
    unhex(step->bytes, message);
    message[43] = step->kind == BAD_TRAILER ? 0x29 : 0x28;
    printf("%s\n", step->what);
    while (has_power() && script[played].kind >= LINK)
        happen(&script[played++]);
    return GWZ_MESSAGE_LENGTH - (step->kind == CUT_SHORT);
}

static void transmit(const uint8_t *message)
{
    printf("    sent ");
    for (int i = 0; i < GWZ_MESSAGE_LENGTH; i++)
        printf("%s%02X", i == 8 || i == 40 ? " " : "", message[i]);
    printf("\n");
}

static void tell(const char *line)
{
    printf("    %s\n", line);
}
