/*
 * The bench that examples.c works on: what is lent to the engine, the calls
 * with the checks that hold for every call, and the steps, which print a line
 * each. It is included once, so everything is static.
 */
#ifndef BENCH_H
#define BENCH_H

#include <stdarg.h>
#include <stdint.h>
#include <stdio.h>
#include <stdlib.h>
#include <string.h>

#include "gwezhelin.h"

enum { CREATE = 4, DELETE = 6, SET = 8, GET = 9, ALL_ALARMS = 11,
       ALARMS_NEXT = 12, UPLOAD = 13, UPLOAD_NEXT = 14, RESET = 15 };

enum { ONT = 2, UNI = 11, PROFILE = 45, BRIDGE = 46, PORT = 47 };

enum { STORE = GWZ_STORE_SIZE, MESSAGE = GWZ_MESSAGE_LENGTH,
       GUARD = 64, SPARE = 32, CONTENTS = 32 };

/* ---- checks ---- */

static unsigned product;
static const char *product_name = "-";
static const char *step_name = "sizes";
static unsigned steps;

/* later steps lean on earlier ones, so the first fault ends the program */
static void check(int good, const char *what)
{
    if (good)
        return;
    printf("WRONG: %s | %s: %s\n", product_name, step_name, what);
    exit(EXIT_FAILURE);
}

/* ---- what is lent ---- */

/*
 * Everything lent lies in one struct of bytes, between guards. A call may
 * change two runs of it at most, the store and the reply; all other bytes are
 * compared with a copy, so that a write that strays shows after the call.
 */
struct lent {
    uint8_t guard_1[GUARD];
    uint8_t store[STORE + SPARE];
    uint8_t guard_2[GUARD];
    uint8_t message[MESSAGE + SPARE];
    uint8_t content[SPARE];
    uint8_t guard_3[GUARD];
    uint8_t reply[MESSAGE + SPARE];
    uint8_t guard_4[GUARD];
};

static struct lent now, before;
static size_t store_len = STORE, reply_len = MESSAGE;

/* no two bytes side by side are alike, so that a shifted copy shows too */
static void fill_lent(unsigned seed)
{
    uint8_t *b = (uint8_t *)&now;

    for (size_t i = 0; i < sizeof now; i++)
        b[i] = (uint8_t)(seed + 37 * i);
}

/* the old reply is wiped: bytes that a call forgets to write show */
static void lend(void)
{
    memset(now.reply, 0xA5, sizeof now.reply);
    before = now;
}

static int store_moved(void)
{
    return memcmp(before.store, now.store, sizeof now.store) != 0;
}

/* what the outcome allows to change is let through, and nothing else */
static void check_kept(int store_may_change, int reply_is_filled)
{
    struct lent allowed = before;

    if (store_may_change)
        memcpy(allowed.store, now.store, STORE);
    if (reply_is_filled)
        memcpy(allowed.reply, now.reply, MESSAGE);
    check(memcmp(&allowed, &now, sizeof now) == 0,
          "a byte changed that the call had to keep");
}

static void check_outcome(unsigned number)
{
    int dropped = number != GWZ_ANSWERED && number != GWZ_QUIET;

    check_kept(!dropped, number == GWZ_ANSWERED);
}

/* ---- bytes ---- */

static void put2(uint8_t *at, unsigned value)
{
    at[0] = (uint8_t)(value >> 8);
    at[1] = (uint8_t)value;
}

static unsigned two(const uint8_t *at)
{
    return (unsigned)at[0] << 8 | at[1];
}

static unsigned hex_digit(char c)
{
    return c <= '9' ? (unsigned)(c - '0') : (unsigned)(c - 'A' + 10);
}

/* upper-case hex with blanks anywhere between bytes; returns how many bytes */
static size_t unhex(const char *hex, uint8_t *bytes)
{
    size_t n = 0;

    for (; *hex; hex++) {
        if (*hex == ' ')
            continue;
        bytes[n++] = (uint8_t)(hex_digit(hex[0]) << 4 | hex_digit(hex[1]));
        hex++;
    }
    return n;
}

static char *to_hex(const uint8_t *bytes, size_t n, char *text)
{
    for (size_t i = 0; i < n; i++)
        sprintf(text + 2 * i, "%02X", bytes[i]);
    text[2 * n] = 0;
    return text;
}

/*
 * Long runs are shown by a sum over the contents that came back, in order. It
 * leaves out the ids, so that equal answers have equal sums.
 */
static uint32_t add_to(uint32_t sum, const uint8_t *bytes, size_t n)
{
    while (n--)
        sum = sum * 31 + *bytes++;
    return sum;
}

/* ---- lines ---- */

static char sent[160];

static void say(const char *format, ...)
{
    va_list more;

    va_start(more, format);
    vsnprintf(sent, sizeof sent, format, more);
    va_end(more);
}

/* a line whose last part is text: drops, and sums over long runs */
static void line_text(unsigned number, const char *format, ...)
{
    va_list more;

    steps++;
    printf("%s | %s | %s | %u | ", product_name, step_name, sent, number);
    va_start(more, format);
    vprintf(format, more);
    va_end(more);
    printf("\n");
}

/* header, contents and trailer stand apart, for the reader's sake */
static void line(unsigned number)
{
    char head[17], body[65], tail[17];

    if (number == GWZ_ANSWERED)
        line_text(number, "%s %s %s", to_hex(now.reply, 8, head),
                  to_hex(now.reply + 8, CONTENTS, body),
                  to_hex(now.reply + 40, 8, tail));
    else
        line_text(number, number == GWZ_QUIET ? "quiet" : "dropped");
}

static const char *command_name(unsigned number)
{
    switch (number) {
    case CREATE: return "Create";
    case DELETE: return "Delete";
    case SET: return "Set";
    case GET: return "Get";
    case ALL_ALARMS: return "Get all alarms";
    case ALARMS_NEXT: return "Alarms next";
    case UPLOAD: return "Upload";
    case UPLOAD_NEXT: return "Upload next";
    case RESET: return "MIB reset";
    default: return "Not built";
    }
}

/* a command in short: its contents up to the last pair that isn't zero */
static void say_message(void)
{
    const uint8_t *m = now.message;
    char hex[2 * CONTENTS + 1];
    size_t n = CONTENTS;

    while (n > 0 && two(m + 8 + n - 2) == 0)
        n -= 2;
    say("%s %u/%04X%s%s", command_name(m[2] & 31), two(m + 4), two(m + 6),
        n ? " " : "", to_hex(m + 8, n, hex));
}

/* ---- calls, each with the checks that hold for every call ---- */

static void power_on(unsigned which)
{
    static const char *const names[] = { "Small", "Large", "Meter" };

    product = which;
    product_name = names[which - GWZ_SMALL];
    step_name = "power-on";
    lend();
    check(gwz_power_on(now.store, store_len, (uint8_t)which) == GWZ_ANSWERED,
          "power-on was refused");
    check_kept(1, 0);
}

/* what frames all that is sent: bytes 0 to 7, and 40 to 47 */
static void check_frame(unsigned id, unsigned type, const uint8_t *entity)
{
    static const uint8_t trailer[8] = { 0, 0, 0, 0x28, 0, 0, 0, 0 };

    check(two(now.reply) == id, "wrong correlation id");
    check(now.reply[2] == type, "wrong type");
    check(now.reply[3] == 0x0A, "wrong device");
    check(memcmp(now.reply + 4, entity, 4) == 0, "wrong class or instance");
    check(memcmp(now.reply + 40, trailer, 8) == 0, "wrong bytes 40 to 47");
}

static unsigned handle(size_t length)
{
    unsigned number;

    lend();
    number = gwz_handle(now.store, store_len, now.message, length,
                        now.reply, reply_len);
    check_outcome(number);
    check(number <= 7, "no number of a message");
    if (number == GWZ_ANSWERED)
        check_frame(two(now.message), 0x20u + (now.message[2] & 31u),
                    now.message + 4);
    return number;
}

static void check_notification(unsigned number, unsigned type,
                               unsigned class_id, unsigned instance)
{
    uint8_t entity[4];

    check_outcome(number);
    put2(entity, class_id);
    put2(entity + 2, instance);
    if (number == GWZ_ANSWERED)
        check_frame(0, type, entity);
}

static unsigned tell_attribute(unsigned class_id, unsigned instance,
                               unsigned attribute, size_t length)
{
    unsigned number;

    lend();
    number = gwz_report_attribute(now.store, store_len, (uint16_t)class_id,
                                  (uint16_t)instance, (uint8_t)attribute,
                                  now.content, length, now.reply, reply_len);
    check_notification(number, 0x11, class_id, instance);
    return number;
}

static unsigned tell_alarm(unsigned class_id, unsigned instance,
                           unsigned alarm, unsigned on)
{
    unsigned number;

    lend();
    number = gwz_report_alarm(now.store, store_len, (uint16_t)class_id,
                              (uint16_t)instance, (uint8_t)alarm, (uint8_t)on,
                              now.reply, reply_len);
    check_notification(number, 0x10, class_id, instance);
    return number;
}

/* ---- steps ---- */

/* each command gets an id of its own, so that none is a repeat by chance */
static unsigned last_id;

static void compose_bytes(unsigned number, unsigned class_id,
                          unsigned instance, const uint8_t *v, size_t n)
{
    uint8_t *m = now.message;

    last_id = last_id % 0xFFFF + 1;
    memset(m, 0, MESSAGE);
    put2(m, last_id);
    m[2] = (uint8_t)(0x40 + number);
    m[3] = 0x0A;
    put2(m + 4, class_id);
    put2(m + 6, instance);
    memcpy(m + 8, v, n);
    m[43] = 0x28;
}

static void compose(unsigned number, unsigned class_id, unsigned instance,
                    const char *contents)
{
    uint8_t v[CONTENTS];

    compose_bytes(number, class_id, instance, v, unhex(contents, v));
}

/* contents of the reply: these bytes, and zeros behind them */
static int shows_bytes(const uint8_t *v, size_t n)
{
    uint8_t wanted[CONTENTS] = { 0 };

    memcpy(wanted, v, n);
    return memcmp(now.reply + 8, wanted, CONTENTS) == 0;
}

static int shows(const char *contents)
{
    uint8_t v[CONTENTS];

    return shows_bytes(v, unhex(contents, v));
}

/* the reply to the last command that had a line, for its repeats */
static uint8_t last_reply[MESSAGE];

/* sends what was composed */
static void send_composed(const char *name, const char *wanted)
{
    unsigned number;

    step_name = name;
    number = handle(MESSAGE);
    say_message();
    line(number);
    check(number == GWZ_ANSWERED, "dropped");
    check(shows(wanted), "wrong contents");
    memcpy(last_reply, now.reply, MESSAGE);
}

static void command(const char *name, unsigned number, unsigned class_id,
                    unsigned instance, const char *contents,
                    const char *wanted)
{
    compose(number, class_id, instance, contents);
    send_composed(name, wanted);
}

/* what came back in a long run: how many messages, and their sum */
static unsigned run_count;
static uint32_t run_sum;

static void begin_run(const char *name)
{
    step_name = name;
    run_count = 0;
    run_sum = 0;
}

static void add_to_run(void)
{
    run_count++;
    run_sum = add_to(run_sum, now.reply + 8, CONTENTS);
}

/* a command inside a long run, without a line of its own */
static void pass(unsigned number, unsigned class_id, unsigned instance,
                 const uint8_t *v, size_t n)
{
    compose_bytes(number, class_id, instance, v, n);
    check(handle(MESSAGE) == GWZ_ANSWERED, "dropped");
    add_to_run();
}

static void pass_done(unsigned number, unsigned class_id, unsigned instance,
                      const uint8_t *v, size_t n)
{
    pass(number, class_id, instance, v, n);
    check(shows("00"), "refused");
}

/* the same message once more: the old 48 bytes, and nothing changes */
static void repeat(const char *name)
{
    unsigned number;

    step_name = name;
    number = handle(MESSAGE);
    say_message();
    line(number);
    check(memcmp(now.reply, last_reply, MESSAGE) == 0, "not the old reply");
    check(!store_moved(), "a repeat changed the store");
}

static void check_avc(unsigned attribute, size_t length)
{
    uint8_t v[CONTENTS];

    put2(v, 0x8000u >> (attribute - 1));
    memcpy(v + 2, now.content, length);
    check(shows_bytes(v, 2 + length), "wrong contents");
}

static void report(const char *name, unsigned class_id, unsigned instance,
                   unsigned attribute, const char *content, unsigned wanted)
{
    size_t n = unhex(content, now.content);
    unsigned number;

    step_name = name;
    number = tell_attribute(class_id, instance, attribute, n);
    say("report %u/%04X attribute %u: %s", class_id, instance, attribute,
        n ? content : "no bytes");
    line(number);
    check(number == wanted, "wrong number");
    if (number == GWZ_ANSWERED)
        check_avc(attribute, n);
}

/* every product declares one alarm, number 0: the top bit of the bitmap */
static void check_alarm(unsigned on, unsigned sequence)
{
    uint8_t v[CONTENTS] = { 0 };

    v[0] = on ? 0x80 : 0;
    v[31] = (uint8_t)sequence;
    check(shows_bytes(v, CONTENTS), "wrong contents");
}

static void alarm(const char *name, unsigned class_id, unsigned instance,
                  unsigned which, unsigned on, unsigned wanted,
                  unsigned sequence)
{
    unsigned number;

    step_name = name;
    number = tell_alarm(class_id, instance, which, on);
    say("alarm %u/%04X number %u %s", class_id, instance, which,
        on ? "on" : "off");
    line(number);
    check(number == wanted, "wrong number");
    if (number == GWZ_ANSWERED)
        check_alarm(on, sequence);
}

static void check_counter(const char *name, unsigned wanted)
{
    char hex[24];

    sprintf(hex, "00 8000 %02X", wanted & 0xFFu);
    command(name, GET, ONT, 0, "8000", hex);
}

#endif
