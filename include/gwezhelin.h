/*
 * Gwezhelin: the OMCI management engine for B-PON terminals.
 *
 * The exchange sends messages of 48 bytes. The engine reads one, changes the
 * table of managed entities in a store that you lend, and writes the reply.
 * Local reports tell it what the hardware saw: a link that came up, an alarm.
 *
 *     static uint8_t store[GWZ_STORE_SIZE], reply[GWZ_MESSAGE_LENGTH];
 *
 *     gwz_power_on(store, sizeof store, GWZ_LARGE);
 *     for (;;) {
 *         if (message_came(message)
 *             && gwz_handle(store, sizeof store, message, 48, reply, 48) == 0)
 *             transmit(reply);
 *         if (link_changed(&state)
 *             && gwz_report_attribute(store, sizeof store, 11, 0x0101, 6,
 *                                     &state, 1, reply, 48) == 0)
 *             transmit(reply);
 *     }
 *
 * What is lent
 *     Store, message, content and reply are yours. The engine uses them during
 *     the call and keeps no pointer to them; what it knows is in the store.
 *     Message and content are only read.
 *
 * What may be lent
 *     A pointer must be valid for as many bytes as the length beside it says,
 *     and no two of the areas of one call may overlap. No pointer may be NULL,
 *     not even with length 0: each pointer becomes a slice, a run of bytes
 *     that has to begin at some address even if it is empty. For an empty
 *     area, pass the address of any byte of yours and length 0.
 *     These are the only things that the engine cannot test. Every length and
 *     every content of the bytes is allowed, a store full of rubbish too.
 *
 * What a call leaves
 *     dropped     the store and the reply keep every byte
 *     quiet       the reply keeps every byte
 *     answered    the first 48 bytes of the reply are filled; those behind
 *                 them stay as they were
 *     Bytes of the store past gwz_store_size() are never read or written.
 *
 * One table, one hand
 *     A store must be in one caller's hand at a time: while a call runs, no
 *     other call may be made on the same store, from a thread or from an
 *     interrupt. An interrupt notes what it saw and reports it afterwards.
 *     Two stores have nothing to do with each other.
 *
 * What it needs
 *     No heap, no clock, no thread, no file and no C library. The compiler
 *     asks for memcpy, memmove and memset, as it does everywhere; a program
 *     without a C library brings these three itself.
 *     Nothing is kept between calls: all that the engine knows is in the
 *     store, so a store may be copied and used from its new address.
 */
#ifndef GWEZHELIN_H
#define GWEZHELIN_H

#include <stddef.h>
#include <stdint.h>

#ifdef __cplusplus
extern "C" {
#endif

/* The products, by the number that power-on takes. */
#define GWZ_SMALL 1               /* one Ethernet UNI, bridges and ports */
#define GWZ_LARGE 2               /* four UNIs, and more attributes */
#define GWZ_METER 3               /* one UNI with fewer attributes, and no */
                                  /* bridges: every Create, Delete and Set is */
                                  /* refused; it is read, reset and reported */

/* Every message, reply and notification has this many bytes. */
#define GWZ_MESSAGE_LENGTH 48

/* What gwz_store_size() returns, for a store that the compiler lays out. */
#define GWZ_STORE_SIZE 3344

/*
 * What a call returns. The drops are tried in the order of their numbers, and
 * the first that applies is returned.
 */
#define GWZ_ANSWERED 0            /* the reply holds a message to send */
#define GWZ_QUIET 255             /* a report was taken; nothing to send */

#define GWZ_DROP_REPLY_ROOM 1     /* the reply's room is under 48 bytes */
#define GWZ_DROP_STORE 2          /* the store is too short, or its bytes */
                                  /* encode no state of a product */
#define GWZ_DROP_LENGTH 3         /* the message isn't 48 bytes long */
#define GWZ_DROP_DEVICE 4         /* byte 3, the device, isn't 0x0A */
#define GWZ_DROP_TYPE 5           /* byte 2 is no command: its top three bits */
                                  /* aren't 0, 1, 0 */
#define GWZ_DROP_ID 6             /* bytes 0 and 1, the correlation id, are 0 */
#define GWZ_DROP_TRAILER 7        /* bytes 40 to 43 aren't 00 00 00 28 */
#define GWZ_DROP_INSTANCE 11      /* report: there is no such instance */
#define GWZ_DROP_NOT_DECLARED 12  /* report: no such alarm, or an attribute */
                                  /* that reports don't write; power-on: no */
                                  /* such product */
#define GWZ_DROP_CONTENT 13       /* report: the content has the wrong length */
                                  /* or isn't legal */

/*
 * How long a store is: one number for all products, never over 16,384. A
 * longer store may be lent; a shorter one is drop 2.
 */
size_t gwz_store_size(void);

/*
 * Writes the fresh state of a product into the store, whatever it held. Call it
 * at every start, before the first message or report.
 *
 * product: GWZ_SMALL, GWZ_LARGE or GWZ_METER.
 * Returns 0; or 2, the store is too short; or 12, no such product (tried in
 * this order). On 2 and 12 the store keeps every byte.
 */
uint8_t gwz_power_on(uint8_t *store, size_t store_len, uint8_t product);

/*
 * Takes one message from the exchange. A command is answered also if it is
 * refused: the result stands in byte 8 of the reply, and a refused command
 * changes nothing but what is remembered for repeats. A command whose first 40
 * bytes equal those of the last one answered is a repeat: it gets the old
 * reply again, and nothing changes. Bytes 44 to 47, the checksum, are ignored.
 *
 * Results, of every command but uploads and alarm walks, which have none:
 *     0  done
 *     1  no place: all 40 are in use (Create)
 *     2  command not supported, or not for this class
 *     3  bad parameter: a Create whose contents aren't legal, with their mask
 *        in bytes 9 and 10; a Set or Get that names no attribute, or values of
 *        more than 30 bytes (Set) or 25 (Get)
 *     4  unknown class
 *     5  unknown instance
 *     7  instance exists (Create)
 *     9  attribute failed. A Set names those that the class doesn't have in
 *        bytes 9 and 10, and those that can't be written in bytes 11 and 12;
 *        if there are neither, bytes 11 and 12 name every one whose content
 *        isn't legal, and 9 and 10 are zero. A Get names those that the class
 *        doesn't have in bytes 36 and 37.
 * The first that applies is given; of a Set in this order: 4, 2, 5, 3 for no
 * attribute, 9 for what isn't there or can't be written, 3 for its length, 9
 * for its contents. In a mask of two bytes attribute 1 is the top bit. Masks
 * that a result doesn't fill are zero.
 *
 * Returns 0, send the reply; or a drop, 1 to 7.
 */
uint8_t gwz_handle(uint8_t *store, size_t store_len,
                   const uint8_t *message, size_t message_len,
                   uint8_t *reply, size_t reply_len);

/*
 * Reports the content of one attribute that the terminal itself writes, such
 * as a UNI's operational state (class 11, attribute 6). The exchange is told
 * only if the content changed and the attribute is one whose changes are sent.
 *
 * attribute: its number, from 1.
 * content: its bytes, the highest first, as many as the attribute has.
 * Returns 0, send the notification in the reply; 255, quiet, nothing to send;
 * or a drop: 1, 2, 11, 12 or 13.
 */
uint8_t gwz_report_attribute(uint8_t *store, size_t store_len,
                             uint16_t class_id, uint16_t instance,
                             uint8_t attribute,
                             const uint8_t *content, size_t content_len,
                             uint8_t *reply, size_t reply_len);

/*
 * Reports that one alarm was raised or cleared, such as a UNI's loss of signal
 * (class 11, alarm 0). The exchange is told only if that is a change.
 *
 * alarm: its number, from 0.
 * on: 0 clears the alarm, anything else raises it.
 * Returns 0, send the notification in the reply; 255, quiet, nothing to send;
 * or a drop: 1, 2, 11 or 12.
 */
uint8_t gwz_report_alarm(uint8_t *store, size_t store_len,
                         uint16_t class_id, uint16_t instance,
                         uint8_t alarm, uint8_t on,
                         uint8_t *reply, size_t reply_len);

#ifdef __cplusplus
}
#endif

#endif
