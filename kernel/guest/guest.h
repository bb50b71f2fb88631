/* What the guest's tests share. Each prints what came out of it, in lines that kernel/check reads. */
#ifndef GUEST_H
#define GUEST_H

#include <linux/usbdevice_fs.h>
#include <stdint.h>

/* The product numbers of the host's models, as sysfs writes them. */
#define VENDOR_PRODUCT "5678"
#define SERIAL_PRODUCT "5679"
#define ZERO_PRODUCT "a4a0"

int64_t now_ms(void);

/* Says what errno is about, and ends the program. */
void fail(const char *what) __attribute__((noreturn));

/* ---- usbfs.c ---- */

/* The usbfs file of the device that has this product number. */
int usbfs_open(const char *product);
void usbfs_claim(int fd);

struct usbdevfs_urb *usbfs_urb(uint8_t type, uint8_t endpoint, int length);
struct usbdevfs_urb *usbfs_bulk(uint8_t endpoint, int length);
void usbfs_free(struct usbdevfs_urb *urb);
void usbfs_submit(int fd, struct usbdevfs_urb *urb);
void usbfs_discard(int fd, struct usbdevfs_urb *urb);

/* The next URB that came back, or none within so many milliseconds or once the device is gone. */
struct usbdevfs_urb *usbfs_reap(int fd, int ms);

/* Requests of the host's models (hosts/control.c): what came on OUT endpoints, and how long an OUT takes. */
struct received {
    uint64_t bytes;
    uint32_t sum; /* fnv over the bytes, from 0 on */
} __attribute__((packed));
struct received usbfs_received(int fd);
void usbfs_delay(int fd, uint16_t ms);
uint32_t fnv(uint32_t sum, uint8_t byte);

/* ---- the tests: each has its words of the command line ---- */

int vendor(char **words);    /* LARGEST_WRITE RACES */
int isochronous(char **words);
int too_long(char **words);
int too_many_packets(char **words);
int echo(char **words);      /* TTY BYTES */
int flood(char **words);     /* TTY MILLISECONDS */
int pictures(char **words);  /* VIDEO ROUNDS PICTURES_OF_EACH [DAMAGED] */
int usbtest(char **words);   /* CASE[:ITERATIONS[:LENGTH[:VARY[:SGLEN]]]]... */

#endif
