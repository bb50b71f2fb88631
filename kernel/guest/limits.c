/* One URB that is past a limit of the engine: the session breaks, and the kernel gives the device up. */
#include "guest.h"

#include <errno.h>
#include <stdio.h>
#include <string.h>
#include <unistd.h>

#define BULK_IN 0x81
#define ISOCHRONOUS_IN 0x84
#define OVER_LENGTH 61441
#define OVER_PACKETS 33
#define PACKET_LENGTH 64
#define REAP_MS 5000

static int over(int fd, struct usbdevfs_urb *urb, const char *what)
{
    usbfs_submit(fd, urb);
    if (usbfs_reap(fd, REAP_MS))
        printf("%s: came back with status %d, %d bytes\n", what, urb->status, urb->actual_length);
    else
        printf("%s: nothing came back: %s\n", what, strerror(errno));
    close(fd);
    return 0;
}

int too_long(char **words)
{
    int fd = usbfs_open(VENDOR_PRODUCT);

    (void)words;
    usbfs_claim(fd);
    return over(fd, usbfs_bulk(BULK_IN, OVER_LENGTH), "a read of 61441 bytes");
}

int too_many_packets(char **words)
{
    int fd = usbfs_open(VENDOR_PRODUCT);
    struct usbdevfs_urb *urb = usbfs_urb(USBDEVFS_URB_TYPE_ISO, ISOCHRONOUS_IN, OVER_PACKETS * PACKET_LENGTH);

    (void)words;
    usbfs_claim(fd);
    urb->flags = USBDEVFS_URB_ISO_ASAP;
    urb->number_of_packets = OVER_PACKETS;
    for (int i = 0; i < OVER_PACKETS; i++)
        urb->iso_frame_desc[i].length = PACKET_LENGTH;
    return over(fd, urb, "a read of 33 packets");
}
