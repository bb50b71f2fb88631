/* USB's own numbers, as its specification names them. */
#ifndef USB_H
#define USB_H

/* Fields of a descriptor, little-endian. */
#define LE16(x) (x) & 0xff, (x) >> 8 & 0xff
#define LE32(x) (x) & 0xff, (x) >> 8 & 0xff, (x) >> 16 & 0xff, (x) >> 24 & 0xff

/* Descriptor types. */
#define DT_DEVICE 1
#define DT_CONFIGURATION 2
#define DT_STRING 3
#define DT_INTERFACE 4
#define DT_ENDPOINT 5
#define DT_DEVICE_QUALIFIER 6
#define DT_OTHER_SPEED 7
#define DT_ASSOCIATION 11
#define DT_CLASS 0x24

#define DEVICE_DESCRIPTOR_LEN 18
#define QUALIFIER_LEN 10

/* Attributes of an endpoint, and the direction bit of its address. */
#define EP_ISOCHRONOUS 1
#define EP_BULK 2
#define EP_INTERRUPT 3
#define EP_ASYNCHRONOUS 5       /* isochronous, at a rate of its own */
#define EP_IN 0x80

/* bmRequestType: direction, type and recipient. */
#define OUT_DEVICE 0x00
#define OUT_INTERFACE 0x01
#define OUT_ENDPOINT 0x02
#define OUT_CLASS_INTERFACE 0x21
#define OUT_VENDOR 0x40
#define IN_DEVICE 0x80
#define IN_INTERFACE 0x81
#define IN_ENDPOINT 0x82
#define IN_CLASS_INTERFACE 0xa1
#define IN_VENDOR 0xc0

/* Standard requests. */
#define GET_STATUS 0
#define CLEAR_FEATURE 1
#define SET_FEATURE 3
#define GET_DESCRIPTOR 6
#define GET_CONFIGURATION 8
#define SET_CONFIGURATION 9
#define GET_INTERFACE 10
#define SET_INTERFACE 11

/* bmRequestType and bRequest as one number, for a switch. */
#define REQUEST(type, request) ((type) << 8 | (request))

#define SPEED_HIGH 3

/* The status of a stalled transfer, -EPIPE, and of one that was lost on the bus, -EPROTO. */
#define STALL (-32)
#define LOST (-71)

#endif
