/*
 * Pictures of a camera model through uvcvideo: each has its number in its first four bytes, and the rest follows from
 * that.
 *
 * The driver numbers the pictures of a stream as they come (sequence), but it copies them on several CPUs, and may hand
 * two of them out the wrong way round. So what must hold is that the camera's numbers and the driver's go side by side.
 *
 * Of the isochronous camera each picture whose number is a multiple of DAMAGED loses a packet. The driver is told so by
 * the packet's status alone, and drops the picture.
 */
#include "guest.h"

#include <fcntl.h>
#include <linux/videodev2.h>
#include <poll.h>
#include <stdbool.h>
#include <stdio.h>
#include <stdlib.h>
#include <sys/ioctl.h>
#include <sys/mman.h>
#include <unistd.h>

#define WIDTH 160
#define HEIGHT 120
#define PICTURE_LEN (WIDTH * HEIGHT * 2) /* YUYV */
#define NUMBER_LEN 4
#define BUFFERS 4
#define PICTURE_MS 10000

static const int CAPTURE = V4L2_BUF_TYPE_VIDEO_CAPTURE;

struct stream {
    int fd;
    uint8_t *buffers[BUFFERS];
};

struct tally {
    int right, wrong, misplaced, damaged, dropped;
    int losing;      /* DAMAGED, or 0 */
    int64_t first;   /* the camera's number of the stream's picture 0; -1 before the stream's first picture */
    int64_t highest; /* number so far */
};

static struct v4l2_buffer buffer(int index)
{
    return (struct v4l2_buffer){.index = index, .type = CAPTURE, .memory = V4L2_MEMORY_MMAP};
}

static void request(int fd, unsigned long code, void *argument, const char *what)
{
    if (ioctl(fd, code, argument))
        fail(what);
}

static void map_buffer(struct stream *s, int index)
{
    struct v4l2_buffer b = buffer(index);

    request(s->fd, VIDIOC_QUERYBUF, &b, "QUERYBUF");
    s->buffers[index] = mmap(NULL, PICTURE_LEN, PROT_READ, MAP_SHARED, s->fd, b.m.offset);
    if (s->buffers[index] == MAP_FAILED)
        fail("mmap");
    request(s->fd, VIDIOC_QBUF, &b, "QBUF");
}

static struct stream start(const char *path)
{
    struct stream s = {.fd = open(path, O_RDWR)};
    struct v4l2_format format = {.type = CAPTURE};
    struct v4l2_requestbuffers wanted = {.count = BUFFERS, .type = CAPTURE, .memory = V4L2_MEMORY_MMAP};

    if (s.fd < 0)
        fail(path);
    format.fmt.pix.width = WIDTH;
    format.fmt.pix.height = HEIGHT;
    format.fmt.pix.pixelformat = V4L2_PIX_FMT_YUYV;
    request(s.fd, VIDIOC_S_FMT, &format, "S_FMT");
    request(s.fd, VIDIOC_REQBUFS, &wanted, "REQBUFS");
    for (int i = 0; i < BUFFERS; i++)
        map_buffer(&s, i);
    request(s.fd, VIDIOC_STREAMON, (void *)&CAPTURE, "STREAMON");
    return s;
}

/* With pictures still asked for: the driver unlinks its URBs. */
static void stop(struct stream *s)
{
    request(s->fd, VIDIOC_STREAMOFF, (void *)&CAPTURE, "STREAMOFF");
    for (int i = 0; i < BUFFERS; i++)
        munmap(s->buffers[i], PICTURE_LEN);
    close(s->fd);
}

static bool picture_right(const uint8_t *picture, uint32_t length, uint32_t number)
{
    bool right = length == PICTURE_LEN;

    for (uint32_t i = NUMBER_LEN; i < PICTURE_LEN; i++)
        right = right && picture[i] == (uint8_t)(i * 3 + number * 29 + (i >> 7));
    return right;
}

/* A stream's first number is above all of the streams before it. */
static bool in_place(int64_t number, uint32_t sequence, struct tally *t)
{
    bool starts = t->first < 0, above = number > t->highest;

    t->first = starts ? number - sequence : t->first;
    t->highest = above ? number : t->highest;
    return starts ? above : number == t->first + sequence;
}

static void look(const uint8_t *picture, const struct v4l2_buffer *b, struct tally *t)
{
    uint32_t number = picture[0] | picture[1] << 8 | picture[2] << 16 | (uint32_t)picture[3] << 24;

    if (picture_right(picture, b->bytesused, number))
        t->right++;
    else
        t->wrong++;
    t->misplaced += !in_place(number, b->sequence, t);
    t->damaged += t->losing > 0 && number % t->losing == 0;
}

static bool take(struct stream *s, struct tally *t)
{
    struct pollfd p = {.fd = s->fd, .events = POLLIN};
    struct v4l2_buffer b = buffer(0);
    bool came = poll(&p, 1, PICTURE_MS) > 0 && !ioctl(s->fd, VIDIOC_DQBUF, &b);

    if (came) {
        look(s->buffers[b.index], &b, t);
        request(s->fd, VIDIOC_QBUF, &b, "QBUF");
    }
    return came;
}

/* A stream of so many pictures. What the driver left out of its numbers it dropped. */
static void take_stream(const char *path, int count, struct tally *t)
{
    struct stream s = start(path);
    int taken = 0;

    t->first = -1;
    while (taken < count && take(&s, t))
        taken++;
    t->dropped += taken > 0 ? t->highest - t->first + 1 - taken : 0;
    stop(&s);
}

int pictures(char **words)
{
    struct tally t = {.highest = -1, .losing = words[3] ? atoi(words[3]) : 0};
    int rounds = atoi(words[1]);

    for (int i = 0; i < rounds; i++)
        take_stream(words[0], atoi(words[2]), &t);
    if (t.losing)
        printf("pictures in packets: %d right, %d wrong, %d misplaced, %d damaged, %d dropped\n", t.right, t.wrong,
               t.misplaced, t.damaged, t.dropped);
    else
        printf("pictures: %d right, %d wrong, %d misplaced\n", t.right, t.wrong, t.misplaced);
    return 0;
}
