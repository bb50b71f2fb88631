/* The cases of the kernel's own usbtest driver, which is bound to the zero model. */
#include "guest.h"

#include <errno.h>
#include <stdio.h>
#include <string.h>
#include <sys/ioctl.h>
#include <unistd.h>

/* The driver's struct usbtest_param_32 and its request; they are in no header for programs. */
struct usbtest_param {
    uint32_t test_num, iterations, length, vary, sglen;
    int32_t duration_sec, duration_usec;
};
#define USBTEST_REQUEST _IOWR('U', 100, struct usbtest_param)

static void run_case(const char *word)
{
    struct usbtest_param p = {.iterations = 20, .length = 1024, .vary = 512, .sglen = 16};
    struct usbdevfs_ioctl request = {.ifno = 0, .ioctl_code = USBTEST_REQUEST, .data = &p};
    int fd = usbfs_open(ZERO_PRODUCT);

    sscanf(word, "%u:%u:%u:%u:%u", &p.test_num, &p.iterations, &p.length, &p.vary, &p.sglen);
    printf("usbtest %u: %s\n", p.test_num, ioctl(fd, USBDEVFS_IOCTL, &request) < 0 ? strerror(errno) : "ok");
    close(fd);
}

int usbtest(char **words)
{
    for (; *words; words++)
        run_case(*words);
    return 0;
}
