#include "exports.h"
#include "bytes.h"
#include "usb.h"

#include <stdio.h>
#include <string.h>

/* The first device is the replay tape's own: busid 1-1, busnum 1, devnum 15. So what it is asked replays. */
#define BUSNUM 1u
#define FIRST_DEVNUM 15u

static const struct model *const models[] = {&camera, &serial, &disk, &vendor, &zero, &ethernet, &isocamera};

static const struct model *find(const char *name, size_t length)
{
    const struct model *found = NULL;

    for (size_t i = 0; i < sizeof models / sizeof models[0]; i++)
        if (strlen(models[i]->name) == length && memcmp(models[i]->name, name, length) == 0)
            found = models[i];
    return found;
}

/* The classes of the interfaces, from their first alternate settings. */
static void add_interfaces(struct rimemaple_device *device, const struct model *model)
{
    const uint8_t *const end = model->configuration + model->configuration_length;

    for (const uint8_t *d = model->configuration; d < end; d += d[0])
        if (d[1] == DT_INTERFACE && d[3] == 0)
            device->interfaces[d[2]] = (struct rimemaple_interface){d[5], d[6], d[7]};
}

static void describe(struct rimemaple_device *device, const struct model *model, unsigned place)
{
    const uint8_t *d = model->descriptor;

    snprintf((char *)device->path, sizeof device->path, "/deck/%u-%u", BUSNUM, place + 1);
    snprintf((char *)device->busid, sizeof device->busid, "%u-%u", BUSNUM, place + 1);
    device->busnum = BUSNUM;
    device->devnum = FIRST_DEVNUM + place;
    device->speed = SPEED_HIGH;
    device->bDeviceClass = d[4];
    device->bDeviceSubClass = d[5];
    device->bDeviceProtocol = d[6];
    device->idVendor = le16(d + 8);
    device->idProduct = le16(d + 10);
    device->bcdDevice = le16(d + 12);
    device->bNumConfigurations = d[17];
    device->bNumInterfaces = model->configuration[4];
    device->bConfigurationValue = model->configuration[5];
    add_interfaces(device, model);
}

bool exports_make(struct exports *exports, const char *names)
{
    bool good = true;

    memset(exports, 0, sizeof *exports);
    while (good && *names) {
        const size_t length = strcspn(names, ",");
        const size_t place = exports->table.count;
        const struct model *model = find(names, length);

        good = model && place < RIMEMAPLE_MAX_DEVICES;
        if (good) {
            exports->models[place] = model;
            describe(&exports->table.devices[place], model, (unsigned)place);
            exports->table.count++;
            names += length + (names[length] == ',');
        }
    }
    return good;
}

static uint64_t devid_of(const struct rimemaple_device *device)
{
    return (uint64_t)device->busnum << 16 | device->devnum;
}

size_t exports_find(const struct exports *exports, uint64_t devid)
{
    size_t place = 0;

    while (place < exports->table.count && devid_of(&exports->table.devices[place]) != devid)
        place++;
    return place;
}
