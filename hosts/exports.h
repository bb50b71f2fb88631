/* What the host exports: models under busids 1-1, 1-2 and so on, and the engine's table of them. */
#ifndef EXPORTS_H
#define EXPORTS_H

#include "device.h"

struct exports {
    const struct model *models[RIMEMAPLE_MAX_DEVICES];
    struct rimemaple_table table;
};

/* From names with commas between them. False if a name is unknown or there are too many. */
bool exports_make(struct exports *exports, const char *names);

/* The place of a devid, as rimemaple_devid gives it; the table's count if no device has it. */
size_t exports_find(const struct exports *exports, uint64_t devid);

#endif
