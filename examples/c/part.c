/* A firmware's frame at a desk: a part hears a write of 3.3 V for output 0, and restarts. */
#include "pmpart.h"
#include <stdio.h>
#include <string.h>

int main(void) {
    static pm_part part;
    pm_part_config config;
    pm_part_output start = {0x14, 0, 0x80, 0x1000, 0x4000, 0x1100, 0x0F00, 0};
    const uint8_t write[] = {0xB0, 0x05, 0x04, 0x00, 0x21, 0xCD, 0x34, 0x5A};
    pm_part_reply reply;
    int64_t microvolts = 0;
    memset(&config, 0, sizeof config);
    config.address = 0x58, config.outputs = 2, config.m = 1;
    config.starts[0] = config.starts[1] = start;
    if (pm_part_size() != sizeof part || pm_part_new(&part, &config) != PM_PART_OK)
        return 1;
    unsigned heard = pm_part_hear(&part, write, sizeof write, 0, &reply);
    pm_part_commanded_microvolts(&part, 0, &microvolts);
    printf("%s, output 0 commands %ld uV\n", heard == PM_HEARD_TAKEN ? "taken" : "refused", (long)microvolts);
    pm_part_restart(&part);
    pm_part_commanded_microvolts(&part, 0, &microvolts);
    printf("restarted, output 0 commands %ld uV\n", (long)microvolts);
    return 0;
}
