/* Reads a rules file with systemd's own reader and applies it with its own matcher, each as often as asked, for callgrind. Made for systemd
 * 252, where it stands in for src/test/test-udev.c: that program is linked with all that this one uses.
 *
 *     driver SYSPATH RULES READINGS APPLICATIONS
 *
 * Each application is to a device that was just opened, as for each event of the daemon. What the last one leaves is printed: links, tags
 * and properties. What systemd says of the rules goes where SYSTEMD_LOG_LEVEL and SYSTEMD_LOG_TARGET ask for it. */
#include <signal.h>
#include <stdio.h>
#include <stdlib.h>

#include "sd-device.h"

#include "device-private.h"
#include "log.h"
#include "udev-event.h"
#include "udev-rules.h"

static void must(int result, const char *what) {
        if (result >= 0)
                return;
        fprintf(stderr, "driver: %s: error %d\n", what, -result);
        exit(EXIT_FAILURE);
}

static UdevRules *read_rules(const char *file) {
        UdevRules *rules = udev_rules_new(RESOLVE_NAME_EARLY);

        must(rules ? 0 : -1, "no rules");
        must(udev_rules_parse_file(rules, file), file);
        return rules;
}

/* A device as it comes with an event: its properties are known, and its uevent file is not asked again. */
static sd_device *open_device(const char *syspath) {
        sd_device *device = NULL;

        must(sd_device_new_from_syspath(&device, syspath), syspath);
        must(device_read_uevent_file(device), "uevent");
        must(device_set_action(device, SD_DEVICE_ADD), "action");
        device_seal(device);
        return device;
}

static void apply_rules(UdevRules *rules, sd_device *device) {
        UdevEvent *event = udev_event_new(device, 0, NULL, log_get_max_level());

        must(event ? 0 : -1, "no event");
        must(udev_rules_apply_to_event(rules, event, USEC_PER_SEC, SIGKILL, NULL), "application");
        udev_event_free(event);
}

static void show(sd_device *device) {
        const char *key, *text;

        for (text = sd_device_get_devlink_first(device); text; text = sd_device_get_devlink_next(device))
                printf("link %s\n", text + strlen("/dev/"));
        for (text = sd_device_get_current_tag_first(device); text; text = sd_device_get_current_tag_next(device))
                printf("tag %s\n", text);
        for (key = sd_device_get_property_first(device, &text); key; key = sd_device_get_property_next(device, &text))
                printf("env %s=%s\n", key, text);
}

int main(int count, char **words) {
        UdevRules *rules = NULL;

        if (count != 5) {
                fprintf(stderr, "usage: driver SYSPATH RULES READINGS APPLICATIONS\n");
                return 2;
        }
        log_parse_environment();
        for (int i = atoi(words[3]); i > 0; i--) {
                udev_rules_free(rules);
                rules = read_rules(words[2]);
        }
        for (int i = atoi(words[4]); i > 0; i--) {
                sd_device *device = open_device(words[1]);

                apply_rules(rules, device);
                if (i == 1)
                        show(device);
                sd_device_unref(device);
        }
        udev_rules_free(rules);
        return 0;
}
