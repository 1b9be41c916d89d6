// SPDX-License-Identifier: GPL-2.0
/* What a board's description says: lines 0 and 1 of a GPIO chip are SDA and SCL of bus 5, which i2c-gpio drives. */
#include <linux/gpio/machine.h>
#include <linux/module.h>
#include <linux/platform_data/i2c-gpio.h>
#include <linux/platform_device.h>

static char *chip = "virtio1";
module_param(chip, charp, 0444);
MODULE_PARM_DESC(chip, "the name of the GPIO chip");

static struct platform_device *bus;
static struct gpiod_lookup_table lines = {
	.dev_id = "i2c-gpio.5",
	.table = {
		GPIO_LOOKUP("virtio1", 0, "sda", GPIO_ACTIVE_HIGH),
		GPIO_LOOKUP("virtio1", 1, "scl", GPIO_ACTIVE_HIGH),
		{ },
	},
};

static int __init wire_bus_init(void)
{
	struct i2c_gpio_platform_data data = { .udelay = 1, .timeout = HZ / 20 };

	lines.table[0].key = lines.table[1].key = chip;
	gpiod_add_lookup_table(&lines);
	bus = platform_device_register_data(NULL, "i2c-gpio", 5, &data, sizeof(data));
	if (IS_ERR(bus))
		gpiod_remove_lookup_table(&lines);
	return PTR_ERR_OR_ZERO(bus);
}

static void __exit wire_bus_exit(void)
{
	platform_device_unregister(bus);
	gpiod_remove_lookup_table(&lines);
}

module_init(wire_bus_init);
module_exit(wire_bus_exit);
MODULE_LICENSE("GPL");
MODULE_DESCRIPTION("A board whose bus 5 hangs on two GPIO lines");
