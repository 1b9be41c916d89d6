// SPDX-License-Identifier: GPL-2.0
/* A board with an LTC2972 at address 58 of a bus and a consumer of each of its two regulators. Writing microvolts
 * into set0 or set1 of /sys/kernel/debug/regulator_board calls regulator_set_voltage, and reading it
 * regulator_get_voltage, whose answers the caller gets. */
#include <linux/debugfs.h>
#include <linux/i2c.h>
#include <linux/module.h>
#include <linux/platform_device.h>
#include <linux/pmbus.h>
#include <linux/regulator/consumer.h>
#include <linux/regulator/machine.h>

static int bus;
module_param(bus, int, 0444);
MODULE_PARM_DESC(bus, "the number of the I2C bus");

static struct regulator_consumer_supply supplies[2] = {
	REGULATOR_SUPPLY("out0", "regulator_board"),
	REGULATOR_SUPPLY("out1", "regulator_board"),
};

#define OUTPUT(number) {							\
	.constraints = {							\
		.name = "output" #number,					\
		.min_uV = 250000,						\
		.max_uV = 4000000,						\
		.valid_ops_mask = REGULATOR_CHANGE_VOLTAGE,			\
	},									\
	.num_consumer_supplies = 1,						\
	.consumer_supplies = &supplies[number],					\
}

static struct regulator_init_data outputs[2] = { OUTPUT(0), OUTPUT(1) };
static struct pmbus_platform_data pmbus_data = { .num_regulators = 2, .reg_init_data = outputs };
static struct platform_device *board;
static struct i2c_client *part;
static struct regulator *consumers[2];
static struct dentry *folder;

static int set_voltage(void *output, u64 microvolts)
{
	return regulator_set_voltage(consumers[(long)output], microvolts, microvolts);
}

static int get_voltage(void *output, u64 *microvolts)
{
	int found = regulator_get_voltage(consumers[(long)output]);

	*microvolts = found;
	return found < 0 ? found : 0;
}

DEFINE_DEBUGFS_ATTRIBUTE(voltage, get_voltage, set_voltage, "%llu\n");

static int __init regulator_board_init(void)
{
	struct i2c_board_info info = { I2C_BOARD_INFO("ltc2972", 0x58), .platform_data = &pmbus_data };
	struct i2c_adapter *adapter = i2c_get_adapter(bus);
	long output;

	if (!adapter)
		return -ENODEV;
	part = i2c_new_client_device(adapter, &info);
	i2c_put_adapter(adapter);
	if (IS_ERR(part))
		return PTR_ERR(part);
	board = platform_device_register_simple("regulator_board", PLATFORM_DEVID_NONE, NULL, 0);
	folder = debugfs_create_dir("regulator_board", NULL);
	for (output = 0; output < 2; output++) {
		consumers[output] = regulator_get(&board->dev, output ? "out1" : "out0");
		if (IS_ERR(consumers[output]))
			pr_err("regulator_board: no regulator %ld\n", output);
		else
			debugfs_create_file(output ? "set1" : "set0", 0600, folder, (void *)output, &voltage);
	}
	return 0;
}

static void __exit regulator_board_exit(void)
{
	int output;

	debugfs_remove_recursive(folder);
	for (output = 0; output < 2; output++)
		if (!IS_ERR(consumers[output]))
			regulator_put(consumers[output]);
	platform_device_unregister(board);
	i2c_unregister_device(part);
}

module_init(regulator_board_init);
module_exit(regulator_board_exit);
MODULE_LICENSE("GPL");
MODULE_DESCRIPTION("A board with consumers of the regulators of an LTC2972");
