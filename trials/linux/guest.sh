#!/bin/bash
# The first program of the guest, which boot.sh starts: mounts what Linux needs, brings the buses up and does one trial.
# The root is the host's file system, read only; FOLDER alone is written through. ROOT, FOLDER, CACHE, TRIAL, PMB and
# PMBHOST and PMHOST_LIBRARY come from the kernel's command line.
export PATH=/usr/local/sbin:/usr/local/bin:/usr/sbin:/usr/bin:/sbin:/bin HOME=/run LC_ALL=C.UTF-8
# Each of the many pmhost of a trial finds what the first one compiled.
export PYTHONPYCACHEPREFIX=/run/compiled PYTHONPATH=$ROOT/python/src:$ROOT/python
mount -t proc none /proc
mount -t sysfs none /sys
mount -t debugfs none /sys/kernel/debug
mount -t tracefs none /sys/kernel/tracing
mount -t tmpfs none /run
mount -t hostfs none "$FOLDER" -o "$FOLDER"
mountpoint -q /dev || mount -t devtmpfs none /dev
ln -sf /proc/self/fd /dev/fd
cd "$ROOT" || echo "no $ROOT in the guest"
for module in errno_bus wire_bus; do python3 trials/linux/kernel_module.py in "$CACHE/modules/$module.ko"; done
python3 -u trials/linux/trials.py ${TRIAL//,/ } > "$FOLDER/said" 2>&1 < /dev/null
echo "status $?" > "$FOLDER/ended"
dmesg > "$FOLDER/dmesg"
for module in wire_bus errno_bus; do python3 trials/linux/kernel_module.py out $module; done
# The kernel's number for: power off.
exec python3 -c 'import ctypes; ctypes.CDLL(None).reboot(0x4321FEDC)'
