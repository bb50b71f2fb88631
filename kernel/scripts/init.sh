#!/bin/busybox sh
# The guest's first process: makes the machine usable, runs the script that the command line names, saves /out and
# resets the machine.
/bin/busybox --install -s /bin
export PATH=/bin
mount -t proc proc /proc
mount -t sysfs sys /sys
mount -t devtmpfs dev /dev
ip link set lo up
for m in $(cat /modules/order); do insmod "/modules/$m" || echo "insmod $m failed"; done
mount -t 9p -o trans=virtio,version=9p2000.L share /share
echo "kernel $(uname -r)"
timeout "$LIMIT" sh "/scripts/$SCRIPT.sh"
echo "the script's exit status: $?, after $(cut -d ' ' -f 1 /proc/uptime) s"
dmesg > /out/dmesg
cp -r /out/. /share/
echo b > /proc/sysrq-trigger # at once: an orderly end would wait for a device that the kernel can't let go of
