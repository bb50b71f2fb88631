# What real drivers ask for and this engine doesn't have: longer transfers, more pending URBs, more packets.
. /scripts/functions.sh

echo "== a read of 16,385 bytes"
serve long 3241 --devices vendor
attach 3241 1-1
within 30 configured 0
guest too-long
within 10 gone 0

echo "== an isochronous read of 33 packets"
serve packets 3242 --devices vendor
attach 3242 1-1
within 30 configured 0
guest too-many-packets
within 10 gone 0

echo "== usb-storage with transfers as the kernel has them"
serve disk 3243 --devices disk
attach 3243 1-1
within 30 test -b /dev/sda
echo "max_sectors_kb $(cat /sys/block/sda/queue/max_sectors_kb)"
echo "disk: read $(dd if=/dev/sda bs=64k count=16 2> /dev/null | wc -c) of 1048576 bytes"
within 30 gone 0

echo "== cdc_acm with all of its URBs"
serve serial 3244 --devices serial
attach 3244 1-1
within 30 test -c /dev/ttyACM0
guest flood /dev/ttyACM0 400
detach 0
within 10 gone 0

echo "== cdc_ether with all of its reads"
serve ethernet 3245 --devices ethernet
attach 3245 1-1
within 30 test -e /sys/class/net/usb0
ip link set usb0 up
sleep 1
ip link set usb0 down
echo "rx_errors $(cat /sys/class/net/usb0/statistics/rx_errors)"
detach 0
within 10 gone 0
