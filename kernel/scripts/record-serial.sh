# A serial line under the driver cdc_acm; the host cuts the stream at random. The kernel enumerates the device and opens
# the line: 16 reads wait, and a read of the interrupt endpoint. Bytes are written, and come back. The line is closed:
# all 17 reads are unlinked. It is opened again, and the client hangs up while its reads are pending: they are dropped.
. /scripts/functions.sh

serve tape 3241 --devices serial --cuts
attach 3241 1-1
within 30 test -c /dev/ttyACM0
guest echo /dev/ttyACM0 2000
cat /dev/ttyACM0 > /dev/null &
sleep 1
detach 0
within 10 gone 0
