# A camera under the driver uvcvideo. The kernel enumerates it and asks what pictures it has. Three times a stream
# starts: five requests at a time wait for parts of a picture, four pictures are taken, and the stream stops while
# requests are pending: they are unlinked. Some of them finish late all the same, and are refused with 4.
. /scripts/functions.sh

serve tape 3241 --devices camera --late
attach 3241 1-1
within 30 test -c /dev/video0
guest pictures /dev/video0 3 4
detach 0
within 10 gone 0
