# An isochronous camera under the driver uvcvideo. The kernel enumerates it, asks what pictures it has, and chooses the
# alternate setting with the endpoint. Five requests of 32 packets at a time wait; packets come whole, short and empty,
# and in the eighth picture one is lost: the driver drops that picture. Twice the stream stops while requests are
# pending: they are unlinked. Some of them finish late all the same, and are refused with 4.
. /scripts/functions.sh

serve tape 3241 --devices isocamera --late
attach 3241 1-1
within 30 filming 0
guest pictures "$(video 0)" 2 5 8
detach 0
within 10 gone 0
