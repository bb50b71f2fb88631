# A host that is wrong on purpose: its answers to unlinks overtake returns that were accepted before them. The kernel
# hangs up. Now and then a task of its own then waits for a URB for ever, so nothing here waits for a task.
. /scripts/functions.sh

hung_up() { grep -q 'the client is gone' "/out/$1/log"; }

serve vendor 3241 --devices vendor --hasty
serve camera 3242 --devices camera --hasty
attach 3241 1-1
within 30 configured 0
attach 3242 1-1
within 30 test -c /dev/video0
guest vendor 61440 300 &
guest pictures /dev/video0 100 2 &
within 60 hung_up vendor
within 60 hung_up camera
sleep 1
