# What the scripts share.

# within SECONDS COMMAND...: tries the command again until it succeeds.
within() {
    local tries=$(($1 * 5))
    shift
    until "$@"; do
        tries=$((tries - 1))
        [ $tries -gt 0 ] || { echo "in vain: $*"; return 1; }
        sleep 0.2
    done
}

listening() { grep -q "$(printf ':%04X 00000000:0000 0A' "$1")" /proc/net/tcp; }

# serve NAME PORT WORDS...: a host of its own; its log and its tapes go to /out/NAME/.
serve() {
    local name=$1 port=$2
    shift 2
    mkdir -p "/out/$name"
    deckhost --port "$port" --log "/out/$name/log" --tapes "/out/$name" --seed "$SEED" --quiet "$@" &
    within 10 listening "$port"
}

# attach PORT BUSID: the device gets the lowest port of the virtual controller that is free.
attach() {
    usbip --tcp-port "$1" attach -r 127.0.0.1 -b "$2"
    echo "attach of $2 at $1: exit status $?"
}

detach() { usbip detach -p "$1" > /dev/null 2>&1; echo "detach of port $1: exit status $?"; }

device() { echo "/sys/bus/usb/devices/1-$(($1 + 1))"; }

interfaces() { ls -d "$(device "$1")":* 2> /dev/null | wc -l; }

configured() { [ "$(cat "$(device "$1")/bNumInterfaces")" -eq "$(interfaces "$1")" ]; } 2> /dev/null

gone() { [ ! -e "$(device "$1")" ]; }

# video PORT: the picture device of the camera there; behind it the driver has one for metadata.
video() { echo "/dev/$(ls "$(device "$1"):1.0/video4linux" | head -n 1)"; } 2> /dev/null

filming() { [ -c "$(video "$1")" ]; }

# describe NAME PORT: what enumeration made of the device at a port of the virtual controller.
describe() {
    local d=$(device "$2")
    echo "$1: $(cat "$d/idVendor"):$(cat "$d/idProduct"), '$(cat "$d/manufacturer")', '$(cat "$d/product")'," \
        "configuration $(cat "$d/bConfigurationValue"), $(interfaces "$2") interfaces"
}
