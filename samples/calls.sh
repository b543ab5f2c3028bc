#!/bin/bash
# calls.sh FOLDER: runs a bus of its own, on which a few calls are made, and captures it in three
# ways at once: FOLDER/calls.dbus, calls.pcap and calls.pcapng, as samples/README.md says.
set -e
folder=$(realpath "$1")
room=$(mktemp -d)
trap 'kill "${monitors[@]}" "$bus" 2> /dev/null; rm -r "$room"' EXIT

export DBUS_SESSION_BUS_ADDRESS="unix:path=$room/bus"
dbus-daemon --session --nofork --address="$DBUS_SESSION_BUS_ADDRESS" &
bus=$!
until [ -S "$room/bus" ]; do sleep 0.1; done

dbus-monitor --binary > "$folder/calls.dbus" &
monitors=($!)
sleep 0.5
dbus-monitor --pcap > "$folder/calls.pcap" &
monitors+=($!)
sleep 0.5
busctl --address="$DBUS_SESSION_BUS_ADDRESS" capture > "$folder/calls.pcapng" &
monitors+=($!)
sleep 0.5

driver="--print-reply --dest=org.freedesktop.DBus /org/freedesktop/DBus"
dbus-send $driver org.freedesktop.DBus.ListNames
dbus-send --type=signal /org/example/Clock org.example.Clock.Ticked uint64:1700000000 string:é
sleep 0.2
dbus-send --print-reply --dest=org.example.Nobody /org/example org.example.Clock.Read || true
dbus-send $driver org.freedesktop.DBus.Properties.GetAll string:org.freedesktop.DBus
sleep 0.5
