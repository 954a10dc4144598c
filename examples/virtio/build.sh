#!/usr/bin/env bash
# examples/virtio/build.sh FOLDER [FLAG ..]: builds the driver and its load into the folder, by examples/driver/build.sh.
exec "$(dirname "$(readlink -f "${BASH_SOURCE[0]}")")/../driver/build.sh" virtio "$@"
