#!/bin/sh
# The library for C, by both backends: what is linked with it is checked by other parts.

. "$(dirname "$0")/shared.sh"
. checks/toolchain.sh

name="the library for C by both backends"
if archives; then pass "$name"; else fail "$name" "it isn't built: $(tail -n 3 "$room/lib")"; fi
