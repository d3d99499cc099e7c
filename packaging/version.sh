#!/bin/sh
# Prints the version. Its one place is include/uip.h: UIP_VERSION_MAJOR, _MINOR and _PATCH.
cd "$(dirname "$0")/.." || exit 1
sed -n 's/^#define UIP_VERSION_[A-Z]* \([0-9][0-9]*\)$/\1/p' include/uip.h | paste -sd. -
