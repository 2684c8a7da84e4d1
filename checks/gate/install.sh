#!/usr/bin/env bash
# Installs Debian packages, and ends with a line that names those that can't be installed: without a network, say, or not as root.
[ $# -gt 0 ] || exit 0
export DEBIAN_FRONTEND=noninteractive
add() {
    apt-get -o Acquire::Retries=1 -o Acquire::http::Timeout=20 "$@" >/dev/null 2>&1
}
if [ "$(id -u)" = 0 ] && command -v apt-get >/dev/null && add update; then
    # One name that this release doesn't have would refuse all.
    add install -y --no-install-recommends "$@" || for it in "$@"; do add install -y --no-install-recommends "$it"; done
fi
left=()
for it in "$@"; do
    dpkg -s "$it" >/dev/null 2>&1 || left+=("$it")
done
[ ${#left[@]} = 0 ] || echo "not installed, so that some checks are left out: ${left[*]}"
