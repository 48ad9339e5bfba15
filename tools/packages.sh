# Debian's packages for checks. To be sourced.

MOST_SECONDS=300

# install_packages NAME..: installs the packages, where that is allowed.
install_packages() {
  [ "$(id -u)" -eq 0 ] && command -v apt-get >/dev/null || return 1
  export DEBIAN_FRONTEND=noninteractive
  timeout "$MOST_SECONDS" apt-get install -y --no-install-recommends "$@" ||
    { timeout "$MOST_SECONDS" apt-get update && timeout "$MOST_SECONDS" apt-get install -y --no-install-recommends "$@"; }
}
