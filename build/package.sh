# shellcheck shell=bash
# Sourced by build/libwebp.sh and tests/netpbm. The caller has `say`.

# Installs a Debian package where the command fails and the package can be installed, and says so first. JONQUILSAW_NO_INSTALL=1 turns that off.
want_package() { # PACKAGE COMMAND..
    local package=$1
    shift
    ! "$@" >/dev/null 2>&1 || return 0
    if [ -n "${JONQUILSAW_NO_INSTALL:-}" ]; then
        say "$package is missing, and JONQUILSAW_NO_INSTALL keeps it from being installed"
    elif [ "$(id -u)" != 0 ] || ! command -v apt-get >/dev/null; then
        say "$package is missing, and only root can install it, by apt-get"
    else
        say "$package is missing: installing it by apt-get (JONQUILSAW_NO_INSTALL=1 turns that off)"
        { install_package "$package" || { timeout 120 apt-get update -qq && install_package "$package"; }; } >/dev/null 2>&1 || say "$package was not installed: apt-get failed"
    fi
}
install_package() { timeout 120 apt-get install -y -qq "$1"; }
