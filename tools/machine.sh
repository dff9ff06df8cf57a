# Sourced by the other scripts, from the top of the repository. Installs Debian's C compiler where it is missing.
#   $kit, $tools   the Rattle kit, and the folder whose bin has its clang, ld.lld and llvm-ar
#   $cc            a C compiler and its options
#   need COMMAND PACKAGE...    installs Debian's packages where the command is missing
#   fetch PACKAGE...           installs Debian's packages

kit=$(dirname "$(rt doc)")
tools=$kit/toolchain

# Tests may run beside each other, and Debian's packages are installed by one at a time.
fetch() {
    {
        flock 9
        apt-get update -qq
        DEBIAN_FRONTEND=noninteractive apt-get install -y -qq --no-install-recommends "$@" >/dev/null
    } 9>"${TMPDIR:-/tmp}/fetch.lock"
}

need() {
    command -v "$1" >/dev/null 2>&1 && return
    shift
    fetch "$@"
}

need gcc gcc libc6-dev
cc='gcc -std=c11 -D_GNU_SOURCE -O2 -Wall -Wextra -Werror -static'
