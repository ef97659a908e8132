# The C compiler for the core's static library, which is for x86-64, and what runs its programs here. To be sourced; installs what
# is missing.
machine_install() {
    if ! command -v "$1" >/dev/null; then
        apt-get install -y -q "${@:2}" >/dev/null || { apt-get update -q >/dev/null && apt-get install -y -q "${@:2}" >/dev/null; }
    fi
}

machine_install xxd xxd
if [ "$(uname -m)" = x86_64 ]; then
    machine_install gcc gcc libc6-dev
    export CC=gcc RUN=
else
    machine_install x86_64-linux-gnu-gcc gcc-x86-64-linux-gnu libc6-dev-amd64-cross
    machine_install qemu-x86_64 qemu-user
    export CC=x86_64-linux-gnu-gcc RUN='qemu-x86_64 -L /usr/x86_64-linux-gnu'
    # the sanitizers do not run under the emulator
    export SANITIZED_RECORDS=0 SANITIZERS=0
fi
