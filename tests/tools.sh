# shellcheck shell=bash disable=SC2034
# What the tests of the command share; for bash, to be sourced from the repository's root. Looks for the tools, builds the shim
# and the program `drive`, and names them:
#   amseokbin   the command: target/amseokbin, or what AMSEOKBIN names
#   shim        the library for LD_PRELOAD; tests/shim.c is its manual
#   drive       cuts, faults, and images with right checksums
# Also makes a folder of its own, $dir, which is removed at the end.

tools_for=$1
need() {
    command -v "$1" >/dev/null || { echo "$tools_for: $1 is not installed; $2" >&2; exit 2; }
}
need cc "the shim cannot be built without it"
need cargo "the program drive cannot be built without it"
need timeout "it ends what hangs"

amseokbin=${AMSEOKBIN:-target/amseokbin}
[ -x "$amseokbin" ] || { echo "$tools_for: $amseokbin is not there; build the command, or name it in AMSEOKBIN" >&2; exit 2; }
amseokbin=$(realpath "$amseokbin")
mkdir -p target
shim=$PWD/target/shim.so
if [ ! "$shim" -nt tests/shim.c ]; then
    cc -O2 -Wall -Wextra -Werror -shared -fPIC -o "$shim" tests/shim.c || exit 2
fi
cargo build --release --locked --offline --quiet --manifest-path tests/drive/Cargo.toml || exit 2
drive=$PWD/tests/drive/target/release/drive
export AMSEOKBIN=$amseokbin SHIM=$shim

dir=$(mktemp -d)
trap 'rm -rf "$dir"' EXIT
