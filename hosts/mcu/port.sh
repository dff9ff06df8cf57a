# Sourced by hosts/mcu/build and tests/mcu/run after tools/machine.sh, from the top of the repository: how the modules of the proved libraries
# and C files become code for a microcontroller. LIBRARY is sds or sds_host. ARCH is v7m (Cortex-M3, M4, M7), v6m (M0, M0+) or rv32i (RISC-V
# of 32 bits, without a multiplier). Installs Debian's llvm where it is missing.

mcu=target/mcu
clang=$tools/bin/clang
need llvm-objdump llvm

# The kit brings no headers; those of the C compiler that hold for every target (stdint.h, stddef.h) serve.
headers=$(gcc -print-file-name=include)

fail() {
    echo "${0##*/}: $*" >&2
    exit 1
}

# target_of ARCH, and part ARCH, the compiler's options that name it
target_of() { case $1 in rv32i) echo riscv32-none-elf ;; *) echo "thumb$1-none-eabi" ;; esac; }
part() {
    case $1 in
    rv32i) echo "--target=$(target_of "$1") -march=rv32i -mabi=ilp32" ;;
    *) echo "--target=$(target_of "$1")" ;;
    esac
}

# entry_points LIBRARY: the first is the one that does the library's work, whose size and stack are told; main_entry LIBRARY is that one alone
entry_points() {
    case $1 in
    sds) echo sds_step sds_read sds_write sds_descriptor_size sds_table_check sds_error_code ;;
    sds_host) echo sds_collect sds_import_line sds_export_record ;;
    esac
}
main_entry() { entry_points "$1" | cut -d' ' -f1; }

# module_text LIBRARY ARCH TEXT: writes the module as text for ARCH instead of x86-64, with two attributes more: optsize, without which -Os does
# half of its work on a module; and no jumps through tables, so that no address is computed in the code at all and stack.awk sees every
# call. Hints on inlining, which are for speed on x86-64, are left out. Each replacement must have found its place, or the module is no longer what this was written for.
module_text() {
    target=$(target_of "$2")
    tools/module "$target" "$1" >"$3.plain"
    ours='nounwind optsize "no-jump-tables"="true" }'
    sed -E "s/^(attributes #[0-9]+ = \\{ )((alwaysinline|noinline) )?nounwind }$/\\1$ours/" "$3.plain" >"$3"
    for entry in $(entry_points "$1"); do
        grep -q "^define .*@$entry(.*) #0 {\$" "$3" || fail "the module of $1 has no $entry"
    done
    grep -q '^target datalayout = "e-m:e-p:32:32-' "$3" || fail 'the module has not the data layout of a 32-bit processor'
    grep -q "^target triple = \"${target%%-*}-" "$3" || fail "the module is not for ${target%%-*}"
    ! grep -E 'x86|"probe-stack"|"stack-probe-size"|"target-cpu"' "$3" >&2 || fail 'the module still speaks of x86-64'
    ! cmp -s "$3.plain" "$3" || fail 'the module has no attributes #0 of nounwind functions'
    groups=$(sed -n "s/^attributes \\(#[0-9]*\\) = { $ours\$/\\1/p" "$3" | paste -sd '|' -)
    ! grep '^define ' "$3" | grep -Ev " ($groups) \\{\$" >&2 || fail 'a function of the module has attributes of its own'
}

# Small before fast: flash is what a small part lacks first.
code='-Os -ffunction-sections -fdata-sections -fstack-usage'

# compile_module ARCH TEXT OBJECT: also writes OBJECT's frame sizes, as .su beside it.
compile_module() {
    # shellcheck disable=SC2046,SC2086
    "$clang" $(part "$1") $code -Werror -c -x ir "$2" -o "$3"
}

# compile_c ARCH OUTPUT FILE OPTION...
compile_c() {
    arch=$1 output=$2
    shift 2
    # shellcheck disable=SC2046,SC2086
    "$clang" $(part "$arch") -std=c11 $code -ffreestanding -Wall -Wextra -Werror -isystem "$headers" -Iinclude \
        -c "$@" -o "$output"
}

# link_image BOARD IMAGE INPUT...: for a board of hosts/mcu/qemu.
link_image() {
    board=$1 image=$2
    shift 2
    "$tools/bin/ld.lld" -L hosts/mcu -T "hosts/mcu/qemu/$board.ld" --gc-sections --fatal-warnings "$@" -o "$image"
}

# link_plain IMAGE INPUT...: for no board, at the linker's own places.
link_plain() {
    image=$1
    shift
    "$tools/bin/ld.lld" --gc-sections --fatal-warnings "$@" -o "$image"
}

# deepest_stack IMAGE ENTRY SU...: the bytes, then the calls that lead there.
deepest_stack() {
    image=$1 entry=$2
    shift 2
    llvm-objdump -d --no-show-raw-insn "$image" | awk -v entry="$entry" -f hosts/mcu/stack.awk "$@" -
}

# sizes IMAGE: bytes of code, constants, initialised and cleared data.
sizes() {
    llvm-size -A "$1" | awk '
        { n[$1] = $2 }
        END {
            if (!n[".text"])
                exit 1
            printf "text %5d  rodata %4d  data %4d  bss %5d\n", n[".text"], n[".rodata"], n[".data"], n[".bss"]
        }'
}
