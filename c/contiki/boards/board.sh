# shellcheck shell=bash disable=SC2154  # contiki, which reads this file for --board, has these variables
# Builds an image of a program for a board, and runs it in the emulator. docs/firmware.md explains it.

# Reads the first line of the board's linker script: the core, and the emulator's machine and speed.
read_board() {
    local words
    case $board in
    *.c) [[ -f $board ]] || give_up "$board: no such file" 64 ;;
    *)
        [[ -f $driver/boards/$board.c ]] || give_up "there is no board $board: $(
            cd "$driver/boards" && printf '%s ' [!t]*.ld | sed 's/\.ld / /g')or a file of your own (docs/firmware.md)" 64
        board=$driver/boards/$board.c
        ;;
    esac
    memory=${board%.c}.ld
    [[ -f $memory ]] || give_up "$memory, the board's linker script, is missing" 64
    read -r -a words <"$memory"
    [[ ${words[1]:-} == core && ${words[3]:-} == machine && ${words[5]:-} == shift ]] ||
        give_up "the first line of $memory isn't '/* core CORE machine MACHINE shift N */'" 64
    core=${words[2]} machine=${words[4]} shift=${words[6]}
    case $core in
    cortex-m3 | cortex-m4) processor=("-mcpu=$core" -mthumb) ;;
    *) give_up "$core: the cores are cortex-m3 and cortex-m4" 64 ;;
    esac
}

check_board() {
    [[ -z $network$sanitize$replay$tests && -z $compiler && $kind == transcript ]] ||
        give_up "--board builds an image: leave out --network, --sanitize, --replay, --test, --picture, --gdb, --build and --cc" 64
    [[ " ${words[*]} " != *' --quiet '* ]] || give_up "a board writes its whole transcript: leave out --quiet" 64
    [[ -n $out || -n $run ]] || give_up "--board needs -o IMAGE, or --run" 64
    [[ -n $run || -z $record$radio ]] || give_up "--record FILE and --radio are for --run: the image writes its record to the third port" 64
    [[ -z $record || -z $unrecorded ]] || give_up "--record FILE is the image's record: leave out --no-record" 64
    [[ -z $script || -f $script ]] || give_up "$script: no such file" 64
}

# The kernel for this core, which is rewritten from the proved build.
choose_board_library() {
    include=$root/crates/toarmuts/include
    if [[ -n $library ]]; then
        include=$library archive=$library/$core/libtoarmuts.a
        [[ -f $archive ]] || give_up "$archive is missing" 69
        return
    fi
    [[ ! -d $root/library ]] || give_up "a release has no kernel for boards: use the repository" 69
    archive=$root/crates/toarmuts/out/$core/libtoarmuts.a
    if ! run_script "$root/prove" --is-current toarmuts >/dev/null 2>&1 ||
        ! run_script "$root/scripts/for-cortex-m" toarmuts "$core" >/dev/null; then
        give_up "the kernel for $core is missing or older than its sources. Build it:
    ./prove toarmuts && scripts/for-cortex-m toarmuts $core" 69
    fi
}

need_tool() {
    command -v "$1" >/dev/null || give_up "$1 is missing: apt-get install $2" 69
}

choose_board_flags() {
    compiler=arm-none-eabi-gcc
    # As on x86-64, char is signed, and an enum has 4 bytes. Here long, size_t and pointers have 4 bytes.
    common=("${processor[@]}" --specs=nano.specs -Os -ffunction-sections -fdata-sections -fsigned-char -fno-short-enums)
    driver_flags=(-std=gnu11 -g1 -Wall -Wextra -DCONTIKI_MODULE -fno-builtin-malloc "${common[@]}")
    includes=("-I$driver/include" "-I$include")
}

# Compiles what all boards share, once for the same sources and flags.
build_board_driver() {
    local module modules=() made=$room/driver
    objects=$driver/out/$(sum_driver)
    touch -c "$objects" 2>/dev/null
    [[ ! -f $objects/modules.a ]] || return 0
    for module in "$driver"/src/modules/*.c; do
        [[ " mt ${crypto_modules[*]} " == *" $(basename "$module" .c) "* ]] || modules+=("$module")
    done
    for module in "${plain_modules[@]}"; do
        modules+=("$root/c/modules/src/$module.c")
    done
    compile_into "$made" "$driver"/src/{,board/}*.c "$include/toarmuts_memory.c"
    compile_into "$made/modules" "${modules[@]}"
    if ! arm-none-eabi-ar rc "$made/modules.a" "$made"/modules/*.o || ! arm-none-eabi-ld -r "$made"/*.o -o "$made/driver"; then
        give_up "the driver can't be linked" 65
    fi
    rm -r "$made/modules" "$made"/*.o
    mv "$made/driver" "$made/driver.o"
    copy=$objects.$$
    { mkdir -p "$driver/out" && cp -rT "$made" "$copy" && mv -T "$copy" "$objects"; } 2>/dev/null || objects=$made
}

# Refuses sizes that the mote refuses where it is opened: the board would begin anew without end.
check_sizes() {
    local name least=4
    for name in mmem heap ${quota:+quota}; do
        [[ $name != heap ]] || least=20
        ((${!name} >= least && ${!name} <= 65536 && ${!name} % 4 == 0)) ||
            give_up "--$name needs a multiple of 4 from $least to 65536" 64
        least=4
    done
    ((header == 16 || header == 8)) || give_up "--header needs 16 or 8" 64
}

# Refuses a number that no mote has.
check_node() {
    [[ $node =~ ^0*([0-9]+)$ ]] || give_up "--node needs a number" 64
    node=${BASH_REMATCH[1]}
    [[ $node != 0 ]] || give_up "a mote's number is at least 1" 64
    ((${#node} <= 5 && node <= 65535)) || give_up "a mote's number is at most 65535" 64
}

# Writes the program's settings, in C.
write_settings() {
    local heap=4096 mmem=4096 header=16 quota='' has_quota=0 quiet=1 has_record=true runs=NULL shows=NULL i name value
    [[ -z $unrecorded ]] || has_record=false
    # Only a script's transcript needs the kernel's memory for a line.
    [[ -z $script ]] || quiet=0 has_record=false runs=run_board_script shows=show_board_line
    for ((i = 0; i < ${#sizes[@]}; i++)); do
        name=${sizes[i]%%=*}
        if [[ ${sizes[i]} == *=* ]]; then value=${sizes[i]#*=}; else i=$((i + 1)) value=${sizes[i]}; fi
        [[ $value =~ ^[0-9]{1,9}$ ]] || give_up "$name needs a number" 64
        printf -v "${name#--}" %s "$((10#$value))"
    done
    check_sizes
    [[ -z $quota ]] || has_quota=1
    [[ -z $node ]] || check_node
    {
        echo '#include "firmware.h"'
        echo "const struct board_settings board_settings = {"
        echo "  .sizes = {.mmem = $mmem, .heap = $heap, .header = $header, .has_quota = $has_quota, .quota = ${quota:-0}, .quiet = $quiet},"
        echo "  .node = ${node:-0}, .has_record = $has_record, .stops_at_fault = ${stops:-false},"
        echo "  .run_script = $runs, .show_script_line = $shows};"
    } >"$room/settings.c"
    [[ -n $script ]] || return 0
    cp -- "$script" "$room/script"
    cat >>"$room/settings.c" <<END
__asm__(".section .rodata.script\n.global board_script, board_script_end\n"
        "board_script:\n.incbin \"$room/script\"\nboard_script_end:\n.byte 0\n.text\n");
END
}

build_image() {
    local part parts=()
    build_board_driver
    write_settings
    for part in "$board" "$room/settings.c"; do
        parts+=("$room/part-${#parts[@]}.o")
        "$compiler" "${driver_flags[@]}" "${includes[@]}" "-I$driver/src/board" -c "$part" -o "${parts[-1]}" ||
            give_up "$part doesn't compile" 65
    done
    # The names of driver and board are local: a program may have the same ones.
    if ! arm-none-eabi-ld -r "${parts[@]}" "$objects/driver.o" -o "$room/driver.o" ||
        ! arm-none-eabi-objcopy --localize-hidden "$room/driver.o"; then
        give_up "the driver can't be linked" 65
    fi
    choose_source_flags
    record=yes choose_facts
    make_program "$1" "${source_flags[@]}" "${files[@]}" "${facts[@]}" "$room/driver.o" "$objects/modules.a" "$archive" \
        -nostartfiles -T "$memory" "-L$driver/src/board" "${libraries[@]}" \
        -Wl,--gc-sections,--no-warn-rwx-segments,--no-warn-execstack,--no-enum-size-warning
}

# Runs an image. With a script the transcript is written, or with --text what is printed; otherwise the first port is the terminal.
run_image() {
    local image=$1 ports=(-serial stdio -serial "${radio:-null}" -serial "${record:+file:$record}")
    [[ -n $record ]] || ports[5]=null
    local emulator=(qemu-system-arm -M "$machine" -display none -monitor none -no-reboot -kernel "$image")
    if [[ -z $script ]]; then
        if [[ -t 0 ]]; then
            # The emulator would set the terminal to send each key, unseen, and byte 13 for a line end; so it has whole lines. cat opens
            # the terminal anew, since the emulator reads without waiting.
            exec < <(exec cat /dev/stdin)
            jobs+=("$!")
        fi
        "${bound[@]}" "${emulator[@]}" -icount "shift=$shift" "${ports[@]}"
        return
    fi
    ports=(-serial null -serial null -serial stdio)
    [[ " ${words[*]} " != *' --text '* ]] || ports=(-serial stdio -serial null -serial null)
    "${bound[@]}" "${emulator[@]}" -icount "shift=$shift,sleep=off" "${ports[@]}" -semihosting-config enable=on,target=native </dev/null
}

use_board() {
    local recorded=$record
    read_board
    check_board
    need_tool arm-none-eabi-gcc "gcc-arm-none-eabi libnewlib-arm-none-eabi"
    [[ -z $run ]] || need_tool qemu-system-arm qemu-system-arm
    choose_board_library
    choose_board_flags
    build_image "${out:-$room/image}"
    record=$recorded
    [[ -z $run ]] || run_image "${out:-$room/image}"
}
