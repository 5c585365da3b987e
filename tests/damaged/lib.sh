# shellcheck shell=bash disable=SC2034,SC2154
# For the files `make` of the damaged images; for bash. They run in a folder of their own and leave the file `image` there.
# `drive` makes and changes images with right checksums; `drive` alone prints its words.

drive() { command "$drive" "$@"; }

# The sectors of the smallest device, and where its copies lie.
sectors=2097152
front_block=1 front_a=8 front_b=1028
back_block=2097145 back_a=2095104 back_b=2096124

# Records: one segment (28 bytes), two segments (48 bytes), thirty (608 bytes, two sectors).
records() {
    local many=() i
    drive segments one 128 2:2048:100
    drive segments two 128 2:2048:100 1:3000:50
    for i in $(seq 0 29); do many+=("2:$((2048 + 5 * i)):4"); done
    drive segments thirty 128 "${many[@]}"
}

# An image with one record, of 10 s and 5 ns, in area a of both copies.
fresh() {
    records
    drive new image 10.5 one "$@"
}

# The same after an update: the record of 20 s is in area b of both copies.
good() {
    fresh "$@"
    drive update image 20.0 two
}

# Changes one byte: flip SECTOR BYTE.
flip() {
    local at=$(($1 * 512 + $2)) old
    old=$(od -An -tu1 -j $at -N 1 image)
    # shellcheck disable=SC2059
    printf "\\x$(printf %02x $((old ^ 165)))" | dd of=image bs=1 seek=$at conv=notrunc status=none
}
