#!/bin/sh
# install.sh TOP OUT LIB: installs the library into a clean prefix, and builds and runs a program over it by pkg-config, by CMake, with a heap of its own, and
# over an archive without a heap.
set -eu
top=$(cd "$1" && pwd) out=$2 lib=$(cd "$(dirname "$3")" && pwd)/$(basename "$3")
mkdir -p "$out"
at=$(cd "$out" && pwd)/installed
rm -rf "$at"
mkdir -p "$at/bare" "$at/program"
make -s -C "$top/include" install PREFIX="$at/usr" LIB="$lib"
make -s -C "$top/include" install PREFIX="$at/bare" LIB="$lib" BAC_HEAP=none

cat > "$at/program/program.c" <<'END'
#include <bac.h>
#include <stdio.h>
int main(void)
{
    bac_node node = BAC_NODE_EMPTY;
    bac_settings settings = BAC_SETTINGS(127, 0, 0, 1, 0xBA, 0xC0);
    bac_status status = bac_open(&node);
    if (status == BAC_OK) { status = bac_start_house(&node, &settings); }
    bac_close(&node);
    printf("%s, version %d\n", bac_text(status), bac_version() == BAC_VERSION);
    return status != BAC_OK;
}
END
cat > "$at/program/heap.c" <<'END'
#include <stdbool.h>
#include <stdlib.h>
#include <string.h>
typedef struct { bool ok; void *at; } heap_block;
static _Alignas(16) unsigned char pool[1 << 20]; /* nothing is freed: enough for one start */
static size_t used;
heap_block rattle_alloc(size_t size, size_t align)
{
    size_t at = (used + align - 1) / align * align;
    heap_block answer = { size <= sizeof pool && at <= sizeof pool - size, pool };
    if (answer.ok) {
        answer.at = pool + at;
        used = at + (size != 0 ? size : 1);
    }
    return answer;
}
heap_block rattle_realloc(void *old, size_t kept, size_t size, size_t align)
{
    heap_block answer = rattle_alloc(size, align);
    if (answer.ok) { memcpy(answer.at, old, kept < size ? kept : size); }
    return answer;
}
void rattle_dealloc(void *at) { (void)at; }
END
cat > "$at/program/CMakeLists.txt" <<'END'
cmake_minimum_required(VERSION 3.10)
project(program C)
find_package(bac 1.3 REQUIRED)
add_executable(by_cmake program.c)
target_link_libraries(by_cmake PRIVATE bac::bac)
END
want="ok, version 1"
run() { # run NAME PROGRAM
    got=$("$2")
    [ "$got" = "$want" ] || { echo "installed, $1: '$got', not '$want'"; exit 1; }
}

PKG_CONFIG_PATH="$at/usr/lib/pkgconfig"
export PKG_CONFIG_PATH
if command -v pkg-config > /dev/null; then
    # shellcheck disable=SC2046
    cc -o "$at/program/by_pkg_config" "$at/program/program.c" $(pkg-config --cflags --libs bac)
    run pkg-config "$at/program/by_pkg_config"
else
    echo "install: pkg-config is skipped, it is not here"
fi
if command -v cmake > /dev/null; then
    cmake -S "$at/program" -B "$at/program/build" -DCMAKE_PREFIX_PATH="$at/usr" > "$at/program/cmake.log"
    cmake --build "$at/program/build" >> "$at/program/cmake.log"
    run CMake "$at/program/build/by_cmake"
else
    echo "install: CMake is skipped, it is not here"
fi
cc -I"$at/usr/include" -o "$at/program/own_heap" "$at/program/program.c" "$at/program/heap.c" -L"$at/usr/lib" -lbac_c
run "a heap of its own" "$at/program/own_heap"
if cc -I"$at/bare/include" -o "$at/program/no_heap" "$at/program/program.c" -L"$at/bare/lib" -lbac_c 2> /dev/null; then
    echo "installed: an archive without a heap has one"
    exit 1
fi
cc -I"$at/bare/include" -o "$at/program/bare" "$at/program/program.c" "$at/program/heap.c" -L"$at/bare/lib" -lbac_c
run "BAC_HEAP=none" "$at/program/bare"
echo "installed into a clean prefix: pkg-config, CMake, a heap of its own and none are as wanted"
