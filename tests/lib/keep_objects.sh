#!/bin/sh
# Verilator's makefiles call this in front of the compiler, by the variable OBJCACHE. It compiles each file of Verilator's
# own library once in a run of the tests, for the same options. TLBRIDGE_TEST_OBJECTS is the folder with the results.
for last; do :; done
case $last in
*/include/verilated*.cpp) ;;
*) exec "$@" ;;
esac
object=
previous=
for word; do
    [ "$previous" = -o ] && object=$word
    previous=$word
done
if [ -z "$object" ] || [ -z "${TLBRIDGE_TEST_OBJECTS-}" ]; then exec "$@"; fi
kept=$TLBRIDGE_TEST_OBJECTS/$(printf '%s\n' "$@" | cksum | tr ' ' -).o
exec 9> "$kept.lock"
command -v flock > /dev/null && flock 9
if [ ! -f "$kept" ]; then
    "$@" || exit
    cp "$object" "$kept.new" && mv "$kept.new" "$kept"
    exit
fi
cp "$kept" "$object"
