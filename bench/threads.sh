#!/usr/bin/env bash
# Scripts with workers where threads can't be started: the n-th thread is refused, alone or with all later ones.
#
# A library is loaded before the C library whose pthread_create refuses the n-th call (REFUSE=n), or it and all later
# ones (STAY=1 beside it), and writes how many were made to a file. For n = 1, 2, .. the script runs until a run makes
# fewer than n calls, and so meets no refusal. Each run that meets one must end by itself within LIMIT seconds, with
# the message `magicd: memory`, the status 1 and no reply; the last one with the replies of a run without the library.
# The script has four sessions, with an area to check in each.
set -eu
. "$(dirname "${BASH_SOURCE[0]}")/head.sh"
limit=${LIMIT:-20}
folder=$(mktemp -d)
trap 'rm -rf "$folder"' EXIT

cat >"$folder/refuse.c" <<'C'
#define _GNU_SOURCE
#include <dlfcn.h>
#include <errno.h>
#include <pthread.h>
#include <stdatomic.h>
#include <stdio.h>
#include <stdlib.h>

static atomic_int calls;

int pthread_create(pthread_t *thread, const pthread_attr_t *attr, void *(*start)(void *), void *arg)
{
    int (*create)(pthread_t *, const pthread_attr_t *, void *(*)(void *), void *) = dlsym(RTLD_NEXT, "pthread_create");
    int call = atomic_fetch_add(&calls, 1) + 1;
    const char *count = getenv("COUNT"), *refuse = getenv("REFUSE");
    if (count) {
        FILE *file = fopen(count, "w");
        if (file) {
            fprintf(file, "%d\n", call);
            fclose(file);
        }
    }
    if (refuse && (call == atoi(refuse) || (getenv("STAY") && call > atoi(refuse))))
        return EAGAIN;
    return create(thread, attr, start, arg);
}
C
cc -shared -fPIC -o "$folder/refuse.so" "$folder/refuse.c" -ldl

for name in a b c d; do
    printf '%%open %s\n%s box 0 0 1 10\n%s paint poly\n%s drc catchup\n%s drc count\n%%audit %s\n' \
        "$name" "$name" "$name" "$name" "$name" "$name"
done >"$folder/script"

failures=0
fail() {
    echo "failed: $1"
    failures=$((failures + 1))
}

# run_refused WORKERS N STAY: one run, whose status, seconds and number of calls are left in variables
run_refused() {
    echo 0 >"$folder/count"
    local begin
    begin=$(date +%s.%N)
    status=0
    timeout -s KILL "$limit" \
        env LD_PRELOAD="$folder/refuse.so" COUNT="$folder/count" REFUSE="$2" ${3:+STAY=1} \
        "$program" --workers "$1" <"$folder/script" >"$folder/out" 2>"$folder/messages" || status=$?
    seconds=$(awk -v a="$begin" -v b="$(date +%s.%N)" 'BEGIN { printf "%.2f", b - a }')
    calls=$(cat "$folder/count")
}

printf '%-8s %-22s %6s %6s %8s  %s\n' workers refused calls status seconds message
for workers in 1 2 4; do
    "$program" --workers "$workers" <"$folder/script" >"$folder/wanted"
    for stay in '' 1; do
        n=1
        while :; do
            run_refused "$workers" "$n" "$stay"
            message=$(cat "$folder/messages")
            what="thread $n${stay:+ and all later}"
            printf '%-8s %-22s %6s %6s %8s  %s\n' "$workers" "$what" "$calls" "$status" "$seconds" "${message:--}"
            if [ "$calls" -lt "$n" ]; then
                [ "$status" = 0 ] && cmp -s "$folder/out" "$folder/wanted" || fail "$workers workers, nothing refused"
                break
            fi
            [ "$status" = 1 ] && [ "$message" = 'magicd: memory' ] && [ ! -s "$folder/out" ] ||
                fail "$workers workers, $what"
            n=$((n + 1))
            [ "$n" -le 100 ] || { fail "$workers workers: no run without a refusal"; break; }
        done
    done
done
[ "$failures" = 0 ] || exit 1
echo 'all runs ended as they must'
