#!/usr/bin/env bash
# Refuses each allocation of the program in turn: of `plain` on a script of five requests and on one whose table has entries, and of `sim`
# on one put in a cluster of one replica, without and with a view change. It has to end with status 10 and nothing written, or with the right
# report. Outside the gate: it needs a C compiler, for the allocator that refuses.
set -u
top=$(cd "$(dirname "${BASH_SOURCE[0]}")/.." && pwd)
work=$(mktemp -d)
trap 'rm -rf "$work"' EXIT

# An allocator in front of the C library's, whose call number REFUSE fails, counted from 1. It tells the number of calls at the end.
cat >"$work/refuse.c" <<'C'
#define _GNU_SOURCE
#include <dlfcn.h>
#include <errno.h>
#include <stdio.h>
#include <stdlib.h>

static long calls, refuse;

__attribute__((constructor)) static void start(void) {
  const char *n = getenv("REFUSE");
  refuse = n ? atol(n) : 0;
  calls = 0;
}

__attribute__((destructor)) static void stop(void) {
  const char *path = getenv("CALLS");
  FILE *file = path ? fopen(path, "w") : NULL;
  if (file) {
    fprintf(file, "%ld\n", calls);
    fclose(file);
  }
}

static int refused(void) { return ++calls == refuse; }

void *malloc(size_t size) {
  static void *(*next)(size_t);
  if (!next) next = dlsym(RTLD_NEXT, "malloc");
  if (refused()) return errno = ENOMEM, NULL;
  return next(size);
}

void *realloc(void *old, size_t size) {
  static void *(*next)(void *, size_t);
  if (!next) next = dlsym(RTLD_NEXT, "realloc");
  if (refused()) return errno = ENOMEM, NULL;
  return next(old, size);
}

int posix_memalign(void **to, size_t align, size_t size) {
  static int (*next)(void **, size_t, size_t);
  if (!next) next = dlsym(RTLD_NEXT, "posix_memalign");
  if (refused()) return ENOMEM;
  return next(to, align, size);
}

void *aligned_alloc(size_t align, size_t size) {
  static void *(*next)(size_t, size_t);
  if (!next) next = dlsym(RTLD_NEXT, "aligned_alloc");
  if (refused()) return errno = ENOMEM, NULL;
  return next(align, size);
}
C
cc -O1 -shared -fPIC -o "$work/refuse.so" "$work/refuse.c" -ldl || exit 1

passed=0
failed=0
for backend in llvm rattle; do
  program=$("$top/tests/program.sh" "$backend") || exit 1
  for name in first_steps settlement_day one_put timeout_alone; do
    script=$top/examples/$name.script
    word=$(cat "$top/examples/$name.words")
    rm -f "$work/calls"
    CALLS=$work/calls LD_PRELOAD=$work/refuse.so "$program" "$word" <"$script" >/dev/null
    calls=$(cat "$work/calls" 2>/dev/null || echo 0)
    refusals=0
    for ((n = 1; n <= calls + 1; n++)); do
      REFUSE=$n LD_PRELOAD=$work/refuse.so "$program" "$word" <"$script" >"$work/report" 2>"$work/error"
      status=$?
      if [ "$status" = 10 ] && [ ! -s "$work/report" ] && [ "$(cat "$work/error")" = "no memory" ]; then
        passed=$((passed + 1))
        refusals=$((refusals + 1))
      elif [ "$status" = 0 ] && cmp -s "$work/report" "$top/examples/$name.report"; then
        passed=$((passed + 1))
      else
        failed=$((failed + 1))
        echo "failed: allocation $n of $word on $name refused, by $backend: status $status"
      fi
    done
    echo "$word on $name by $backend: $calls allocations, $refusals ended without memory"
    if [ "$refusals" = 0 ]; then
      failed=$((failed + 1))
      echo "failed: nothing was refused of $word on $name by $backend"
    fi
  done
done
echo "$passed passed, $failed failed"
[ "$failed" = 0 ]
