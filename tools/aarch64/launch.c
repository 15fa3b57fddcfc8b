/* Runs a program for aarch64 under emulation. QEMU, C_LIBRARY and PROGRAM are paths. This launcher
 * is linked statically, so an LD_PRELOAD that a test sets for the program reaches only the program's
 * own loader. */
#include <stdio.h>
#include <stdlib.h>
#include <unistd.h>

int main(int count, char **words) {
  char **all = calloc((size_t)count + 4, sizeof *all);
  if (all == NULL)
    return 127;
  all[0] = QEMU;
  all[1] = "-L";
  all[2] = C_LIBRARY;
  all[3] = PROGRAM;
  for (int at = 1; at < count; at++)
    all[at + 3] = words[at];
  execv(QEMU, all);
  perror(QEMU);
  return 127;
}
