/* Runs a command, and writes the processor seconds and the peak resident bytes that it took: measured FILE COMMAND..
   It is small, so that what it measures is the command's: a child has its parent's peak until it runs the command. */
#include <stdio.h>
#include <sys/resource.h>
#include <sys/wait.h>
#include <unistd.h>

int main(int argc, char **argv) {
  if (argc < 3) return 2;
  pid_t child = fork();
  if (child < 0) return 7;
  if (!child) {
    execvp(argv[2], argv + 2);
    _exit(127);
  }
  int status;
  struct rusage used;
  if (wait4(child, &status, 0, &used) < 0) return 7;
  FILE *file = fopen(argv[1], "w");
  if (!file) return 5;
  double seconds = used.ru_utime.tv_sec + used.ru_stime.tv_sec + 1e-6 * (used.ru_utime.tv_usec + used.ru_stime.tv_usec);
  fprintf(file, "%f %ld\n", seconds, 1024 * used.ru_maxrss);
  fclose(file);
  return WIFEXITED(status) ? WEXITSTATUS(status) : 1;
}
