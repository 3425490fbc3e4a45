// Runs a program without its output, and says the greatest resident memory that it had, in KB:
// `peak PROGRAM WORD..`. The system also counts what the process had before it became that program.
// So this one is small, and no script in Python.
#include <fcntl.h>
#include <stdio.h>
#include <sys/resource.h>
#include <sys/wait.h>
#include <unistd.h>

int main(int count, char **words) {
  if (count < 2) return 2;
  pid_t child = fork();
  if (child == 0) {
    dup2(open("/dev/null", O_WRONLY), 1);
    execv(words[1], words + 1);
    _exit(127);
  }
  int status;
  struct rusage used;
  if (wait4(child, &status, 0, &used) != child || status != 0) return 1;
  printf("%ld\n", used.ru_maxrss);
  return 0;
}
