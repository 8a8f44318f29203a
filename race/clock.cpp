// clock INPUT OUTPUT PROGRAM [WORD...] runs a program on a file and prints the microseconds of processor time that it took,
// its own and the system's for it; time spent waiting for others on a busy machine is not in it.
#include <fcntl.h>
#include <sys/resource.h>
#include <sys/wait.h>
#include <unistd.h>

#include <cstdio>

namespace {

long long microseconds(const timeval &time) { return time.tv_sec * 1000000LL + time.tv_usec; }

int become(char **words) {
  int in = open(words[1], O_RDONLY), out = open(words[2], O_WRONLY | O_CREAT | O_TRUNC, 0666);
  if (in >= 0 && out >= 0 && dup2(in, 0) == 0 && dup2(out, 1) == 1) execvp(words[3], words + 3);
  std::perror(words[3]);
  return 127;
}

}  // namespace

int main(int count, char **words) {
  if (count < 4) return 2;
  pid_t child = fork();
  if (child == 0) _exit(become(words));
  int status;
  rusage used;
  if (child < 0 || wait4(child, &status, 0, &used) != child) return 2;
  if (!WIFEXITED(status) || WEXITSTATUS(status) != 0) return 1;
  std::printf("%lld\n", microseconds(used.ru_utime) + microseconds(used.ru_stime));
}
