/* Runs a command whose standard input is a pipe that never ends, holds the text that is named first and does not block. */
#include <fcntl.h>
#include <stdio.h>
#include <string.h>
#include <unistd.h>

int main(int count, char **words) {
  int ends[2];
  if (count < 3 || pipe(ends) || write(ends[1], words[1], strlen(words[1])) < 0 || fcntl(ends[0], F_SETFL, O_NONBLOCK) ||
      dup2(ends[0], 0)) {
    perror("nonblocking");
    return 125;
  }
  /* The command keeps the end for writing, so the input has no end. */
  execv(words[2], words + 2);
  perror(words[2]);
  return 125;
}
