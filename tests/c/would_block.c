/* would_block N COMMAND..: runs a command whose descriptor N fails where it would block, and soon, if it is a pipe. */
#define _GNU_SOURCE
#include <fcntl.h>
#include <stdio.h>
#include <stdlib.h>
#include <unistd.h>

int main(int count, char **words) {
    if (count < 3) return 2;
    int descriptor = atoi(words[1]);
    int flags = fcntl(descriptor, F_GETFL);
    if (flags < 0 || fcntl(descriptor, F_SETFL, flags | O_NONBLOCK) < 0) {
        perror("would_block");
        return 2;
    }
    fcntl(descriptor, F_SETPIPE_SZ, 4096); /* a page at the least; no pipe has no such size */
    execvp(words[2], words + 2);
    perror(words[2]);
    return 2;
}
