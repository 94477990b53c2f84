// Runs a program on a pipe that does not block: slow TEXT PROGRAM. Half of the text is in the pipe when the program starts, and the
// rest never comes while it runs, so that a read finds nothing although the text has not ended.
#define _POSIX_C_SOURCE 200809L
#include <fcntl.h>
#include <stdio.h>
#include <sys/wait.h>
#include <unistd.h>

int main(int argc, char **argv) {
    char text[4096];
    int ends[2];
    if (argc != 3 || pipe(ends) != 0) {
        return 2;
    }
    FILE *file = fopen(argv[1], "rb");
    if (file == NULL) {
        return 2;
    }
    size_t half = fread(text, 1, sizeof text, file) / 2;
    fclose(file);
    if (write(ends[1], text, half) != (ssize_t)half || fcntl(ends[0], F_SETFL, O_NONBLOCK) != 0) {
        return 2;
    }
    pid_t child = fork();
    if (child == 0) {
        close(ends[1]);
        dup2(ends[0], 0);
        close(ends[0]);
        execl(argv[2], argv[2], (char *)NULL);
        _exit(2);
    }
    int status = 0;
    waitpid(child, &status, 0);
    return 0;
}
