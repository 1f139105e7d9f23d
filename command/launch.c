/* Starts the command `blink`, a proved program, with the signal of a file size limit ignored, so that such a limit is an answer of write and not
 * the end of the command. The language has no word for signals, so these lines are not proved. */
#include <errno.h>
#include <signal.h>
#include <stdio.h>
#include <string.h>
#include <unistd.h>

int main(int argc, char **argv) {
    (void)argc;
    signal(SIGXFSZ, SIG_IGN);
    execv(PROGRAM, argv);
    fprintf(stderr, "blink: %s: %s\n", PROGRAM, strerror(errno));
    return 2;
}
