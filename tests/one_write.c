/* one_write PROGRAM ..: runs a program and fails, with status 1, unless each line of its standard output comes in one write. For the program that is a
 * socket on which each write is a packet. Status 2: it could not be tried. */
#include <stdio.h>
#include <string.h>
#include <sys/socket.h>
#include <sys/wait.h>
#include <unistd.h>

int main(int argc, char **argv)
{
    int ends[2];
    if (argc < 2 || socketpair(AF_UNIX, SOCK_SEQPACKET, 0, ends) != 0) {
        puts("one_write: no program, or no such socket");
        return 2;
    }
    pid_t child = fork();
    if (child == 0) {
        dup2(ends[1], STDOUT_FILENO);
        close(ends[0]);
        close(ends[1]);
        execvp(argv[1], argv + 1);
        _exit(127);
    }
    close(ends[1]);
    char packet[4096];
    unsigned long lines = 0;
    for (ssize_t got; (got = recv(ends[0], packet, sizeof packet, 0)) > 0; lines++)
        if (memchr(packet, '\n', (size_t)got) != packet + got - 1) {
            printf("one_write: after %lu lines a write of no line: %.*s\n", lines, (int)got, packet);
            return 1;
        }
    int status = 0;
    if (child < 0 || waitpid(child, &status, 0) < 0 || status != 0 || lines == 0) {
        printf("one_write: %s failed or printed nothing\n", argv[1]);
        return 2;
    }
    printf("%lu lines, each in one write\n", lines);
    return 0;
}
