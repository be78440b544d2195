#include "runs/spawn.h"

#include <errno.h>
#include <fcntl.h>
#include <spawn.h>
#include <stdio.h>
#include <stdlib.h>
#include <sys/wait.h>
#include <unistd.h>

extern char **environ;

static char folder[] = "/tmp/run-XXXXXX";

int runs_open(struct run *runs, int count)
{
    if (mkdtemp(folder) == NULL)
        return 0;
    for (int i = 0; i < count; i++) {
        snprintf(runs[i].in, sizeof runs[i].in, "%s/in-%d", folder, i);
        snprintf(runs[i].out, sizeof runs[i].out, "%s/out-%d", folder, i);
    }
    return 1;
}

/* A file made anew is quicker than one cut to nothing and written again. */
static void drop_files(struct run *run)
{
    unlink(run->in);
    unlink(run->out);
}

void runs_close(struct run *runs, int count)
{
    int kept = errno; /* the caller tells it */

    for (int i = 0; i < count; i++)
        drop_files(&runs[i]);
    rmdir(folder);
    errno = kept;
}

static int write_input(const char *path, const struct piece *input)
{
    FILE *out = fopen(path, "wb");

    if (out == NULL)
        return 0;
    size_t written = fwrite(input->bytes, 1, input->length, out);
    return fclose(out) == 0 && written == input->length;
}

int run_start(struct run *run, const struct piece *input, char **command)
{
    posix_spawn_file_actions_t files;

    if (!write_input(run->in, input))
        return 0;
    posix_spawn_file_actions_init(&files);
    posix_spawn_file_actions_addopen(&files, 0, run->in, O_RDONLY, 0);
    posix_spawn_file_actions_addopen(&files, 1, run->out,
                                     O_WRONLY | O_CREAT | O_TRUNC, 0600);
    int error = posix_spawnp(&run->pid, command[0], &files, NULL, command,
                             environ);
    posix_spawn_file_actions_destroy(&files);
    errno = error;
    return error == 0;
}

/* An output that cannot be read is an empty one: a difference. */
static struct text read_output(const char *path)
{
    struct text text = { NULL, 0, 1 };
    FILE *in = fopen(path, "rb");
    FILE *out = open_memstream(&text.bytes, &text.length);
    char some[4096];
    size_t got;

    if (out == NULL) {
        fprintf(stderr, "run: no memory for an output\n");
        exit(2);
    }
    while (in != NULL && (got = fread(some, 1, sizeof some, in)) > 0)
        fwrite(some, 1, got, out);
    if (in != NULL)
        fclose(in);
    fclose(out);
    return text;
}

struct text run_end(struct run *run)
{
    int status = 0;

    while (waitpid(run->pid, &status, 0) < 0 && errno == EINTR)
        continue;
    struct text text = read_output(run->out);
    text.ended = WIFEXITED(status);
    drop_files(run);
    return text;
}
