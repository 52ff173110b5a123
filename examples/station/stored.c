#define _GNU_SOURCE /* for renameat2 */

#include "stored.h"

#include <errno.h>
#include <fcntl.h>
#include <stdio.h>
#include <stdlib.h>
#include <string.h>
#include <unistd.h>

#include "opened.h"
#include "plain.h"

static void say_not_saved(const char *path, int error)
{
    if (error == EEXIST)
        say_of(stdout, "Not saved: ", path, " is there already. Choose another name.\n");
    else
        say_why(stdout, "Not saved: cannot write ", path, strerror(error));
}

/* Writes all down to the disk and closes the file; gives 0 or the number of the error. */
static int write_whole(FILE *file, const uint8_t *record, size_t length)
{
    int error = 0;
    if (fwrite(record, 1, length, file) != length || fflush(file) != 0 || fsync(fileno(file)) != 0)
        error = errno;
    if (fclose(file) != 0 && error == 0)
        error = errno;
    return error;
}

static void remove_part(const char *part)
{
    if (unlink(part) != 0)
        say_why(stdout, "Cannot remove ", part, strerror(errno));
}

/*
 * Gives the part its name, unless anything has that name: a file, a folder or a link, wherever it leads. Some file
 * systems have no such renaming, and these have a second name for a file, which is not given either if it is taken.
 * Gives 0 and leaves no part, or the number of the error.
 */
static int put_in_place(const char *part, const char *path)
{
    if (renameat2(AT_FDCWD, part, AT_FDCWD, path, RENAME_NOREPLACE) == 0)
        return 0;
    if (errno != EINVAL && errno != ENOSYS)
        return errno;
    if (link(part, path) != 0)
        return errno;
    remove_part(part);
    return 0;
}

/* The part is ours from its opening on: what is there already is not touched. */
static int store_by_way_of(const char *part, const char *path, const uint8_t *record, size_t length)
{
    FILE *file = fopen(part, "wbx");
    if (file == NULL) {
        say_not_saved(errno == EEXIST ? part : path, errno);
        return 0;
    }
    int error = write_whole(file, record, length);
    if (error == 0)
        error = put_in_place(part, path);
    if (error != 0) {
        remove_part(part);
        say_not_saved(path, error);
    }
    return error == 0;
}

int store_record(const char *path, const uint8_t *record, size_t length)
{
    static const char ending[] = ".part";
    const size_t room = strlen(path) + sizeof ending;
    char *part = malloc(room);
    if (part == NULL) {
        say_not_saved(path, ENOMEM);
        return 0;
    }
    snprintf(part, room, "%s%s", path, ending);
    const int stored = store_by_way_of(part, path, record, length);
    free(part);
    return stored;
}

uint8_t *load_record(const char *path, size_t *length)
{
    const size_t most = (size_t)SEQ_ITEM_BYTES * MOST_ITEMS_AN_EVENT * SEQ_MOST_RUN;
    uint8_t *record = malloc(most + 1);
    const char *why = "there is no memory for it";
    if (record == NULL || !read_file(path, record, most + 1, length, &why)) {
        say_why(stdout, "Cannot read ", path, why);
    } else if (*length > most) {
        say_of(stdout, "", path, " is too long: ");
        printf("a record of this station has at most %zu bytes.\n", most);
    } else {
        return record;
    }
    free(record);
    return NULL;
}
