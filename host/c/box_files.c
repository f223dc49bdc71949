/* The files of a box: box_files.h says in which order they are written. */
#define _POSIX_C_SOURCE 200809L

#include "box_files.h"

#include "box_step.h"

#include <errno.h>
#include <fcntl.h>
#include <stdio.h>
#include <stdlib.h>
#include <string.h>
#include <sys/stat.h>
#include <unistd.h>

/* The most that one write is lent. The kill test lowers it, so that there is a moment within a file. */
#ifndef BOX_WRITE
#define BOX_WRITE (1 << 20)
#endif

int files_named(struct box_files *files, const char *image)
{
    size_t length = strlen(image);
    if (length == 0 || length > BOX_PATH - sizeof ".old")
        return 0;
    snprintf(files->image, BOX_PATH, "%s", image);
    snprintf(files->old_image, BOX_PATH, "%.*s.old", (int)length, image);
    snprintf(files->new_image, BOX_PATH, "%.*s.new", (int)length, image);
    const char *slash = strrchr(image, '/');
    if (slash == NULL)
        snprintf(files->folder, BOX_PATH, ".");
    else
        snprintf(files->folder, BOX_PATH, "%.*s", (int)(slash - image) + 1, image);
    files->image_loads = files->new_stands = 0;
    return 1;
}

/* A system call that a signal interrupted is made again. */
static ssize_t read_some(int file, uint8_t *bytes, size_t room)
{
    ssize_t count;
    do
        count = read(file, bytes, room);
    while (count < 0 && errno == EINTR);
    return count;
}

/* Fills the room, or as much of it as the file's rest has; answers 0 where it cannot be read. */
static int fill(int file, uint8_t *bytes, size_t room, size_t *length)
{
    ssize_t count = 1;
    for (*length = 0; count > 0 && *length < room; *length += count > 0 ? (size_t)count : 0)
        count = read_some(file, bytes + *length, room - *length);
    return count >= 0;
}

static void close_kept(int file)
{
    int why = errno;
    close(file);
    errno = why;
}

long file_read(const char *path, uint8_t *bytes, size_t room)
{
    int file = open(path, O_RDONLY);
    if (file < 0)
        return errno == ENOENT ? -1 : -2;
    size_t length;
    int good = fill(file, bytes, room, &length);
    close_kept(file);
    return good ? (long)length : -2;
}

/* The file's rest in memory of its own, or null. */
static uint8_t *read_rest(int file, size_t *length)
{
    uint8_t *bytes = NULL;
    size_t room = 0, count = 0;
    *length = 0;
    do {
        room = 2 * room + (1 << 16);
        uint8_t *more = (uint8_t *)realloc(bytes, room);
        if (more == NULL || !fill(file, more + *length, room - *length, &count)) {
            int why = errno;
            free(more == NULL ? bytes : more);
            errno = why;
            return NULL;
        }
        bytes = more;
        *length += count;
    } while (*length == room);
    return bytes;
}

uint8_t *file_whole(const char *path, size_t *length)
{
    int file = open(path, O_RDONLY);
    if (file < 0)
        return NULL;
    uint8_t *bytes = read_rest(file, length);
    close_kept(file);
    return bytes;
}

int same_file(const char *one, const char *other)
{
    struct stat of_one, of_other;
    return stat(one, &of_one) == 0 && stat(other, &of_other) == 0 && of_one.st_dev == of_other.st_dev && of_one.st_ino == of_other.st_ino;
}

static int write_all(int file, const uint8_t *bytes, size_t length)
{
    size_t written = 0;
    while (written < length) {
        size_t most = length - written < BOX_WRITE ? length - written : BOX_WRITE;
        box_step("before write");
        ssize_t count = write(file, bytes + written, most);
        box_step("after write");
        if (count < 0 && errno != EINTR)
            return 0;
        if (count > 0)
            written += (size_t)count;
    }
    return 1;
}

static int sync_file(int file, const char *before, const char *after)
{
    box_step(before);
    int synced = fsync(file) == 0;
    box_step(after);
    return synced;
}

/* Closes the file, and keeps why an earlier step failed. */
static int closed(int file, int good)
{
    int why = errno;
    if (close(file) != 0 && good)
        return 0;
    errno = why;
    return good;
}

static int write_new(struct box_files *files, const uint8_t *image, size_t length)
{
    box_step("before create");
    int file = open(files->new_image, O_WRONLY | O_CREAT | O_TRUNC, 0644);
    if (file < 0)
        return 0;
    files->new_stands = 1;
    box_step("after create");
    return closed(file, write_all(file, image, length) && sync_file(file, "before file sync", "after file sync"));
}

static int renamed(const char *from, const char *to, const char *before, const char *after)
{
    box_step(before);
    int done = rename(from, to) == 0;
    box_step(after);
    return done;
}

static int sync_folder(const struct box_files *files)
{
    int folder = open(files->folder, O_RDONLY | O_DIRECTORY);
    if (folder < 0)
        return 0;
    return closed(folder, sync_file(folder, "before folder sync", "after folder sync"));
}

int files_save(struct box_files *files, const uint8_t *image, size_t length)
{
    if (!write_new(files, image, length))
        return 0;
    if (files->image_loads && !renamed(files->image, files->old_image, "before keeping", "after keeping"))
        return 0;
    if (!renamed(files->new_image, files->image, "before rename", "after rename"))
        return 0;
    files->image_loads = 1;
    files->new_stands = 0;
    return sync_folder(files);
}

void files_clear(struct box_files *files)
{
    if (files->new_stands)
        unlink(files->new_image);
    files->new_stands = 0;
}
