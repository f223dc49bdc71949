/* The files of a box: its image, saved so that at every moment a whole one stands on the disk, and files of records.

   A save goes, with IMAGE the name that the box was given:
     1. the image is written to IMAGE.new, and IMAGE.new is synced;
     2. IMAGE is renamed to IMAGE.old, if it holds a book that loads: the last good one is kept;
     3. IMAGE.new is renamed to IMAGE;
     4. the folder is synced. Only then does the box say `accepted`.
   A start takes IMAGE, or IMAGE.old where IMAGE is missing or refused. Up to 2 IMAGE is the image saved before, between 2 and 3
   IMAGE.old is, from 3 on IMAGE is the new one; a rename is one step of the file system, and each file was synced before it got
   its name. So a box that is killed anywhere starts on the image before or on the new one, and on the new one if it had said
   `accepted`. Where IMAGE was refused and the box started on IMAGE.old, the next save leaves 2 out, so that a damaged file never
   takes the good one's place. IMAGE.new is never read.

   One box at a time may use an image: two would save over one another. */
#ifndef BOX_FILES_H
#define BOX_FILES_H

#include <stddef.h>
#include <stdint.h>

enum { BOX_PATH = 4096 };

struct box_files {
    char image[BOX_PATH], old_image[BOX_PATH], new_image[BOX_PATH], folder[BOX_PATH];
    int image_loads; /* IMAGE was loaded or saved by this box: it may be kept as IMAGE.old */
    int new_stands;  /* IMAGE.new was made by this box, and not renamed */
};

/* The names of the files; answers 0 where they are too long. */
int files_named(struct box_files *files, const char *image);

/* Reads a file of at most `room` bytes, or as many of a longer one. Answers its length, -1 where there is none, -2 where it
   cannot be read (errno says why). */
long file_read(const char *path, uint8_t *bytes, size_t room);

/* Reads a file of any length; answers its bytes, to be freed, or null where it cannot be read (errno says why). */
uint8_t *file_whole(const char *path, size_t *length);

/* Whether both names are of one file that is there. */
int same_file(const char *one, const char *other);

/* Saves an image; answers 0 where a step failed (errno says why). */
int files_save(struct box_files *files, const uint8_t *image, size_t length);

/* Removes the IMAGE.new that a failed save left, so that it takes no room on a full disk. */
void files_clear(struct box_files *files);

#endif
