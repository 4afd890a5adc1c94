/* A table that survives a restart: each start sends one more file, and the next one knows. */
#define _XOPEN_SOURCE 700 /* fsync, lstat, realpath: this program is for Unix */

#include <yeqontur.h>

#include <errno.h>
#include <fcntl.h>
#include <libgen.h>
#include <stdio.h>
#include <stdlib.h>
#include <string.h>
#include <sys/stat.h>
#include <unistd.h>

/* The files to be sent. Atoms are numbers that the program hands out: one for the folder, three for each file. They are
 * what the file on disk knows, so they must mean the same at every start. */
#define FILES 2
static const char *const files[FILES] = {"report.pdf", "notes.txt"};

#define COMPLETE 0
#define SENT(i) (1 + 3 * (uint32_t)(i))
#define SKIPPED(i) (2 + 3 * (uint32_t)(i))
#define GOOD(i) (3 + 3 * (uint32_t)(i))

/* Room for a path and what is put behind it. */
#define PATH_BYTES 4096

/* Tells what went wrong with a file, by errno, and ends. */
static void fail(const char *path) {
    fprintf(stderr, "%s: %s\n", path, strerror(errno));
    exit(1);
}

/* Adds a rule that has to be accepted. */
static void add(yeqontur_table *table, uint32_t head, const uint32_t *positives, size_t positive_count,
                const uint32_t *negatives, size_t negative_count) {
    const uint32_t refused =
        yeqontur_add_to(table, head, positives, positive_count, negatives, negative_count, NULL);
    if (refused != YEQONTUR_ACCEPTED) {
        fprintf(stderr, "refused %u: %s; %s\n", refused, yeqontur_words(refused), yeqontur_advice(refused));
        exit(1);
    }
}

/* A new table: a file is good if it was sent and not skipped; the folder is complete if every file is good. */
static yeqontur_table begun(void) {
    yeqontur_table table = yeqontur_empty();
    uint32_t every[FILES];
    for (int i = 0; i < FILES; i++) {
        const uint32_t sent = SENT(i), skipped = SKIPPED(i);
        add(&table, GOOD(i), &sent, 1, &skipped, 1);
        every[i] = GOOD(i);
    }
    add(&table, COMPLETE, every, FILES, NULL, 0);
    return table;
}

/* Every function from here to load_from answers 0, or -1 with errno. */

/* Writes a path with something behind it. */
static int join(char to[PATH_BYTES], const char *path, const char *behind) {
    const int length = snprintf(to, PATH_BYTES, "%s%s", path, behind);
    errno = ENAMETOOLONG;
    return length >= 0 && length < PATH_BYTES ? 0 : -1;
}

/* What is known of the file that a path leads to. Anything but a file is an error: a rename would replace a device or a
 * pipe. */
static int ask_file(const char *path, struct stat *about) {
    if (stat(path, about) != 0) {
        return -1;
    }
    errno = EINVAL;
    return S_ISREG(about->st_mode) ? 0 : -1;
}

/* Where a save goes, and the permissions that the new file gets. Where nothing is there yet, that is the path itself,
 * and only the owner may read and write. Else it is the file behind all links, with its permissions, unless nobody or
 * not this process may write it. A link that leads to nothing is an error. */
static int find(const char *path, char real[PATH_BYTES], mode_t *mode) {
    struct stat about;
    if (lstat(path, &about) != 0) {
        *mode = S_IRUSR | S_IWUSR;
        return errno == ENOENT ? join(real, path, "") : -1;
    }
    if (ask_file(path, &about) != 0) {
        return -1;
    }
    *mode = about.st_mode & 07777;
    errno = EACCES;
    if ((*mode & 0222) == 0 || access(path, W_OK) != 0) {
        return -1;
    }
    char *found = realpath(path, NULL);
    const int joined = found == NULL ? -1 : join(real, found, "");
    free(found);
    return joined;
}

/* Writes bytes to a new file with these permissions, and flushes them to the disk. */
static int write_file(int file, mode_t mode, const uint8_t *bytes, size_t count) {
    if (fchmod(file, mode) != 0) {
        return -1;
    }
    while (count > 0) {
        const ssize_t written = write(file, bytes, count);
        if (written < 0) {
            return -1;
        }
        bytes += written;
        count -= (size_t)written;
    }
    return fsync(file);
}

/* Closes what was opened, after a call on it that answered this; its error is the one to be told. */
static int closed(int file, int answer) {
    const int error = errno;
    const int closing = close(file);
    if (answer != 0) {
        errno = error;
    }
    return answer != 0 ? answer : closing;
}

/* Flushes the folder of a file, so that a rename in it survives a power failure. */
static int flush_folder(const char *path) {
    char folder[PATH_BYTES];
    const int opened = join(folder, path, "") == 0 ? open(dirname(folder), O_RDONLY) : -1;
    return opened < 0 ? -1 : closed(opened, fsync(opened));
}

/* Creates a file beside another that was not there before, so that no two programs write to one new file. Its name has
 * the number of this process; one that an earlier process of the same number left behind is passed over. */
static int create(char new_path[PATH_BYTES], const char *path) {
    char behind[64];
    int file = -1, number = 0;
    do {
        snprintf(behind, sizeof behind, ".tmp-%ld-%d", (long)getpid(), number++);
        if (join(new_path, path, behind) != 0) {
            return -1;
        }
        file = open(new_path, O_WRONLY | O_CREAT | O_EXCL, S_IRUSR | S_IWUSR);
    } while (file < 0 && errno == EEXIST);
    return file;
}

/* Puts a file with these bytes in the place of another, in one step. */
static int replace(const char *path, mode_t mode, const uint8_t *bytes, size_t count) {
    char new_path[PATH_BYTES];
    const int file = create(new_path, path);
    if (file < 0) {
        return -1;
    }
    if (closed(file, write_file(file, mode, bytes, count)) != 0 || rename(new_path, path) != 0) {
        const int error = errno;
        remove(new_path);
        errno = error;
        return -1;
    }
    return flush_folder(path);
}

/* Saves the table in one step: the bytes go to a new file in the same folder, are flushed, and the new file is renamed
 * over the old one. Whenever the program is ended, the path has the old file or the new one. After an error the old
 * file is as it was, unless it was the folder that could not be flushed. */
static int save_to(const yeqontur_table *table, const char *path) {
    uint8_t bytes[YEQONTUR_FILE_BYTES]; /* enough for any table */
    char real[PATH_BYTES];
    mode_t mode;
    const yeqontur_list_answer saved = yeqontur_save(*table, bytes, sizeof bytes);
    if (saved.refused != YEQONTUR_ACCEPTED) { /* 15: not a table that the library handed back */
        errno = EINVAL;
        return -1;
    }
    return find(path, real, &mode) == 0 ? replace(real, mode, bytes, saved.count) : -1;
}

/* Reads a file and loads it; what the library says of it is in `loaded`. A byte more than a saved table can have is
 * enough to have the file refused, so no more is read. */
static int load_from(const char *path, yeqontur_loaded *loaded) {
    uint8_t bytes[YEQONTUR_FILE_BYTES + 1];
    struct stat about;
    FILE *file = ask_file(path, &about) == 0 ? fopen(path, "rb") : NULL;
    if (file == NULL) {
        return -1;
    }
    const size_t count = fread(bytes, 1, sizeof bytes, file);
    const int unread = ferror(file), error = errno;
    fclose(file);
    if (unread) {
        errno = error;
        return -1;
    }
    *loaded = yeqontur_load(bytes, count);
    return 0;
}

/* Moves a refused file to a name of its own, for whoever can tell what became of it. Where the path is a link, it is
 * the link that moves. */
static void keep_aside(const char *path) {
    char aside[PATH_BYTES], behind[32];
    struct stat about;
    int number = 0;
    do {
        number++;
        snprintf(behind, sizeof behind, ".refused%d", number);
        if (join(aside, path, behind) != 0) {
            fail(path);
        }
    } while (lstat(aside, &about) == 0);
    if (rename(path, aside) != 0) {
        fail(path);
    }
    printf("kept as %s: a new table\n", aside);
}

/* The table that an earlier start saved, or a new one. A file that cannot be read may be whole, so the program ends
 * there, and nothing is saved over it. */
static yeqontur_table opened(const char *path) {
    yeqontur_loaded loaded;
    if (load_from(path, &loaded) != 0) {
        if (errno != ENOENT) {
            fail(path);
        }
        printf("nothing saved yet: a new table\n");
        return begun();
    }
    if (loaded.refused != YEQONTUR_ACCEPTED) { /* loaded.table is the empty one */
        printf("refused %u: %s\n", loaded.refused, yeqontur_words(loaded.refused));
        keep_aside(path);
        return begun();
    }
    int rules = 0;
    for (uint32_t slot = 0; slot < YEQONTUR_SLOTS; slot++) {
        rules += yeqontur_rule(loaded.table, slot).refused == YEQONTUR_ACCEPTED;
    }
    printf("loaded: %d rules\n", rules);
    return loaded.table;
}

/* Sends the first file that was not sent yet. It is told after the table is saved: what a person has read is not
 * forgotten. */
static void send_one(yeqontur_table *table, const char *path) {
    for (int i = 0; i < FILES; i++) {
        if (yeqontur_label(*table, SENT(i)).state != YEQONTUR_LABEL_IN) {
            add(table, SENT(i), NULL, 0, NULL, 0);
            if (save_to(table, path) != 0) {
                fail(path);
            }
            printf("%s is sent\n", files[i]);
            return;
        }
    }
    printf("every file was sent\n");
}

int main(int count, char **arguments) {
    if (count != 2) {
        fprintf(stderr, "usage: restart PATH\n");
        return 1;
    }
    yeqontur_table table = opened(arguments[1]);
    send_one(&table, arguments[1]);
    printf("complete: %s\n", yeqontur_label(table, COMPLETE).state == YEQONTUR_LABEL_IN ? "in" : "out");
    return 0;
}
