/* record_file.c - the record file: what a capture keeps over restarts. */
#define _POSIX_C_SOURCE 200112L
#include "record_file.h"

#include "files.h"

#include <fcntl.h>
#include <stdio.h>
#include <string.h>
#include <unistd.h>

#define MARK_BYTES 8
#define CRC_BYTES 4

/* The layouts that are read, by their version marks. The first is written. */
typedef struct layout {
    const char *mark;
    size_t least;  /* the bytes of a file with no items */
    int sum_bytes; /* the bytes of each sum */
} layout;
static const layout layouts[] = {{"OWSREC3\n", RECORD_BYTES(0), 4},
                                 {"OWSREC2\n", RECORD_BYTES(0) - 12, 0}};

/* The mark of version 1, which is refused. */
static const char earlier_mark[] = "OWSREC1\n";

/* The CRC-32 of Ethernet and zip files. */
static ows_u32 crc32_of(const ows_u8 *bytes, size_t length) {
    ows_u32 crc = 0xFFFFFFFF;
    size_t i;
    int bit;
    for (i = 0; i < length; i++) {
        crc ^= bytes[i];
        for (bit = 0; bit < 8; bit++)
            crc = (crc >> 1) ^ ((crc & 1) != 0 ? 0xEDB88320 : 0);
    }
    return crc ^ 0xFFFFFFFF;
}

/* Puts a number of so many bytes, its low byte first, and moves on. */
static void put(ows_u8 **at, ows_u64 number, int bytes) {
    for (; bytes > 0; bytes--) {
        *(*at)++ = (ows_u8)(number & 0xFF);
        number >>= 8;
    }
}

/* Gets a number of so many bytes, its low byte first, and moves on. */
static ows_u64 get(const ows_u8 **at, int bytes) {
    ows_u64 number = 0;
    int i;
    for (i = 0; i < bytes; i++) {
        ows_u64 byte = *(*at)++;
        number |= byte << (8 * i);
    }
    return number;
}

/* Gets a number of so many bytes, 4 in two's complement or none for 0. */
static ows_i32 get_signed(const ows_u8 **at, int bytes) {
    ows_u32 number = (ows_u32)get(at, bytes);
    return number <= 0x7FFFFFFF ? (ows_i32)number
                                : -(ows_i32)(0xFFFFFFFF - number) - 1;
}

static void put_receiver(ows_u8 **at, const ows_receiver *r) {
    put(at, r->mode, 4);
    put(at, r->bits, 4);
    put(at, r->count, 4);
    put(at, r->frame, 4);
    put(at, r->word, 4);
    put(at, r->read, 4);
    put(at, r->results, 4);
    put(at, r->state, 4);
    put(at, r->clock, 4);
    put(at, r->samples, 8);
    put(at, r->gaps, 8);
    put(at, r->losses, 8);
    put(at, (ows_u64)r->sum, 4);
    put(at, (ows_u64)r->lowest, 4);
    put(at, (ows_u64)r->highest, 4);
}

static void get_receiver(const ows_u8 **at, ows_receiver *r, int sum_bytes) {
    r->mode = (ows_u32)get(at, 4);
    r->bits = (ows_u32)get(at, 4);
    r->count = (ows_u32)get(at, 4);
    r->frame = (ows_u32)get(at, 4);
    r->word = (ows_u32)get(at, 4);
    r->read = (ows_u32)get(at, 4);
    r->results = (ows_u32)get(at, 4);
    r->state = (ows_u32)get(at, 4);
    r->clock = (ows_u32)get(at, 4);
    r->samples = get(at, 8);
    r->gaps = get(at, 8);
    r->losses = get(at, 8);
    r->sum = get_signed(at, sum_bytes);
    r->lowest = get_signed(at, sum_bytes);
    r->highest = get_signed(at, sum_bytes);
}

size_t record_image(const capture *c, ows_u8 *image) {
    ows_u8 *at = image + MARK_BYTES;
    ows_u32 i;
    memcpy(image, layouts[0].mark, MARK_BYTES);
    put(&at, c->lane, 4);
    put_receiver(&at, &c->receiver);
    put(&at, c->line_bytes, 8);
    put(&at, c->book_bytes, 8);
    put(&at, c->book_strips, 8);
    put(&at, c->count, 4);
    for (i = 0; i < c->count; i++)
        put(&at, c->items[i], 2);
    put(&at, crc32_of(image, (size_t)(at - image)), CRC_BYTES);
    return (size_t)(at - image);
}

/* The layout of a file that begins with these MARK_BYTES bytes, or NULL. */
static const layout *layout_of(const ows_u8 *image) {
    size_t i;
    for (i = 0; i < sizeof layouts / sizeof layouts[0]; i++)
        if (memcmp(image, layouts[i].mark, MARK_BYTES) == 0)
            return &layouts[i];
    return NULL;
}

/* Gets the open strip's items, the last part of the file before its CRC. */
static const char *get_items(const ows_u8 **at, const ows_u8 *end, capture *c) {
    ows_u32 i;
    c->count = (ows_u32)get(at, 4);
    if (c->count > STRIP_ITEMS || (size_t)(end - *at) != 2 * (size_t)c->count)
        return "its count of items is wrong";
    for (i = 0; i < c->count; i++) {
        c->items[i] = (ows_u16)get(at, 2);
        if (c->items[i] > OWS_GAP)
            return "an item is out of range";
    }
    return NULL;
}

const char *record_read(capture *c, const ows_u8 *image, size_t length) {
    const ows_u8 *at, *end;
    const layout *found;
    const char *why;
    if (length < MARK_BYTES)
        return "its length is wrong";
    if (memcmp(image, earlier_mark, MARK_BYTES) == 0)
        return "it is of an earlier version";
    found = layout_of(image);
    if (found == NULL)
        return "its first bytes are wrong";
    if (length < found->least || length > RECORD_LARGEST)
        return "its length is wrong";
    at = end = image + length - CRC_BYTES;
    if (get(&at, CRC_BYTES) != crc32_of(image, length - CRC_BYTES))
        return "its CRC is wrong";
    at = image + MARK_BYTES;
    c->lane = (ows_u32)get(&at, 4);
    get_receiver(&at, &c->receiver, found->sum_bytes);
    c->line_bytes = get(&at, 8);
    c->book_bytes = get(&at, 8);
    c->book_strips = get(&at, 8);
    why = get_items(&at, end, c);
    if (why == NULL && c->lane > 255)
        why = "its lane is out of range";
    if (why == NULL &&
        ows_feed(c->receiver, NULL, 0, NULL, 0).refusal != OWS_TAKEN)
        why = "the receiver's record is out of range";
    return why;
}

int record_load(const char *path, capture *c, const char **why) {
    ows_u8 image[RECORD_LARGEST + 1];
    size_t length;
    file f = file_open(path, O_RDONLY);
    if (f.fd < 0)
        return RECORD_NONE;
    file_must_be_regular(&f);
    length = file_read_full(&f, image, sizeof image);
    file_close(&f);
    *why = record_read(c, image, length);
    return *why == NULL ? RECORD_GOOD : RECORD_SPOILED;
}

/* Renames a file and brings the new name to the disk. */
static void rename_file(const char *from, const char *to) {
    if (rename(from, to) != 0)
        fail(from, "rename");
    folder_sync(to);
}

void record_save(const char *path, const capture *c) {
    ows_u8 image[RECORD_LARGEST];
    char name[PATH_BYTES];
    size_t length = record_image(c, image);
    file f;
    path_join(name, path, ".new");
    f = file_open(name, O_WRONLY | O_CREAT | O_TRUNC);
    if (file_write(&f, image, length) != 0)
        fail(name, "write");
    file_sync(&f);
    file_close(&f);
    rename_file(name, path);
}

void record_set_aside(const char *path, char *name) {
    char suffix[40] = ".spoiled";
    int number = 1;
    path_join(name, path, suffix);
    while (access(name, F_OK) == 0) {
        sprintf(suffix, ".spoiled.%d", ++number);
        path_join(name, path, suffix);
    }
    rename_file(path, name);
}
