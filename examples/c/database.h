/* What the examples share: a file and its streams, with an end at the first error. */
#include <pdb_container.h>
#include <stdio.h>
#include <stdlib.h>

/* Ends the program with the text of a fault. */
static void fail(pdb_fault fault) {
    char text[200] = "an allocation failed";
    size_t length = 0;
    pdb_fault_text(&fault, text, sizeof text, &length);
    fprintf(stderr, "%s\n", text);
    exit(1);
}

/* Ends it if the last call on a handle failed. */
static void check(const pdb_handle *handle) { if (handle->fault.status) fail(handle->fault); }

/* Memory for so many items, one at least. */
static void *room_for(size_t count, size_t size) {
    void *room = calloc(count ? count : 1, size);
    if (!room) fail((pdb_fault){PDB_OUT_OF_MEMORY, 0, 0});
    return room;
}

/* Opens the file of a path, whose bytes stay until it is closed. */
static inline void open_file(const char *path, pdb_file *file) {
    FILE *in = fopen(path, "rb");
    if (!in || fseek(in, 0, SEEK_END)) fail((pdb_fault){PDB_IO_ERROR, 1, 0});
    size_t length = (size_t)ftell(in);
    rewind(in);
    uint8_t *bytes = room_for(length, 1);
    if (fread(bytes, 1, length, in) != length) fail((pdb_fault){PDB_IO_ERROR, 1, 0});
    fclose(in);
    pdb_file_open(bytes, length, file);
    check(&file->handle);
}

static inline void close_file(pdb_file *file) {
    uint8_t *bytes = (uint8_t *)file->bytes;
    pdb_file_close(file);
    free(bytes);
}

/* Copies a stream, and sets its length. */
static inline uint8_t *stream_of(pdb_file *file, uint32_t number, size_t *length) {
    if (pdb_file_stream(file, number, SIZE_MAX, NULL, 0, length) != PDB_TOO_SMALL) check(&file->handle);
    uint8_t *stream = room_for(*length, 1);
    pdb_file_stream(file, number, SIZE_MAX, stream, *length, length);
    check(&file->handle);
    return stream;
}

/* Prints a text in JSON. */
static inline void print_quoted(const char *text, size_t length) {
    putchar('"');
    for (size_t at = 0; at < length; at++)
        printf((uint8_t)text[at] < ' ' || text[at] == '"' || text[at] == '\\' ? "\\u%04x" : "%c", text[at]);
    putchar('"');
}
