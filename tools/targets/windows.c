// What a proved program calls of POSIX, over the Windows API: open, read, write, lseek, close and errno with Linux's
// numbers and texts, for paths and arguments in UTF-8. Bytes go through as they are.
#include <stdint.h>
#include <windows.h>
#include <shellapi.h>

enum { ENOENT = 2, EIO = 5, EBADF = 9, ENOMEM = 12, EACCES = 13, EISDIR = 21, EINVAL = 22, EMFILE = 24, ENOSPC = 28 };
enum { ESPIPE = 29, EPIPE = 32, ENAMETOOLONG = 36 };
enum { FILES = 64, PATH_SIZE = 4096, O_ACCMODE = 3, STDIO = 3 };

static HANDLE files[FILES];
static int error;

int rattle_errno(void) { return error; }

void rattle_set_errno(int number) { error = number; }

// The number on Linux for an error of Windows.
static int number_of(DWORD code) {
    switch (code) {
    case ERROR_FILE_NOT_FOUND:
    case ERROR_PATH_NOT_FOUND:
    case ERROR_INVALID_DRIVE:
    case ERROR_INVALID_NAME:
    case ERROR_BAD_PATHNAME:
    case ERROR_BAD_NETPATH:
    case ERROR_BAD_NET_NAME: return ENOENT;
    case ERROR_INVALID_HANDLE: return EBADF;
    case ERROR_NOT_ENOUGH_MEMORY:
    case ERROR_OUTOFMEMORY: return ENOMEM;
    case ERROR_ACCESS_DENIED:
    case ERROR_SHARING_VIOLATION:
    case ERROR_LOCK_VIOLATION: return EACCES;
    case ERROR_HANDLE_DISK_FULL:
    case ERROR_DISK_FULL: return ENOSPC;
    case ERROR_BROKEN_PIPE:
    case ERROR_NO_DATA: return EPIPE;
    case ERROR_FILENAME_EXCED_RANGE: return ENAMETOOLONG;
    default: return EIO;
    }
}

static const char *text_of(int number) {
    switch (number) {
    case ENOENT: return "No such file or directory";
    case EIO: return "Input/output error";
    case EBADF: return "Bad file descriptor";
    case ENOMEM: return "Cannot allocate memory";
    case EACCES: return "Permission denied";
    case EISDIR: return "Is a directory";
    case EINVAL: return "Invalid argument";
    case EMFILE: return "Too many open files";
    case ENOSPC: return "No space left on device";
    case ESPIPE: return "Illegal seek";
    case EPIPE: return "Broken pipe";
    case ENAMETOOLONG: return "File name too long";
    default: return "Unknown error";
    }
}

int __xpg_strerror_r(int number, char *room, size_t length) {
    const char *text = text_of(number);
    for (size_t at = 0; at < length; at++) {
        room[at] = text[at];
        if (!text[at]) return 0;
    }
    return EINVAL;
}

static int fail(int number) {
    error = number;
    return -1;
}

static int fail_as_windows(void) { return fail(number_of(GetLastError())); }

// The handle of a descriptor; what is no descriptor has none, and each call refuses that.
static HANDLE handle_of(int file) { return file >= 0 && file < FILES ? files[file] : NULL; }

// Opens a file to be read, which is all that the programs do with files that they name.
int open(const char *path, int flags, ...) {
    WCHAR wide[PATH_SIZE];
    int file = STDIO;
    while (file < FILES && files[file]) file++;
    if (file == FILES) return fail(EMFILE);
    if (flags & O_ACCMODE) return fail(EACCES);
    if (!MultiByteToWideChar(CP_UTF8, MB_ERR_INVALID_CHARS, path, -1, wide, PATH_SIZE)) return fail(ENOENT);
    DWORD attributes = GetFileAttributesW(wide);
    if (attributes != INVALID_FILE_ATTRIBUTES && attributes & FILE_ATTRIBUTE_DIRECTORY) return fail(EISDIR);
    DWORD shared = FILE_SHARE_READ | FILE_SHARE_WRITE | FILE_SHARE_DELETE;
    HANDLE opened = CreateFileW(wide, GENERIC_READ, shared, NULL, OPEN_EXISTING, FILE_ATTRIBUTE_NORMAL, NULL);
    if (opened == INVALID_HANDLE_VALUE) return fail_as_windows();
    files[file] = opened;
    return file;
}

int close(int file) {
    if (!CloseHandle(handle_of(file))) return fail_as_windows();
    files[file] = NULL;
    return 0;
}

// The most that one call of Windows is asked to read or write.
static DWORD at_most(size_t length) { return length < 1 << 30 ? (DWORD)length : 1 << 30; }

intptr_t read(int file, void *room, size_t length) {
    DWORD got = 0;
    if (ReadFile(handle_of(file), room, at_most(length), &got, NULL)) return got;
    DWORD code = GetLastError(); // the other end of a pipe was closed: the end of the input
    return code == ERROR_BROKEN_PIPE || code == ERROR_HANDLE_EOF ? 0 : fail(number_of(code));
}

intptr_t write(int file, const void *bytes, size_t length) {
    DWORD put = 0;
    return WriteFile(handle_of(file), bytes, at_most(length), &put, NULL) ? (intptr_t)put : fail_as_windows();
}

intptr_t __write(int file, const void *bytes, size_t length) { return write(file, bytes, length); }

// SEEK_SET, SEEK_CUR and SEEK_END have the numbers of FILE_BEGIN, FILE_CURRENT and FILE_END.
int64_t lseek(int file, int64_t offset, int whence) {
    LARGE_INTEGER to = {.QuadPart = offset}, now;
    if (GetFileType(handle_of(file)) != FILE_TYPE_DISK) return fail(ESPIPE);
    return SetFilePointerEx(handle_of(file), to, &now, (DWORD)whence) ? now.QuadPart : fail_as_windows();
}

// A program begins by ignoring SIGPIPE, which Windows has not.
intptr_t __sysv_signal(int number, intptr_t handler) {
    (void)number, (void)handler;
    return 0;
}

// ---- where a program starts

void keep_arguments(int number, char **words);
int main(void);

void __main(void) {} // would run constructors, of which there are none

// The arguments in UTF-8, all in one block that is never freed; null without memory.
static char **arguments(int *count) {
    WCHAR **wide = CommandLineToArgvW(GetCommandLineW(), count);
    if (!wide) return NULL;
    size_t size = (size_t)(*count + 1) * sizeof(char *);
    for (int at = 0; at < *count; at++) size += 3 * wcslen(wide[at]) + 1;
    char **words = HeapAlloc(GetProcessHeap(), 0, size);
    if (!words) return NULL;
    char *room = (char *)(words + *count + 1);
    for (int at = 0; at < *count; at++) {
        words[at] = room;
        room += WideCharToMultiByte(CP_UTF8, 0, wide[at], -1, room, 3 * (int)wcslen(wide[at]) + 1, NULL, NULL);
    }
    return words;
}

// A terminal is told that what is written is UTF-8, and afterwards what it was told before.
void start(void) {
    int count = 0;
    char **words = arguments(&count);
    if (!words) ExitProcess(127);
    keep_arguments(count, words);
    const DWORD standard[STDIO] = {STD_INPUT_HANDLE, STD_OUTPUT_HANDLE, STD_ERROR_HANDLE};
    for (int file = 0; file < STDIO; file++) files[file] = GetStdHandle(standard[file]);
    UINT before = GetConsoleOutputCP();
    if (before) SetConsoleOutputCP(CP_UTF8);
    int status = main();
    if (before) SetConsoleOutputCP(before);
    ExitProcess((UINT)status);
}
