/* What rustc's standard library for glibc takes of glibc and musl hasn't, so that a test can link the one with the other. */

typedef void initializer(int, char **, char **);
extern char **__environ;
extern initializer *const __init_array_start[];
extern initializer *const __init_array_end[];
extern void _init(void);

/* glibc hands the words of a program to its initializers. They end one place before the environment, and their count stands before them. */
void __libc_start_init(void) {
    char **end = __environ - 1;
    int count = 0;
    while ((long)end[-1 - count] != count) {
        count++;
    }
    _init();
    for (initializer *const *each = __init_array_start; each < __init_array_end; each++) {
        (*each)(count, end - count, __environ);
    }
}

const char *gnu_get_libc_version(void) {
    return "2.17";
}

int __res_init(void) {
    return -1;
}

int _dl_find_object(void *address, void *found) {
    (void)address;
    (void)found;
    return -1;
}
