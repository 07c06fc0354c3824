/* example INDEX: maps an index file and answers the queries on standard input, as the program's `batch` does. A query is a line
   `range,R,C1,..,CD` or `nearest,K,C1,..,CD`. Holds the file by the shared lock meanwhile, so no program of mtree writes it. */
#include "mtree.h"
#include <fcntl.h>
#include <stdio.h>
#include <stdlib.h>
#include <string.h>
#include <sys/file.h>
#include <sys/mman.h>
#include <sys/stat.h>

int main(int count, char **words) {
    struct stat about;
    int device = count == 2 ? open(words[1], O_RDONLY) : -1;
    if (device < 0 || flock(device, LOCK_SH | LOCK_NB) != 0 || fstat(device, &about) != 0) return 10;
    const uint8_t *file = about.st_size ? mmap(NULL, about.st_size, PROT_READ, MAP_PRIVATE, device, 0) : NULL;
    if (file == MAP_FAILED) return 10;

    char line[4096];
    size_t room = 1;
    struct mtree_hit *hits = malloc(room * sizeof *hits);
    while (hits && fgets(line, sizeof line, stdin)) {
        uint32_t point[64];
        size_t coordinates = 0;
        int is_range = strncmp(line, "range,", 6) == 0;
        strtok(line, ",");
        char *word = strtok(NULL, ",");
        uint64_t bound = word ? strtoull(word, NULL, 10) : 0;
        while (coordinates < 64 && (word = strtok(NULL, ","))) point[coordinates++] = strtoul(word, NULL, 10);

        uint8_t status;
        struct mtree_sizes sizes;
        while ((status = (is_range ? mtree_range : mtree_nearest)(file, about.st_size, point, coordinates, bound, hits, room, NULL, 0,
                                                                  &sizes)) == 4) {
            room = sizes.hits;
            if (!(hits = realloc(hits, room * sizeof *hits))) return 8;
        }
        if (status != 0) return status;
        printf("hits %zu\n", sizes.hits);
        for (size_t i = 0; i < sizes.hits; i++) printf("%u %llu\n", hits[i].id, (unsigned long long)hits[i].distance);
    }
    return hits ? 0 : 8;
}
