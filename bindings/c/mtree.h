/* The index for programs in C.

   Each call takes the bytes of an index file, read or mapped, and answers into the caller's buffers. The library keeps nothing
   between calls, opens no file and writes none: mtree_create_in and mtree_session_in make and change an index in a buffer, and
   mtree_session_plan, mtree_load_plan and mtree_insert_plan say what to write to a file. Every call may run in any thread, beside others.

   The caller sees to it that no process writes the file while a call reads it. The programs of mtree hold a file by an advisory
   lock: shared where they read it, exclusive where they write it. A caller does the same:

       int handle = open(name, O_RDONLY);
       if (flock(handle, LOCK_SH | LOCK_NB) != 0)
           return in_use();                       // another process writes the index
       map the file, and call; a file that has grown since is mapped anew
       flock(handle, LOCK_UN);

   A buffer is a pointer and a number of elements. The pointer of an empty buffer may be NULL. The caller sees to three things:
   each buffer is valid for its length; nothing writes to what a call reads while it runs; no two buffers of a call overlap where
   one of them is written. The other pointers point to one value each.

   Every call returns a status:
     0  done; a script is done, whatever its commands were told (session_in, session_plan)
     1  the file or a log is rejected; the text names the fault (audit, seal, verify, show, check, carry, proof)
     2  no query: a point is not of the file's space, the points have another size, or `count` is 0 (range, nearest, range_each,
        nearest_each); the file is longer than its buffer (session_in); no index has this shape (create_in)
     4  a buffer is too small; the sizes tell what is needed, and the buffers are as they were
     6  the bytes are no index of version 2
     7  there are more than 2^30 bytes of logs (verify, show, check, carry, proof), or the file has more than 262144 pages (seal, carry),
        or there are more than 2^26 bytes of script (session_in, session_plan)
     8  out of memory
     9  a damaged page was met (range, nearest, range_each, nearest_each, shape, stats, dump, session_in, session_plan), or an id is not
        there once (dump); audit names the file's fault
   No call returns 5, the status of a device that failed: the bytes can always be read. */
#ifndef MTREE_H
#define MTREE_H

#include <stdbool.h>
#include <stddef.h>
#include <stdint.h>

#ifdef __cplusplus
extern "C" {
#endif

/* An object in an answer. */
struct mtree_hit {
    uint32_t id;       /* its place in the order of acceptance, from 0 */
    uint64_t distance; /* from the query's point, in the metric of the file */
    uint64_t tag;      /* the number that the caller gave it; its id where none was given */
};

/* The sizes of an answer: the number of hits, and the bytes of the log's frame. Both are 0 at every status but 0 and 4. */
struct mtree_sizes {
    size_t hits;
    size_t log;
};

/* Finds every object within `radius` of `point`, which has `coordinates` numbers. Puts the hits to the front of `hits`, by
   distance, then by id, and their number to `sizes`. Where `log_room` is not 0, puts the frame of the log that shows the answer
   to the front of `log`. */
uint8_t mtree_range(const uint8_t *file, size_t file_size, const uint32_t *point, size_t coordinates, uint64_t radius,
                    struct mtree_hit *hits, size_t hits_room, uint8_t *log, size_t log_room, struct mtree_sizes *sizes);

/* Finds the `count` objects nearest to `point`, by distance, then by id. All else is as in mtree_range. */
uint8_t mtree_nearest(const uint8_t *file, size_t file_size, const uint32_t *point, size_t coordinates, uint64_t count,
                      struct mtree_hit *hits, size_t hits_room, uint8_t *log, size_t log_room, struct mtree_sizes *sizes);

/* Finds every object within `radius` of each of `rows` points. The points stand one after another in `points`, which has `numbers`
   numbers in all. The library keeps up to 16384 nodes that the searches read until the call ends. Puts the number of
   hits of each point to `counts`, which has room for `rows` numbers. Puts the hits of all points to the front of `hits`, one point's
   after another's, each point's by distance, then by id. Puts the number of all hits to `size`. Where the status is not 0, `hits` and
   `counts` are as they were. Where it is neither 0 nor 4, `size` is 0. */
uint8_t mtree_range_each(const uint8_t *file, size_t file_size, const uint32_t *points, size_t numbers, uint64_t radius,
                         struct mtree_hit *hits, size_t hits_room, size_t *counts, size_t rows, size_t *size);

/* Finds the `count` objects nearest to each of `rows` points. All else is as in mtree_range_each. */
uint8_t mtree_nearest_each(const uint8_t *file, size_t file_size, const uint32_t *points, size_t numbers, uint64_t count,
                           struct mtree_hit *hits, size_t hits_room, size_t *counts, size_t rows, size_t *size);

/* What the head and the live slot of a file say. */
struct mtree_description {
    uint8_t kind;        /* the metric: 1 hamming, 2 l1, 3 max, 4 kendall, 5 hausdorff, 6 mixsum, 7 mixmax, 8 l1cap */
    uint8_t dim;         /* the number of coordinates of a point, 1 to 64 */
    uint8_t promote;     /* the promotion: 1 m_RAD, 2 mM_RAD */
    uint8_t split;       /* the partition: 1 generalized hyperplane, 2 balanced */
    uint32_t limit;      /* the greatest number of objects */
    uint64_t generation; /* the number of commits that made the tree, from 1 */
    uint32_t root;       /* the root's page */
    uint32_t height;     /* the root's level */
    uint32_t count;      /* the number of objects */
    uint32_t pages;      /* the number of pages of the file that count */
};

/* Says what the file is. Where the status is 6, `description` is as it was. */
uint8_t mtree_describe(const uint8_t *file, size_t file_size, struct mtree_description *description);

/* Each of these calls puts to the front of `text` what the program `mtree` writes for the command of that name, and its size to
   `text_size`. It does so at every status but 4 and 8. The text is lines that end with a line feed. No NUL follows it. */

/* Audits the file. */
uint8_t mtree_audit(const uint8_t *file, size_t file_size, uint8_t *text, size_t text_room, size_t *text_size);

/* Walks the tree of the file, and tells its nodes. */
uint8_t mtree_shape(const uint8_t *file, size_t file_size, uint8_t *text, size_t text_room, size_t *text_size);

/* Tells what is known of the file without its objects. */
uint8_t mtree_stats(const uint8_t *file, size_t file_size, uint8_t *text, size_t text_room, size_t *text_size);

/* Tells the objects of the file, as a script that makes them again. */
uint8_t mtree_dump(const uint8_t *file, size_t file_size, uint8_t *text, size_t text_room, size_t *text_size);

/* Audits the file, and tells its root digest. */
uint8_t mtree_seal(const uint8_t *file, size_t file_size, uint8_t *text, size_t text_room, size_t *text_size);

/* Judges the frames of `logs` by the file. Does not audit the file. */
uint8_t mtree_verify(const uint8_t *file, size_t file_size, const uint8_t *logs, size_t logs_size, uint8_t *text, size_t text_room,
                     size_t *text_size);

/* Judges the frames of `logs` by the file, and shows the walk that each of them tells of. Does not audit the file. */
uint8_t mtree_show(const uint8_t *file, size_t file_size, const uint8_t *logs, size_t logs_size, uint8_t *text, size_t text_room,
                   size_t *text_size);

/* Audits the file. Where it is sound, judges the frames of `logs` by it, and tells the answer of each accepted one. */
uint8_t mtree_check(const uint8_t *file, size_t file_size, const uint8_t *logs, size_t logs_size, uint8_t *text, size_t text_room,
                    size_t *text_size);

/* Judges the frames of carried logs in `logs` by `root`, the 32 bytes of an index's root digest, without the file. */
uint8_t mtree_proof(const uint8_t *logs, size_t logs_size, const uint8_t *root, uint8_t *text, size_t text_room, size_t *text_size);

/* The sizes of carried logs: the bytes of their frames, and the bytes of the text on them. Both are 0 at status 8. */
struct mtree_carried_sizes {
    size_t carried;
    size_t text;
};

/* Judges the frames of `logs` by the file, and carries each log without a fault, so that mtree_proof needs the root digest alone. Puts the
   frames of the carried logs to the front of `carried`, the lines of the program's `proof` to the front of `text`, and the sizes of both to
   `sizes`. At status 4 and 8 both buffers are as they were. */
uint8_t mtree_carry(const uint8_t *file, size_t file_size, const uint8_t *logs, size_t logs_size, uint8_t *carried, size_t carried_room,
                    uint8_t *text, size_t text_room, struct mtree_carried_sizes *sizes);

/* What an index is made for. */
struct mtree_index_shape {
    uint8_t kind;    /* the metric, as in struct mtree_description */
    uint8_t dim;     /* the number of coordinates of a point, 1 to 64; even for the metrics 6 and 7 */
    uint8_t promote; /* the promotion: 1 m_RAD, 2 mM_RAD */
    uint8_t split;   /* the partition: 1 generalized hyperplane, 2 balanced */
    uint32_t limit;  /* the greatest number of objects, 1 to 2^24 */
};

/* Makes an empty index of version 2 at the front of `file`, and puts its size to `file_size`, which is 0 at status 2 and 8. Where the
   status is not 0, `file` is as it was. Written to an empty file and synced, the bytes are an index file. */
uint8_t mtree_create_in(uint8_t *file, size_t file_room, const struct mtree_index_shape *shape, size_t *file_size);

/* The next two calls run a script: the commands that the program's `session` reads. Put the replies to the front of `text`, each as
   `session` writes it, and the frames of the queries' logs to the front of `log`. `show_tags` is that of the program's --tags. No threads
   are started. */

/* The sizes of what a session leaves, in bytes: the file, the replies, and the frames of the logs. They are 0 at status 2 and 8. */
struct mtree_session_sizes {
    size_t file;
    size_t text;
    size_t log;
};

/* Runs the script on the index file at the front of `file`, of `file_size` bytes, and puts the file after it to the front of `file`. Does
   all of the script, or at status 2, 4 and 8 nothing: the buffers are then as they were. At status 9 the commands before the fault are
   done. */
uint8_t mtree_session_in(uint8_t *file, size_t file_room, size_t file_size, bool show_tags, const uint8_t *script, size_t script_size,
                         uint8_t *text, size_t text_room, uint8_t *log, size_t log_room, struct mtree_session_sizes *sizes);

/* A step of a plan: a write of `size` bytes at place `at` of the file, or a sync, whose `at` and `size` are 0. */
struct mtree_step {
    uint64_t at;
    uint64_t size;
    bool is_sync;
};

/* The sizes of a plan: the number of its steps, and the bytes of its writes, of the replies and of the frames. They are 0 at status 8. */
struct mtree_plan_sizes {
    size_t steps;
    size_t written;
    size_t text;
    size_t log;
};

/* Runs the script on the file, which stays as it is, and says what `session` does to it. Puts the writes and syncs to the front of
   `steps`, in their order, and the bytes of the writes to the front of `written`, one write's after another's. At status 4 and 8 the
   buffers are as they were.

   The caller holds the file by the exclusive lock from before it is mapped until after the last step. It does the steps to the file one
   after another (pwrite, fsync), and gives nobody the replies before all of them are done. Where the file was sound, a crash between any
   two steps or within one leaves the objects after some first commands of the script, and after the last step those after all of them. A
   step that fails ends the plan, and the file is mapped anew. */
uint8_t mtree_session_plan(const uint8_t *file, size_t file_size, bool show_tags, const uint8_t *script, size_t script_size,
                           struct mtree_step *steps, size_t steps_room, uint8_t *written, size_t written_room, uint8_t *text,
                           size_t text_room, uint8_t *log, size_t log_room, struct mtree_plan_sizes *sizes);

/* What mtree_session_plan does, for one load of all rows into an index that is empty. `count` rows of `width` numbers stand one after
   another in `rows`, which has `numbers` numbers in all. Where `tagged` is true, row i has the tag i of `tags`; else its tag is its id.
   The reply is that of `load`. Rows of another width than the index's are refused. Status 2: `numbers` is not `count` times `width`,
   `count` is 2^32 or more, or the rows are tagged and `tags_count` is not `count`. No log comes to `log`. */
uint8_t mtree_load_plan(const uint8_t *file, size_t file_size, const uint32_t *rows, size_t numbers, size_t width, size_t count,
                        bool tagged, const uint64_t *tags, size_t tags_count, struct mtree_step *steps, size_t steps_room,
                        uint8_t *written, size_t written_room, uint8_t *text, size_t text_room, uint8_t *log, size_t log_room,
                        struct mtree_plan_sizes *sizes);

/* What mtree_session_plan does, for an insert of each row, in order. All else is as in mtree_load_plan, with the replies of `insert`. */
uint8_t mtree_insert_plan(const uint8_t *file, size_t file_size, const uint32_t *rows, size_t numbers, size_t width, size_t count,
                          bool tagged, const uint64_t *tags, size_t tags_count, struct mtree_step *steps, size_t steps_room,
                          uint8_t *written, size_t written_room, uint8_t *text, size_t text_room, uint8_t *log, size_t log_room,
                          struct mtree_plan_sizes *sizes);

#ifdef __cplusplus
}
#endif

#endif
