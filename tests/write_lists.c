/* Writes traffic lists into a folder, and beside each the sheet that the second program makes of
 * it: 0.list and 0.sheet, and so on. The first are the ones that a program may trip over; the
 * others are at random, good and bad. For tests/compare_run.sh. */
#include "lists.h"

/* The most words that a mesh takes. */
enum { WORDS = 12 * SIDE_MAX * SIDE_MAX };

static bool write_file(const char *folder, unsigned number, const char *ending, const void *bytes,
                       size_t length)
{
    char name[1000];
    snprintf(name, sizeof name, "%s/%u.%s", folder, number, ending);
    FILE *file = fopen(name, "wb");
    if (file == NULL)
        return false;
    bool written = fwrite(bytes, 1, length, file) == length;
    return fclose(file) == 0 && written;
}

static bool write_list(const char *folder, unsigned number, const struct list *list)
{
    static uint16_t words[WORDS];
    uint8_t sheet[SECOND_SHEET_BYTES];
    struct second_written written =
        second_report(list->bytes, list->length, words, WORDS, sheet, sizeof sheet);
    return write_file(folder, number, "list", list->bytes, list->length) &&
           write_file(folder, number, "sheet", sheet, written.length);
}

/* A good list of 64 packets, and the bytes after it, so many in all. */
static struct list overlong(size_t length)
{
    struct list list = some_list((struct mesh){3, 3, XY}, PACKETS_MAX, 2);
    list.length = length;
    return list;
}

/* Bytes of the example, and what they are changed to. */
static const struct {
    size_t at;
    uint8_t byte;
} changes[] = {
    {0, 0x01}, {0, 0x20}, {0, 0x11}, {0, 0xff},            /* sides 1 x 2, 3 x 1, 2 x 2, 16 x 16 */
    {1, 0x00}, {1, 0x80}, {1, 0xa0}, {1, 0xe0},            /* rules 0, 4, 5, 7 */
    {1, 0x21}, {1, 0x22}, {1, 0x24}, {1, 0x28}, {1, 0x30}, /* each spare bit */
    {2, 0x30}, {2, 0x22}, {3, 0x31}, {3, 0x02},            /* off the mesh, each way */
    {3, 0x20},                                             /* the source is the destination */
    {4, 199},  {4, 200},  {4, 255},                        /* flits 200, 201, 256 */
};

static const size_t lengths[] = {193, 194, 195, 196, 197, 1000};

enum {
    CHANGES = sizeof changes / sizeof changes[0],
    LENGTHS = sizeof lengths / sizeof lengths[0],
    CUTS = 8
};

static struct list choose_list(unsigned number)
{
    struct list list = example_list();
    if (number == 0)
        return list;
    number -= 1;
    if (number == 0)
        return new_list(3, 2, WEST_FIRST);
    number -= 1;
    if (number == 0)
        return heaviest_list();
    number -= 1;
    if (number < CHANGES) {
        list.bytes[changes[number].at] = changes[number].byte;
        return list;
    }
    number -= CHANGES;
    if (number < CUTS) {
        list.length = number;
        return list;
    }
    number -= CUTS;
    return number < LENGTHS ? overlong(lengths[number]) : any_list();
}

int main(int argc, char **argv)
{
    if (argc != 3) {
        fprintf(stderr, "usage: write_lists FOLDER COUNT\n");
        return 2;
    }
    for (unsigned number = 0; number < (unsigned)atoi(argv[2]); number++) {
        struct list list = choose_list(number);
        if (!write_list(argv[1], number, &list)) {
            perror("write_lists");
            return 1;
        }
    }
    return 0;
}
