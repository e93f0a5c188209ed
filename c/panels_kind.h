/* One kind of panels.c, which defines REAL, KIND (its number in a file), READ, ELEMENT, FOUND (what ELEMENT answers) and NAME. */

static REAL NAME(number)(size_t x) {
    return (REAL)1 / (REAL)(x + 3);
}

/* A file with one thing wrong or none, read into so many numbers. */
static void NAME(read)(const setting *s) {
    size_t count = (size_t)s->rows * s->columns, exact = HEAD + count * sizeof(REAL), bytes[AREAS] = {0};
    bytes[BYTES] = s->fault == HEWN_FILE_SHORT ? HEAD - s->by : s->fault == HEWN_WRONG_LENGTH ? exact + s->by : exact;
    size_t room = s->fault == HEWN_NO_ROOM ? count - 1 : count + s->spare;
    bytes[NUMBERS] = room * sizeof(REAL);
    describe(s, KIND, bytes);
    for (int which = 0; which < AREAS; which++) {
        allow(which, PROT_READ | PROT_WRITE);
        memset(margin(which, bytes[which]), MARK, MARGIN);
    }

    /* the lowest byte of each number first, as this processor has it in memory too */
    unsigned char *made = calloc(1, exact + 1), *file = slice(BYTES, bytes[BYTES]);
    REAL *numbers = (REAL *)(void *)slice(NUMBERS, bytes[NUMBERS]);
    if (made == NULL) fail("no memory");
    put_head(made, s, KIND);
    for (size_t x = 0; x < count; x++) {
        REAL number = NAME(number)(x);
        memcpy(made + HEAD + x * sizeof number, &number, sizeof number);
    }
    if (bytes[BYTES] > 0) memcpy(file, made, bytes[BYTES]);
    if (room > 0) memset(numbers, 0xFF, bytes[NUMBERS]);
    allow(BYTES, PROT_READ);
    if (s->fault != HEWN_DONE) allow(NUMBERS, PROT_READ);

    hewn_header head = READ(file, bytes[BYTES], numbers, room);
    if (head.answer != s->fault) fail(hewn_answer_text(head.answer));
    size_t filled = s->fault == HEWN_DONE ? count * sizeof(REAL) : 0;
    if (filled > 0 && memcmp(numbers, made + HEAD, filled) != 0) fail("the numbers are not the file's");
    for (size_t x = filled; x < bytes[NUMBERS]; x++)
        if (((unsigned char *)numbers)[x] != 0xFF) fail("a number was changed that may not be");
    if (s->fault == HEWN_DONE ? head.version != 1 || head.rows != s->rows || head.columns != s->columns
                              : head.version != 0 || head.rows != 0 || head.columns != 0)
        fail("the head is not the file's");
    for (int which = 0; which < AREAS; which++) margin_kept(which, bytes[which]);
    free(made);
    *(s->fault == HEWN_DONE ? &done : &refused) += 1;
}

/* The element at a place, with so many numbers. */
static void NAME(element)(const REAL *numbers, size_t count, const setting *s, size_t row, size_t column) {
    size_t place = row * s->columns + column;
    int inside = row < s->rows && column < s->columns && place < count;
    FOUND found = ELEMENT(numbers, count, s->rows, s->columns, row, column);
    REAL expected = inside ? NAME(number)(place) : 0;
    if (found.answer != (inside ? HEWN_DONE : HEWN_OUTSIDE_PANEL)) fail(hewn_answer_text(found.answer));
    if (inside ? found.element != expected : found.element == found.element) fail("the element is not the panel's");
    *(inside ? &done : &refused) += 1;
}

/* Places in and around a shape, near and far, of a panel with so many numbers. */
static void NAME(elements)(const setting *s, size_t count) {
    size_t bytes[AREAS] = {0, count * sizeof(REAL)};
    REAL *numbers = (REAL *)(void *)slice(NUMBERS, bytes[NUMBERS]);
    describe(s, KIND, bytes);
    allow(NUMBERS, PROT_READ | PROT_WRITE);
    for (size_t x = 0; x < count; x++) numbers[x] = NAME(number)(x);
    allow(NUMBERS, PROT_READ);
    for (size_t row = 0; row < (size_t)s->rows + 2; row = after(row, s->rows))
        for (size_t column = 0; column < (size_t)s->columns + 2; column = after(column, s->columns)) {
            NAME(element)(numbers, count, s, row, column);
            NAME(element)(numbers, count, s, SIZE_MAX - row, column);
            NAME(element)(numbers, count, s, row, SIZE_MAX - column);
            NAME(element)(numbers, count, s, SIZE_MAX - row, SIZE_MAX - column);
        }
}

/* The last element of the largest panel, of which only the last page is there. */
static void NAME(largest)(void) {
    size_t page = (size_t)sysconf(_SC_PAGESIZE), side = 65535, bytes = side * side * sizeof(REAL), pages = (bytes / page + 2) * page;
    snprintf(what, sizeof what, "the largest panel of kind %d\n", KIND);
    unsigned char *start = mmap(NULL, pages, PROT_NONE, MAP_PRIVATE | MAP_ANONYMOUS | MAP_NORESERVE, -1, 0);
    if (start == MAP_FAILED) {
        printf("panels: the largest panel of kind %d was not tried: no room for %zu bytes\n", KIND, pages);
        return;
    }
    unsigned char *end = start + pages - page;
    if (mprotect(end - page, page, PROT_READ | PROT_WRITE) != 0) fail("mprotect");
    REAL *numbers = (REAL *)(void *)(end - bytes);
    numbers[side * side - 1] = 5;
    FOUND last = ELEMENT(numbers, side * side, 65535, 65535, 65534, 65534);
    if (last.answer != HEWN_DONE || last.element != 5) fail(hewn_answer_text(last.answer));
    if (ELEMENT(numbers, side * side - 1, 65535, 65535, 65534, 65534).answer != HEWN_OUTSIDE_PANEL) fail("beyond the numbers");
    munmap(start, pages);
    done += 1, refused += 1;
}

#undef REAL
#undef KIND
#undef READ
#undef ELEMENT
#undef FOUND
#undef NAME
