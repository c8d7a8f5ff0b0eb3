/* Carries the statements of bench/statements.txt out in plain SQLite, WAL and synchronous=FULL, and prints for each kind of call the
 * median seconds of its statements. It takes a file that has the desk's tables, the list of statements, and how often each round is
 * to be carried out. In the list a line `= KIND` begins a call, and each further line is a statement: its text and, behind a tab
 * each, its values; a value is NULL where it is `~`, a number where it begins with `#`, else a text, in which `@` stands for the
 * number of the round, so that each round has names of its own. Each text is prepared once. Under callgrind the instructions of each
 * kind are written for the last round. */
#include <sqlite3.h>
#include <stdio.h>
#include <stdlib.h>
#include <string.h>
#include <time.h>
#include <valgrind/callgrind.h>

enum { MOST_CALLS = 64, MOST_LINES = 1024, MOST_TEXTS = 128, MOST_TURNS = 1024, MOST_BYTES = 8192 };

static sqlite3 *base;
static struct { char *text; sqlite3_stmt *statement; } texts[MOST_TEXTS];
static int text_count;
static struct { char *kind; int first, last; double seconds[MOST_TURNS]; } calls[MOST_CALLS];
static int call_count;
static char *lines[MOST_LINES];
static int line_count;

static void check(int code, int wanted) {
    if (code != wanted) {
        fprintf(stderr, "%s\n", sqlite3_errmsg(base));
        exit(1);
    }
}

static sqlite3_stmt *prepared(const char *text) {
    for (int i = 0; i < text_count; i++)
        if (strcmp(texts[i].text, text) == 0) return texts[i].statement;
    if (text_count == MOST_TEXTS) exit(1);
    texts[text_count].text = strdup(text);
    check(sqlite3_prepare_v2(base, text, -1, &texts[text_count].statement, NULL), SQLITE_OK);
    return texts[text_count++].statement;
}

static void carry_out(const char *line, int turn) {
    char copy[MOST_BYTES], *rest = copy, *word;
    if (strlen(line) >= sizeof copy) exit(1);
    strcpy(copy, line);
    sqlite3_stmt *statement = prepared(strsep(&rest, "\t"));
    for (int at = 1; (word = strsep(&rest, "\t")) != NULL; at++) {
        char value[256], *mark = strchr(word, '@');
        if (strcmp(word, "~") == 0) {
            check(sqlite3_bind_null(statement, at), SQLITE_OK);
        } else if (word[0] == '#') {
            check(sqlite3_bind_int64(statement, at, atoll(word + 1)), SQLITE_OK);
        } else {
            if (mark) snprintf(value, sizeof value, "%.*s%06d%s", (int)(mark - word), word, turn, mark + 1);
            else snprintf(value, sizeof value, "%s", word);
            check(sqlite3_bind_text(statement, at, value, -1, SQLITE_TRANSIENT), SQLITE_OK);
        }
    }
    int code;
    while ((code = sqlite3_step(statement)) == SQLITE_ROW)
        for (int column = 0; column < sqlite3_column_count(statement); column++) (void)sqlite3_column_text(statement, column);
    check(code, SQLITE_DONE);
    check(sqlite3_reset(statement), SQLITE_OK);
}

static double now(void) {
    struct timespec time;
    clock_gettime(CLOCK_MONOTONIC, &time);
    return (double)time.tv_sec + (double)time.tv_nsec * 1e-9;
}

static int by_size(const void *left, const void *right) {
    double a = *(const double *)left, b = *(const double *)right;
    return (a > b) - (a < b);
}

int main(int argc, char **argv) {
    static char line[MOST_BYTES];
    if (argc != 4) return 2;
    int turns = atoi(argv[3]);
    FILE *list = fopen(argv[2], "r");
    if (turns < 1 || turns > MOST_TURNS || list == NULL) return 2;
    while (fgets(line, sizeof line, list) != NULL) {
        line[strcspn(line, "\n")] = 0;
        if (strncmp(line, "= ", 2) == 0) {
            if (call_count == MOST_CALLS) return 1;
            calls[call_count].kind = strdup(line + 2);
            calls[call_count].first = calls[call_count].last = line_count;
            call_count++;
        } else if (call_count > 0 && line[0]) {
            if (line_count == MOST_LINES) return 1;
            lines[line_count++] = strdup(line);
            calls[call_count - 1].last = line_count;
        }
    }
    fclose(list);
    check(sqlite3_open(argv[1], &base), SQLITE_OK);
    check(sqlite3_exec(base, "PRAGMA journal_mode=WAL; PRAGMA synchronous=FULL", NULL, NULL, NULL), SQLITE_OK);
    for (int turn = 0; turn < turns; turn++)
        for (int i = 0; i < call_count; i++) {
            CALLGRIND_ZERO_STATS;
            double begun = now();
            for (int at = calls[i].first; at < calls[i].last; at++) carry_out(lines[at], turn + 1);
            calls[i].seconds[turn] = now() - begun;
            if (turn == turns - 1) CALLGRIND_DUMP_STATS_AT(calls[i].kind);
        }
    for (int i = 0; i < call_count; i++) {
        qsort(calls[i].seconds, (size_t)turns, sizeof(double), by_size);
        printf("%s %.9f\n", calls[i].kind, calls[i].seconds[turns / 2]);
    }
    return 0;
}
