/* The stack that the header names is enough for the lists that take the most, and what is named is no more than is needed by much: each line of the
 * input is a list with the bytes of stack that it was seen to take, as bench/harness's `search` writes them,
 *
 *      BYTES r KINDS FLAGS      BYTES p KINDS FLAGS      BYTES c ROW RECORD_WORDS WORDS..
 *
 * It is run in a thread with the stack that the header names, above a page that must not be touched, and must end; and then with 1,024 bytes less than
 * it was seen to take, and must be stopped at that page. */
#define _GNU_SOURCE
#include "../../include/vuolmaset.h"
#include <pthread.h>
#include <signal.h>
#include <stdio.h>
#include <stdlib.h>
#include <string.h>
#include <sys/mman.h>
#include <sys/resource.h>
#include <sys/wait.h>
#include <unistd.h>

/* What a thread takes for itself, and what the two frames below take that lead to the call. */
enum { PAGE = 4096, OWN = 65536, FRAMES = 512, LESS = 1024 };

static char letter;
static uint8_t kinds[VUOLMASET_TOKENS], flags[VUOLMASET_TOKENS];
static uint32_t rows[VUOLMASET_ROW_WORDS], records[VUOLMASET_RECORD_WORDS];
static size_t count, row, record_words;

static char *low;
static size_t bytes;

__attribute__((noinline)) static void call(void) {
    size_t first, second, third;
    if (letter == 'r') {
        vuolmaset_read(kinds, count, flags, count, rows, 6 * count, records, 2 * count, &first, &second, &third);
    } else if (letter == 'p') {
        vuolmaset_pattern(kinds, count, flags, count, rows, 6 * count, records, 2 * count, &first, &second, &third);
    } else {
        vuolmaset_convert(rows, count, row, records, record_words, &first, &second, &third);
    }
}

/* Uses up the stack that is left above the page, but for what the call may have. */
static void *work(void *nothing) {
    char here = 0;
    size_t left = (size_t)(&here - low);
    volatile char spent[left - bytes - FRAMES];
    spent[0] = here;
    call();
    return spent[0] ? NULL : nothing;
}

/* Whether the call ends in a thread with so much stack, and if not, whether it was stopped at the page below. */
static int ends_within(size_t stack) {
    pid_t child = fork();
    if (child == 0) {
        struct rlimit none = {0, 0};
        setrlimit(RLIMIT_CORE, &none);
        size_t size = (stack + OWN + PAGE - 1) / PAGE * PAGE;
        char *memory = mmap(NULL, PAGE + size, PROT_READ | PROT_WRITE, MAP_PRIVATE | MAP_ANONYMOUS, -1, 0);
        pthread_attr_t attributes;
        pthread_t thread;
        low = memory + PAGE;
        bytes = stack;
        int bad = memory == MAP_FAILED || mprotect(memory, PAGE, PROT_NONE) || pthread_attr_init(&attributes) ||
                  pthread_attr_setstack(&attributes, low, size) || pthread_create(&thread, &attributes, work, NULL) || pthread_join(thread, NULL);
        _exit(bad ? 2 : 0);
    }
    int status;
    if (child < 0 || waitpid(child, &status, 0) != child || (WIFEXITED(status) && WEXITSTATUS(status) != 0)) {
        puts("no thread on a stack of its own");
        exit(1);
    }
    return WIFEXITED(status) ? 1 : WIFSIGNALED(status) && WTERMSIG(status) == SIGSEGV ? 0 : -1;
}

static size_t bytes_of(const char *text, uint8_t *to) {
    size_t n = 0;
    for (; n < VUOLMASET_TOKENS && text[2 * n] && text[2 * n + 1]; n++) {
        char digits[3] = {text[2 * n], text[2 * n + 1], 0};
        to[n] = (uint8_t)strtoul(digits, NULL, 16);
    }
    return n;
}

/* Reads a line. */
static size_t take(char *line) {
    size_t seen = strtoul(strtok(line, " \n"), NULL, 10);
    letter = strtok(NULL, " \n")[0];
    if (letter == 'c') {
        row = strtoul(strtok(NULL, " \n"), NULL, 10);
        record_words = strtoul(strtok(NULL, " \n"), NULL, 10);
        count = 0;
        for (char *word = strtok(NULL, " \n"); word && count < VUOLMASET_ROW_WORDS; word = strtok(NULL, " \n")) {
            rows[count++] = (uint32_t)strtoul(word, NULL, 10);
        }
    } else {
        count = bytes_of(strtok(NULL, " \n"), kinds);
        bytes_of(strtok(NULL, " \n"), flags);
    }
    return seen;
}

int main(void) {
    char *line = NULL;
    size_t room = 0, lists = 0;
    while (getline(&line, &room, stdin) > 0) {
        size_t seen = take(line), enough = letter == 'c' ? VUOLMASET_CONVERT_STACK : VUOLMASET_STACK;
        if (ends_within(enough) != 1) {
            printf("%zu bytes of stack are not enough for a list that takes %zu: %c, %zu tokens or words\n", enough, seen, letter, count);
            return 1;
        }
        if (ends_within(seen - LESS) != 0) {
            printf("not stopped with %zu bytes of stack, of a list that takes %zu: %c, %zu tokens or words\n", seen - LESS, seen, letter, count);
            return 1;
        }
        lists++;
    }
    free(line);
    if (lists == 0) {
        puts("no lists");
        return 1;
    }
    printf("C: %zu lists end with the stack that the header names, and are stopped with %d bytes less than they take\n", lists, LESS);
    return 0;
}
