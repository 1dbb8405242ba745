/* Times a whole call against OpenSSL's d2i_CMS_ContentInfo of the same message, in one run, and measures the call's stack.

   bench time NAME FOLDER     prints a line; FOLDER has the files message, image and verdict. The lent buffers are cleared once, before the runs.
   bench calls N FOLDER       makes the call N times and prints nothing (bench/instructions.sh counts its instructions)
   bench stack < CALLS        the most that a call of CALLS takes of the stack; CALLS is input of the program tamp_call (docs/PROGRAMS.md) */
#include <openssl/cms.h>
#include <pthread.h>
#include <stdio.h>
#include <stdlib.h>
#include <string.h>
#include <time.h>

#include "../include/tamp.h"

enum { ROUNDS = 20, RUNS = 500, ROUND_NS = 5000000, STACK = 1 << 20, PAINT = 0xA5 };

static uint8_t message[16384], image[131072], verdict[255], reply[131072], next_store[131072];
static size_t message_len, image_len, verdict_len, reply_room = TAMP_REPLY_ROOM, next_room = TAMP_NEXT_ROOM;

static void fail(const char *what)
{
    fprintf(stderr, "bench: %s\n", what);
    exit(1);
}

static size_t load(const char *folder, const char *name, uint8_t *to, size_t room)
{
    char path[4096];
    snprintf(path, sizeof path, "%s/%s", folder, name);
    FILE *f = fopen(path, "rb");
    if (!f) {
        perror(path);
        exit(1);
    }
    size_t n = fread(to, 1, room, f);
    fclose(f);
    return n;
}

static void load_call(const char *folder)
{
    message_len = load(folder, "message", message, sizeof message);
    image_len = load(folder, "image", image, sizeof image);
    verdict_len = load(folder, "verdict", verdict, sizeof verdict);
}

static size_t number(void)
{
    size_t n = 0;
    for (int i = 0; i < 4; i++)
        n = n << 8 | (unsigned)(getchar() & 0xFF);
    return n;
}

static void fill(uint8_t *to, size_t n, size_t room)
{
    if (n > room)
        fail("a call over the limits of tamp_call");
    if (fread(to, 1, n, stdin) < n)
        fail("a call cut short");
}

/* Reads the next call of standard input; 0 at its end. */
static int read_call(void)
{
    int c = getchar();
    if (c == EOF)
        return 0;
    ungetc(c, stdin);
    message_len = number();
    image_len = number();
    verdict_len = number();
    reply_room = number();
    next_room = number();
    if (reply_room > sizeof reply || next_room > sizeof next_store)
        fail("a call over the limits of tamp_call");
    fill(message, message_len, sizeof message);
    fill(image, image_len, sizeof image);
    fill(verdict, verdict_len, sizeof verdict);
    return 1;
}

static double now(void)
{
    struct timespec t;
    clock_gettime(CLOCK_MONOTONIC, &t);
    return t.tv_sec * 1e9 + t.tv_nsec;
}

static struct tamp_answer call(void)
{
    return tamp_call(message, message_len, image, image_len, verdict, verdict_len, reply, reply_room, next_store, next_room);
}

static void *idle(void *unused)
{
    return unused;
}

static void *one_call(void *unused)
{
    call();
    return unused;
}

/* How much of a painted stack a thread touches. */
static size_t touched(void *(*work)(void *))
{
    uint8_t *stack = aligned_alloc(4096, STACK);
    pthread_attr_t attr;
    pthread_t thread;
    if (!stack)
        fail("no memory");
    memset(stack, PAINT, STACK);
    pthread_attr_init(&attr);
    if (pthread_attr_setstack(&attr, stack, STACK) || pthread_create(&thread, &attr, work, NULL))
        fail("no thread");
    pthread_join(thread, NULL);
    size_t low = 0;
    while (low < STACK && stack[low] == PAINT)
        low++;
    free(stack);
    return STACK - low;
}

static void parse(void)
{
    const unsigned char *p = message;
    CMS_ContentInfo *c = d2i_CMS_ContentInfo(NULL, &p, (long)message_len);
    if (!c)
        fail("OpenSSL does not read the message");
    CMS_ContentInfo_free(c);
}

static void plain_call(void)
{
    call();
}

/* Nanoseconds a run, over as many runs as take about ROUND_NS, RUNS at most. */
static double timed(void (*run)(void))
{
    double t = now();
    int k = 0;
    while (k < RUNS && (k == 0 || now() - t < ROUND_NS)) {
        run();
        k++;
    }
    return (now() - t) / k;
}

static void time_call(const char *name)
{
    size_t stack = touched(one_call) - touched(idle);
    struct tamp_answer a = call();
    double least_call = 1e18, least_parse = 1e18;
    for (int round = 0; round < ROUNDS; round++) {
        double c = timed(plain_call), p = timed(parse);
        least_call = c < least_call ? c : least_call;
        least_parse = p < least_parse ? p : least_parse;
    }
    printf("%-24s message %4zu image %5zu status %3u reply %4llu next %5llu", name, message_len, image_len, a.number,
           (unsigned long long)a.reply_len, (unsigned long long)a.next_len);
    printf("  call %8.0f ns  d2i_CMS_ContentInfo %6.0f ns  ratio %6.2f  stack %6zu octets\n", least_call, least_parse, least_call / least_parse, stack);
}

static void stack_of_calls(void)
{
    size_t base = touched(idle), most = 0, count = 0;
    while (read_call()) {
        size_t stack = touched(one_call) - base;
        most = stack > most ? stack : most;
        count++;
    }
    printf("%zu calls, stack at most %zu octets\n", count, most);
    if (most > TAMP_STACK)
        fail("that is over TAMP_STACK");
}

int main(int argc, char **argv)
{
    const char *what = argc > 1 ? argv[1] : "";
    if (argc == 4 && !strcmp(what, "time")) {
        load_call(argv[3]);
        time_call(argv[2]);
    } else if (argc == 4 && !strcmp(what, "calls")) {
        load_call(argv[3]);
        for (int k = atoi(argv[2]); k > 0; k--)
            call();
    } else if (argc == 2 && !strcmp(what, "stack")) {
        stack_of_calls();
    } else {
        fprintf(stderr, "usage: bench time NAME FOLDER | bench calls N FOLDER | bench stack < CALLS\n");
        return 2;
    }
    return 0;
}
