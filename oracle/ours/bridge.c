/* The proved crates as a program of their own, for a machine whose processor the
   archive is not for. It reads a block of messages (src/message.rs) behind its
   length, and writes all answers behind theirs. At the end of its input it ends. */

typedef unsigned long u64;
typedef unsigned int u32;
typedef unsigned char u8;

enum { READ = 0, WRITE = 1, EXIT = 231, MOST = 1 << 21 };
enum { FILE, BITVEC, CHECK, WORDS, RULE, VALUES, STEP, SOLVE, LIST };

/* What an unwritten entry holds, so that it is not taken for an answer. */
static const u64 UNWRITTEN = 0xdeadbeefdeadbeef;

void bitvec_op(u64 op, u64 a, u64 b, u64 *out, u64 out_len);
void check_file(const u8 *file, u64 file_len, u64 *out, u64 out_len);
void rule_op(u64 rule, u64 op, u64 side, u64 s, u64 t, const u64 *words, u64 words_len,
             u64 at, u64 *out, u64 out_len);
void step_op(const u8 *file, u64 file_len, const u64 *words, u64 words_len,
             const u64 *values, u64 values_len, u32 node, u64 target, u64 at,
             u64 *out, u64 out_len);
void solve_file(const u8 *file, u64 file_len, const u64 *words, u64 words_len, u32 budget,
                u64 *values, u64 values_len, u64 *out, u64 out_len);
void list_file(const u8 *file, u64 file_len, u8 *buffer, u64 buffer_len,
               u64 *out, u64 out_len);

/* No answer is more than three times as long as its message. */
static u64 block[MOST], answers[1 + 3 * MOST], *end;

/* What is lent lies in the block. */
static const u64 *file, *words, *values;
static u64 file_len, words_len, values_len;

static long call(long number, long a, long b, long c)
{
    long result;
    __asm__ volatile("syscall"
                     : "=a"(result)
                     : "a"(number), "D"(a), "S"(b), "d"(c)
                     : "rcx", "r11", "memory");
    return result;
}

/* Reads or writes exactly this many numbers, or ends the program. */
static void move(long number, long from, u64 *place, u64 count)
{
    char *at = (char *)place;
    char *behind = (char *)(place + count);
    while (at < behind) {
        long moved = call(number, from, (long)at, behind - at);
        if (moved <= 0)
            call(EXIT, moved < 0, 0, 0);
        at += moved;
    }
}

/* Room for an answer, behind those that are there. */
static u64 *room(u64 count)
{
    u64 *out = end;
    for (; end < out + count; end++)
        *end = UNWRITTEN;
    return out;
}

static void solve(u32 budget, u64 *lent, u64 lent_len)
{
    u64 *out = room(6 + lent_len);
    solve_file((const u8 *)file, file_len, words, words_len, budget, lent, lent_len, out, 6);
    for (u64 i = 0; i < lent_len; i++)
        out[6 + i] = lent[i];
}

/* The buffer lies in the block, and may end within its last number. */
static void list(u64 *buffer, u64 buffer_len, u64 count)
{
    u64 *out = room(2 + count);
    list_file((const u8 *)file, file_len, (u8 *)buffer, buffer_len, out, 2);
    for (u64 i = 0; i < count; i++)
        out[2 + i] = buffer[i];
}

static void answer(u64 function, u64 *q, u64 count)
{
    if (function == FILE)
        file = q + 1, file_len = q[0];
    else if (function == BITVEC)
        bitvec_op(q[0], q[1], q[2], room(2), 2);
    else if (function == CHECK)
        check_file((const u8 *)file, file_len, room(3), 3);
    else if (function == WORDS)
        words = q, words_len = count;
    else if (function == RULE)
        rule_op(q[0], q[1], q[2], q[3], q[4], words, words_len, q[5], room(3), 3);
    else if (function == VALUES)
        values = q, values_len = count;
    else if (function == STEP)
        step_op((const u8 *)file, file_len, words, words_len, values, values_len,
                q[0], q[1], q[2], room(6), 6);
    else if (function == SOLVE)
        solve(q[0], q + 1, count - 1);
    else if (function == LIST)
        list(q + 1, q[0], count - 1);
    else
        call(EXIT, 3, 0, 0);
}

__attribute__((force_align_arg_pointer)) void _start(void)
{
    for (;;) {
        u64 size;
        move(READ, 0, &size, 1);
        if (size > MOST)
            call(EXIT, 2, 0, 0);
        move(READ, 0, block, size);
        end = answers + 1;
        for (u64 at = 0; at < size; at += 1 + (block[at] >> 8))
            answer(block[at] & 255, block + at + 1, block[at] >> 8);
        answers[0] = end - answers - 1;
        move(WRITE, 1, answers, end - answers);
    }
}
