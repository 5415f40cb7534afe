/*
 * How deep a call of each entry goes on the stack, for the sheet on standard input, and of warm_write for as many steps
 * as a sheet can have. What warm_to_edition_1 is handed is the sheet in edition 2. Each call runs in a process of its
 * own, in which it is the first that needs memcpy or memset, on a stack that was painted before. The bytes count from
 * the stack pointer before the call, so the return address is among them. Linked with -z lazy, the dynamic linker binds
 * memcpy and memset in that call, and its own frames count too. Prints each depth beside the limit of include/warm.h.
 * Ends with status 1 if one is above it, and with 2 if a call gives no full reply, or if warm_to_edition_1 does not
 * give refusal 15 for a sheet that has a unit outside chamber 1.
 */
#define _DEFAULT_SOURCE
#include "warm.h"

#include <stdio.h>
#include <sys/mman.h>
#include <sys/wait.h>
#include <unistd.h>

/* the last 16 bytes of the stack are the caller's, for a word that is not handed over in a register */
enum { SIZE = 1 << 16, DEPTH = SIZE - 16, PAINT = 0xa5 };

static uint8_t sheet[WARM_BYTES + 1], written[WARM_BYTES];
static warm_chamber_step list[WARM_STEPS];
static warm_step steps[WARM_STEPS];
/* shared with the processes of the calls: the verdict needs the number of steps, and the sheet in edition 2 is
   converted back */
static struct {
    warm_steps_reply summary;
    uint8_t raised[WARM_BYTES];
} *shared;
static uint64_t sets[WARM_STEPS], on[WARM_STEPS], off[WARM_STEPS];
static volatile uint8_t region[SIZE] __attribute__((aligned(16)));
static uint64_t first_word;

typedef void any_function(void);

/* Calls a function with six words in registers and a seventh on the painted stack: the bytes of it that changed, from
   below the seventh word down to the lowest. Keeps what the function returns in its first register. */
static size_t depth_of(any_function *entry, const uintptr_t *words)
{
    uintptr_t rdi = words[0], rsi = words[1], rdx = words[2], rcx = words[3], rax;
    register uintptr_t r8 __asm__("r8") = words[4];
    register uintptr_t r9 __asm__("r9") = words[5];
    /* r12 and r13 outlive the call: r12 holds the stack pointer of the caller meanwhile */
    register uintptr_t top __asm__("r12") = (uintptr_t)region + DEPTH;
    register any_function *called __asm__("r13") = entry;
    size_t untouched = 0;

    for (size_t i = 0; i < DEPTH; i++)
        region[i] = PAINT;
    for (size_t i = 0; i < 8; i++)
        region[DEPTH + i] = (uint8_t)(words[6] >> 8 * i);
    __asm__ volatile("xchg %%rsp, %%r12\n\tcall *%%r13\n\tmov %%r12, %%rsp"
                     : "+D"(rdi), "+S"(rsi), "+d"(rdx), "+c"(rcx), "=a"(rax), "+r"(r8), "+r"(r9), "+r"(top)
                     : "r"(called)
                     : "r10", "r11", "cc", "memory", "xmm0", "xmm1", "xmm2", "xmm3", "xmm4", "xmm5", "xmm6", "xmm7", "xmm8", "xmm9", "xmm10",
                     "xmm11", "xmm12", "xmm13", "xmm14", "xmm15");
    first_word = rax;
    while (untouched < DEPTH && region[untouched] == PAINT)
        untouched++;
    return DEPTH - untouched;
}

/* Makes, measures and prints a call in a process of its own: 0, or 1 if it goes deeper than the limit, or 2 if it does
   not give that refusal, which is 0 for a full reply. */
static int measure(const char *name, any_function *entry, size_t limit, uint32_t expected, const uintptr_t *words)
{
    int status = 0;
    pid_t child = fork();
    if (child == 0) {
        size_t depth = depth_of(entry, words);
        /* a reply of up to 16 bytes comes in registers, the refusal in the lower half of the first; a larger one at a
           place that was handed in */
        uint32_t refusal = words[0] == (uintptr_t)&shared->summary ? shared->summary.refusal : (uint32_t)first_word;
        printf("%s: %zu bytes of stack, limit %zu\n", name, depth, limit);
        fflush(stdout);
        _exit(refusal != expected ? 2 : depth > limit);
    }
    if (child < 0 || waitpid(child, &status, 0) != child || !WIFEXITED(status))
        return 2;
    return WEXITSTATUS(status);
}

int main(void)
{
    ssize_t got = read(STDIN_FILENO, sheet, sizeof sheet);
    uintptr_t length = got < 0 ? 0 : (uintptr_t)got;
    shared = mmap(NULL, sizeof *shared, PROT_READ | PROT_WRITE, MAP_SHARED | MAP_ANONYMOUS, -1, 0);
    if (shared == MAP_FAILED)
        return 2;
    const uintptr_t for_steps[] = { (uintptr_t)&shared->summary, (uintptr_t)sheet, length, (uintptr_t)list, WARM_STEPS, 0, 0 };
    int worst = measure("warm_steps", (any_function *)warm_steps, WARM_STACK_STEPS, 0, for_steps);
    const uintptr_t for_plan[] = { (uintptr_t)sheet, length, (uintptr_t)sets, WARM_STEPS, 0, 0, 0 };
    const uintptr_t for_verdict[] = { (uintptr_t)sheet, length, (uintptr_t)sets, shared->summary.steps, 0, 0, 0 };
    const uintptr_t for_chart[] = { (uintptr_t)sheet, length, (uintptr_t)on, WARM_STEPS, (uintptr_t)off, WARM_STEPS, 0 };
    /* a caller may leave anything in the upper half of a register that holds a smaller number */
    const uintptr_t anything = (uintptr_t)0xa5a5a5a5 << 32;
    const uintptr_t for_write[]
        = { WARM_UNITS | anything, anything, UINT64_MAX, (uintptr_t)steps, WARM_STEPS, (uintptr_t)written, WARM_BYTES };
    const uintptr_t raised = (uintptr_t)shared->raised, raised_length = 24 + 32 * (sheet[6] + ((uintptr_t)sheet[7] << 8));
    const uintptr_t for_second[] = { (uintptr_t)sheet, length, raised, WARM_BYTES, 0, 0, 0 };
    const uintptr_t for_first[] = { raised, raised_length, (uintptr_t)written, WARM_BYTES, 0, 0, 0 };
    const uint32_t of_first = shared->summary.chambers[0] < shared->summary.units ? WARM_REFUSAL_OTHER_CHAMBERS : 0;
    /* the last converts what the one before it leaves */
    const struct {
        const char *name;
        any_function *entry;
        size_t limit;
        uint32_t refusal;
        const uintptr_t *words;
    } calls[] = {
        { "warm_plan", (any_function *)warm_plan, WARM_STACK_PLAN, 0, for_plan },
        { "warm_chart", (any_function *)warm_chart, WARM_STACK_CHART, 0, for_chart },
        { "warm_verdict", (any_function *)warm_verdict, WARM_STACK_VERDICT, 0, for_verdict },
        { "warm_write", (any_function *)warm_write, WARM_STACK_WRITE, 0, for_write },
        { "warm_to_edition_2", (any_function *)warm_to_edition_2, WARM_STACK_TO_EDITION_2, 0, for_second },
        { "warm_to_edition_1", (any_function *)warm_to_edition_1, WARM_STACK_TO_EDITION_1, of_first, for_first },
    };
    for (size_t i = 0; i < sizeof calls / sizeof *calls; i++) {
        int found = measure(calls[i].name, calls[i].entry, calls[i].limit, calls[i].refusal, calls[i].words);
        worst = found > worst ? found : worst;
    }
    return worst;
}
