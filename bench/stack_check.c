/* The stack that one check of the case file on standard input takes, beside the memory that is lent to it.
 * usage: stack_check < FILE      prints the refusal's number and places, the total, and the bytes of stack that were written
 * The check has a stack of 20,480 bytes and no more: below it is a page that cannot be touched, so a check that needs more ends the program. The stack is painted first, and what has lost its paint was used.
 * It is checked once before on the usual stack, for the answer, and because the first call of a function of the C library runs the loader, which is no part of the check. */
#include <bolgverk.h>
#include <stdio.h>
#include <string.h>
#include <sys/mman.h>

enum { PAGE = 4096, MOST = 5 * PAGE, PAINT = 0xa5 };

struct answer {
    uint64_t numbers[BOLGVERK_NUMBERS], place, second, refused;
};

static uint8_t file[5000000];
static size_t length;
static struct answer answer;

static void check(void)
{
    answer.refused = bolgverk_check(file, length, 65535, answer.numbers, BOLGVERK_NUMBERS, &answer.place, &answer.second);
}

/* Calls f on the stack that ends at top. */
static void call_on(uint8_t *top, void (*f)(void))
{
    __asm__ volatile("movq %%rsp, %%rbx\n\tmovq %0, %%rsp\n\tcallq *%1\n\tmovq %%rbx, %%rsp"
                     :
                     : "r"(top), "r"(f)
                     : "rax", "rbx", "rcx", "rdx", "rsi", "rdi", "r8", "r9", "r10", "r11", "xmm0", "xmm1", "xmm2", "xmm3", "xmm4", "xmm5", "xmm6", "xmm7", "xmm8", "xmm9", "xmm10", "xmm11",
                       "xmm12", "xmm13", "xmm14", "xmm15", "cc", "memory");
}

int main(void)
{
    length = fread(file, 1, sizeof file, stdin);
    check();
    struct answer usual = answer;
    uint8_t *guard = mmap(NULL, PAGE + MOST, PROT_READ | PROT_WRITE, MAP_PRIVATE | MAP_ANONYMOUS, -1, 0), *stack = guard + PAGE;
    if (guard == MAP_FAILED || mprotect(guard, PAGE, PROT_NONE))
        return 2;
    memset(stack, PAINT, MOST);
    memset(&answer, 0, sizeof answer);
    call_on(stack + MOST, check);
    unsigned left = 0;
    while (left < MOST && stack[left] == PAINT)
        left++;
    printf("%lu %lu %lu %lu, stack %u bytes of %u\n", answer.refused, answer.place, answer.second, answer.numbers[0], MOST - left, MOST);
    return memcmp(&answer, &usual, sizeof answer) != 0;
}
