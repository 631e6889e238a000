/* Two stacks in one thread: the engine's program runs on one of its own, and goes over to the host's where it waits. */
#define _GNU_SOURCE
#include "engine.h"

#include <stdlib.h>
#include <string.h>
#include <sys/mman.h>

#ifdef __SANITIZE_ADDRESS__
#include <sanitizer/common_interface_defs.h>
#endif
#ifdef BB_VALGRIND
#include <valgrind/valgrind.h>
#endif

enum { PAGE = 4096, GUARD = 1 << 20 };

/* Keeps on this stack what a callee keeps in the System V ABI of x86-64 (six registers, and the modes of both
   floating-point units), leaves its pointer in *from, and takes the same from the stack `to`. */
__attribute__((naked, noinline)) static void switch_stacks(void **from __attribute__((unused)),
                                                           void *to __attribute__((unused)))
{
    __asm__("pushq %rbp\n\tpushq %rbx\n\tpushq %r12\n\tpushq %r13\n\tpushq %r14\n\tpushq %r15\n\t"
            "subq $8, %rsp\n\tstmxcsr (%rsp)\n\tfnstcw 4(%rsp)\n\t"
            "movq %rsp, (%rdi)\n\tmovq %rsi, %rsp\n\t"
            "ldmxcsr (%rsp)\n\tfldcw 4(%rsp)\n\taddq $8, %rsp\n\t"
            "popq %r15\n\tpopq %r14\n\tpopq %r13\n\tpopq %r12\n\tpopq %rbx\n\tpopq %rbp\n\tret");
}

/* As if `run` had been called at the top of the stack, and had called switch_stacks at once: no address to return to,
   that of `run`, six registers, and the modes that a process begins with. Where `run` begins, its stack pointer is 8
   bytes past a multiple of 16, as after a call. */
static void lay_out(struct bb_stack *stack, void (*run)(void))
{
    uint64_t *top = (uint64_t *)(void *)(stack->mapping + GUARD + stack->bytes) - 1;
    uint32_t modes[2] = {0x1f80, 0x037f};
    memset(top - 8, 0, 9 * sizeof *top);
    top[-1] = (uint64_t)(uintptr_t)run;
    memcpy(top - 8, modes, sizeof modes);
    stack->engine = top - 8;
}

bool bb_map_stack(struct bb_stack *stack, size_t bytes, void (*run)(void))
{
    int flags = MAP_PRIVATE | MAP_ANONYMOUS | MAP_NORESERVE | MAP_STACK;
    stack->bytes = (bytes + PAGE - 1) / PAGE * PAGE;
    stack->mapping = mmap(NULL, GUARD + stack->bytes, PROT_NONE, flags, -1, 0);
    if (stack->mapping == MAP_FAILED)
        return false;
    if (mprotect(stack->mapping + GUARD, stack->bytes, PROT_READ | PROT_WRITE)) {
        munmap(stack->mapping, GUARD + stack->bytes);
        return false;
    }
    /* A stack that is hardly used would take 2 MiB as one huge page. Where the kernel has none, nothing is lost. */
    (void)madvise(stack->mapping + GUARD, stack->bytes, MADV_NOHUGEPAGE);
#ifdef BB_VALGRIND
    stack->number = VALGRIND_STACK_REGISTER(stack->mapping + GUARD, stack->mapping + GUARD + stack->bytes);
#endif
    lay_out(stack, run);
    return true;
}

void bb_unmap_stack(struct bb_stack *stack)
{
#ifdef BB_VALGRIND
    VALGRIND_STACK_DEREGISTER(stack->number);
#endif
    munmap(stack->mapping, GUARD + stack->bytes);
}

size_t bb_stack_in_memory(const struct bb_stack *stack)
{
    size_t pages = stack->bytes / PAGE, count = 0;
    unsigned char *in_memory = malloc(pages);
    if (in_memory && mincore(stack->mapping + GUARD, stack->bytes, in_memory) == 0)
        for (size_t at = 0; at < pages; at++)
            count += in_memory[at] & 1;
    free(in_memory);
    return count * PAGE;
}

/* The address sanitizer is told on which stack the thread goes on. */
#ifdef __SANITIZE_ADDRESS__

void bb_to_engine(struct bb_stack *stack)
{
    void *fake;
    __sanitizer_start_switch_fiber(&fake, stack->mapping + GUARD, stack->bytes);
    switch_stacks(&stack->host, stack->engine);
    __sanitizer_finish_switch_fiber(fake, NULL, NULL);
}

void bb_to_host(struct bb_stack *stack)
{
    __sanitizer_start_switch_fiber(&stack->fake, stack->host_bottom, stack->host_bytes);
    switch_stacks(&stack->engine, stack->host);
    __sanitizer_finish_switch_fiber(stack->fake, &stack->host_bottom, &stack->host_bytes);
}

void bb_arrived(struct bb_stack *stack)
{
    __sanitizer_finish_switch_fiber(NULL, &stack->host_bottom, &stack->host_bytes);
}

#else

void bb_to_engine(struct bb_stack *stack)
{
    switch_stacks(&stack->host, stack->engine);
}

void bb_to_host(struct bb_stack *stack)
{
    switch_stacks(&stack->engine, stack->host);
}

void bb_arrived(struct bb_stack *stack)
{
    (void)stack;
}

#endif
