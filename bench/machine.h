/* What the times hold for. */
#ifndef BENCH_MACHINE_H
#define BENCH_MACHINE_H

/* Prints the processor and the C compiler, and ends no line. */
void print_machine(void);

#endif
