#include "machine.h"

#include <stdio.h>
#include <sys/utsname.h>

#ifdef __clang__
#define COMPILER __VERSION__
#else
#define COMPILER "gcc " __VERSION__
#endif

/* The processor's name where the system tells it, otherwise its kind. */
void print_machine(void)
{
    char line[256];
    char name[256] = "unknown processor";
    struct utsname system;
    FILE *file = fopen("/proc/cpuinfo", "r");
    int found = 0;

    while (file != NULL && !found && fgets(line, sizeof line, file) != NULL)
        found = sscanf(line, "model name : %255[^\n]", name) == 1;
    if (file != NULL)
        fclose(file);
    if (!found && uname(&system) == 0)
        snprintf(name, sizeof name, "%s", system.machine);
    printf("%s; %s", name, COMPILER);
}
