/* Compiled by tools/archive, which names PK_BUILD, and added to the library's archive. */
#include <pitskhomu.h>

const char *pk_build(void) { return PK_BUILD; }

/* The header's version, for a build that reads the archive before it links it
 * (rust/pitskhomu/build.rs). */
#define PK_TEXT(number) #number
#define PK_TEXT_OF(number) PK_TEXT(number)
__attribute__((used)) static const char version[] = "PK_VERSION " PK_TEXT_OF(PK_VERSION);

#ifdef PK_WARNING
/* GNU ld prints this where a program calls the function: each one that serves a guest does. */
__asm__(".pushsection .gnu.warning.pk_chain_set_memory,\"\",@progbits\n"
        ".ascii \"" PK_WARNING "\"\n"
        ".popsection");
#endif
