/* What the program was built of, in the words of `cvl_build`: `readelf -p .cvl_build PROGRAM` prints it, and no code reads it. */
#include <cvl.h>

__attribute__((section(".cvl_build"), used, retain)) static const char build[] = CVL_VERSION " " CVL_REVISION " x86-64-v2";
