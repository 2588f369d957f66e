/* TL2 without validation: neither a read nor the commit looks at versions. So an attempt reads one cell from before another's commit and the next
   from after it, and writes over what it did not see. opaq says `not opaque`.

     cc -std=c11 -O2 -pthread -I examples examples/memories/tl2_unchecked.c -o tl2_unchecked */

#define VALIDATES 0
#include "tl2.c"
