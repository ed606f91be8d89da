/* Takes words as `rate` does and reads nothing: bin/rate asks it before it proves and builds. Status 3 says that there is
 * something to rate. */
#include "words.h"

int main(int argc, char **argv)
{
    (void)argc;
    take_words(argv);
    return 3;
}
