/* The words, in the order of `cgx --help`. A new one is a line here and a file of its own, which defines word_NAME. */
#define WORDS(WORD) \
    WORD(check)     \
    WORD(list)      \
    WORD(dump)      \
    WORD(normal)    \
    WORD(labels)
