/*
 * The words and the version of include/rimesatchel.h as functions, for those who load the shared library and can't read a
 * header. The archive doesn't have them: it holds what is proved, and nothing else.
 */
#include "rimesatchel.h"

const char *rime_refusal_words(unsigned number);
const char *rime_version(void);

const char *rime_refusal_words(unsigned number) {
    return rime_refusal_text(number);
}

const char *rime_version(void) {
    return RIME_VERSION;
}
