/* The header's own words: versions, the names of kinds and refusals; and at last, whether the tests have seen every answer. */
#include "asked.h"

#include <string.h>

void test_words(void) {
    uint32_t i;
    expect(cgx_version() == CGX_VERSION, "version", "of header and archive");
    expect(cgx_version_fits() != 0, "version", "fits");
    expect(CGX_VERSION == CGX_VERSION_MAJOR * 65536 + CGX_VERSION_MINOR, "version", "of two numbers");
    expect(strcmp(cgx_kind_name(CGX_LIBRARY), "LIBRARY") == 0 && strcmp(cgx_kind_name(CGX_SREF), "SREF") == 0
            && strcmp(cgx_kind_name(CGX_ENDLIB), "ENDLIB") == 0, "kinds", "have names");
    expect(strcmp(cgx_kind_name(11), "unknown") == 0 && strcmp(cgx_kind_name(UINT32_MAX), "unknown") == 0, "kinds",
        "above 10 have none");
    for (i = 1; i <= CGX_REFUSED_NO_SUCH; i++) {
        expect(strcmp(cgx_refusal_words(i), "not refused") != 0, "refusals", "have words");
    }
    expect(strcmp(cgx_refusal_words(CGX_OK), "not refused") == 0 && strcmp(cgx_refusal_words(17), "not refused") == 0
            && strcmp(cgx_refusal_words(CGX_INEXACT), "not refused") == 0, "refusals", "other answers have none");
    for (i = 1; i <= CGX_REFUSED_NO_SUCH; i++) expect(cgx_is_refused(i) != 0, "refusals", "are told from other answers");
    for (i = CGX_DONE; i <= CGX_INEXACT; i++) expect(cgx_is_refused(i) == 0, "answers", "that are no refusals");
    expect(cgx_is_refused(CGX_OK) == 0, "answers", "OK is no refusal");
    for (i = CGX_OK; i <= CGX_INEXACT; i++) {
        bool named = i <= CGX_REFUSED_NO_SUCH || i >= CGX_DONE;
        expect(was_seen(i) == named, "answers", "each that is named has been given, and no other");
    }
}
