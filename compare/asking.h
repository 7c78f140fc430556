/* A call of a dock on a record that is lent as bytes, and the two docks that can be asked it: the
 * proved one through its C interface, and the independent one. */
#ifndef ASKING_H
#define ASKING_H

#include <stddef.h>
#include <stdint.h>

enum call_kind { POWER_ON, SCAN, SWAP, FRAME, READ, INDICATORS, SCANNING, CALL_KINDS };

struct call {
    enum call_kind kind;
    const uint8_t *bytes; /* of a scan or a map */
    size_t length;
    uint32_t frame;
};

typedef int32_t ask(void *record, size_t size, const struct call *call);

struct asking {
    const char *name;
    ask *proved, *independent;
};

/* By the kind of the call. */
extern const struct asking asking[CALL_KINDS];

/* The call that a line of the bench is; the bytes of a scan or map are put into `bytes`. A line that
 * is malformed is passed as it stands, as a scan if it is short and else as a map: so these come in
 * many lengths. */
enum { LINE_BYTES_MAX = 288 };
struct call call_of_line(const char *line, size_t length, uint8_t bytes[LINE_BYTES_MAX]);

#endif
