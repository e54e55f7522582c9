/* Maps the circuits of standard input through the library, each closed by a line `(end)`, and writes each answer in the service's
 * form (tools/check_exports compares with what the Rust answered). A network that is not admitted is followed by a line that says so. */
#include "job.h"

static uint8_t out[FBS_ANSWER_BYTES];

int main(void) {
    size_t length;
    while (next_job(&length)) {
        fbs_reply r = fbs_map(text, length, out, sizeof out);
        if (r.number == FBS_OK) fwrite(out, 1, r.count, stdout);
        else printf("(no %zu %zu)\n", r.number, r.line);
        if (r.number == FBS_OK && fbs_admit(out, r.count).number != FBS_OK) printf("not admitted\n");
        printf("(end)\n");
    }
    return 0;
}
