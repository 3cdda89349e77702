/* The results of the register's calls in plain words (register.h). Compiled with the caller's program: text is no
 * matter of proof, and the archive has none. The Rust wrapper's `Refusal::text` has the same words. */
#include "register.h"

const char *register_refusal_text(uint32_t result) {
    switch (result) {
    case REGISTER_ACCEPTED: return "accepted";
    case REGISTER_SETTINGS: return "settings outside their limits";
    case REGISTER_SHORT_HEAD: return "the store has fewer than 16 words";
    case REGISTER_HEAD: return "the head is not a register's";
    case REGISTER_SHORT_STORE: return "the store is shorter than its layout";
    case REGISTER_TIME_OPEN: return "the time is OPEN, which is no second";
    case REGISTER_EARLY: return "the second is earlier than the clock";
    case REGISTER_LATE: return "the second is later than the clock";
    case REGISTER_TAG: return "the register has no such tag";
    case REGISTER_STANDING: return "the tag stands already";
    case REGISTER_NOT_STANDING: return "the tag does not stand";
    case REGISTER_SHORT_BUFFER: return "the row buffer or the list is too short";
    case REGISTER_UNSOUND: return "a link, place or tag in the store is unsound";
    case REGISTER_OUT_OF_BLOCKS: return "no block is left";
    case REGISTER_REVERSED: return "the window ends before it begins";
    default: return "no refusal that this version knows";
    }
}
