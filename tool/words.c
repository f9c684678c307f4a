/* Refusals and faults in English. */
#include "../include/board.h"

const char *board_refusal_text(uint8_t refusal) {
    switch (refusal) {
    case BOARD_ACCEPTED: return "accepted";
    case BOARD_CUT_SHORT: return "record cut short, or no end record";
    case BOARD_UNKNOWN_KIND: return "unknown kind";
    case BOARD_NO_THREAD: return "thread not below T";
    case BOARD_NO_LINE: return "line not below L";
    case BOARD_NO_WORD: return "word above 7";
    case BOARD_OUT_OF_RANGE: return "T, L or a length out of range, setup again, before setup, or no accepted cut";
    case BOARD_OUT_OF_PLACE: return "image record out of its place or order, or one too many";
    case BOARD_CONTRADICTION: return "image that contradicts itself";
    case BOARD_AFTER_CUT: return "after a cut";
    case BOARD_NO_OPEN_REGION: return "no open region";
    case BOARD_TOO_DEEP: return "begin at depth 15";
    case BOARD_NUMBERS_SPENT: return "region numbers spent";
    case BOARD_MODIFIED_FULL: return "modified list full";
    case BOARD_CHANNEL_FULL: return "channel full, or its free entries kept for the other party";
    case BOARD_OWNED: return "owner is another thread's open region";
    case BOARD_LOCKED: return "needs a log entry on a line still locked";
    case BOARD_DEPENDENCES_FULL: return "new dependence and four held";
    case BOARD_SLOTS_FULL: return "new slot and eight held";
    case BOARD_LOG_FULL: return "new log entry and 32 held";
    case BOARD_NOT_IN_FLIGHT: return "acknowledgement of nothing in flight";
    case BOARD_UNFIT_PARTIES: return "a party above 1 or of a thread not below T, or reserves above 16 together";
    case BOARD_BEING_READ: return "another thread's open region has read the line";
    case BOARD_NO_BYTE: return "mask 0";
    default: return "no refusal of this board";
    }
}

const char *board_fault_text(uint8_t fault) {
    switch (fault) {
    case 0: return "no fault";
    case BOARD_FAULT_WORD: return "unknown word";
    case BOARD_FAULT_NUMBER: return "not a number";
    case BOARD_FAULT_RANGE: return "number out of range";
    case BOARD_FAULT_MISSING: return "missing number";
    case BOARD_FAULT_EXTRA: return "extra number";
    default: return "no fault of a text";
    }
}
