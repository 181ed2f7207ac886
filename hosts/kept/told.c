#include "told.h"

const char *told_words(uint8_t told) {
    switch (told) {
    case TPMSIM_NO_DEVICE: return "has no device";
    case TPMSIM_NO_LOCALITY: return "has the localities 0 to 4, and no other";
    case TPMSIM_NO_MEMORY: return "needs memory, and the system gives none";
    case TPMSIM_IMAGE_SHORT: return "holds no image: there are too few bytes";
    case TPMSIM_IMAGE_MAGIC: return "holds no image: the bytes do not begin as one";
    case TPMSIM_IMAGE_VERSION: return "holds an image of a version that this library does not know";
    case TPMSIM_IMAGE_LENGTH: return "holds no image: there are not as many bytes as it says";
    case TPMSIM_IMAGE_DIGEST: return "holds a damaged image: its digest is another";
    case TPMSIM_IMAGE_BODY: return "holds an image of no state that a device can be in";
    case TPMSIM_STATE_SHORT: return "holds no state text: there are too few bytes";
    case TPMSIM_STATE_MAGIC: return "holds no state text: the bytes do not begin as one";
    case TPMSIM_STATE_VERSION:
        return "holds a state text of a version that this library does not know";
    case TPMSIM_STATE_LENGTH: return "holds no state text: there are not as many bytes as it says";
    case TPMSIM_STATE_DIGEST: return "holds a damaged state text: its digest is another";
    case TPMSIM_STATE_BODY: return "holds a state text of no state that a device can be in";
    case TPMSIM_STATE_EARLIER:
        return "holds a state text of version 1, which is no longer read: begin with a new device";
    case TPMSIM_NO_JOURNAL: return "is no journal of a device";
    case TPMSIM_DAMAGED: return "is damaged, and stays as it is";
    case TPMSIM_OTHERWISE:
        return "was written by a library that answers otherwise than this one, and stays as it is";
    default: return "is refused by the library for a reason without a name";
    }
}

bool refuse_told(struct reason *reason, const char *about, const char *name, uint8_t told) {
    refuse(reason, about, name, told_words(told), 0);
    reason->told = told;
    return false;
}
