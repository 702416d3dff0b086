/* The types of IEEE 1800's svdpi.h that sv/tlbridge_dpi.c uses, to build the library without a simulator. */
#include <stdint.h>
typedef uint8_t svBit;
typedef uint32_t svBitVecVal;
