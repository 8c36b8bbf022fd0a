/* Kinds of resets. */
#ifndef CFE_PSP_H
#define CFE_PSP_H

#define CFE_PSP_RST_TYPE_PROCESSOR 1
#define CFE_PSP_RST_TYPE_POWERON 2

#endif
