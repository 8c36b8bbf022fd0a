/* Message ids of Table Services, as by default. */
#ifndef CFE_MSGIDS_H
#define CFE_MSGIDS_H

#define CFE_TBL_CMD_MID 0x1804
#define CFE_TBL_SEND_HK_MID 0x180C

#endif
