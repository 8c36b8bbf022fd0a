/* SPDX-License-Identifier: Apache-2.0 */
/* cfetbl_version.h: the version of these headers and of their library. tools/publish/version-header makes it. */
#ifndef CFETBL_VERSION_H
#define CFETBL_VERSION_H

#define CFETBL_VERSION "1.0.0"
#define CFETBL_MAJOR_VERSION 1
#define CFETBL_MINOR_VERSION 0
#define CFETBL_REVISION 0

#endif
