/*
 * OpenVX's calls for the vision server Feqyldan.
 *
 * Names, types, numbers and signatures are those of OpenVX 1.3, as far as they could be checked.
 * docs/from_openvx.md lists the calls that the server can't serve. Nearly all of them return
 * VX_ERROR_NOT_SUPPORTED, or an object with that status. This library is not a conformant
 * implementation of OpenVX.
 *
 * The environment says where the server is. FEQYLDAN_SOCKET is the path of a socket. Without it,
 * each context has a server of its own: the program FEQYLDAN_PROGRAM if that is set; else the
 * server's library in this process if it is found; else `feqyldan` or `vx_main` from PATH.
 * FEQYLDAN_SERVER chooses between the library and a program (docs/from_openvx.md).
 * FEQYLDAN_QUOTA limits the bytes of a context's samples on a server of its own, and
 * FEQYLDAN_TIMEOUT the seconds for which a program or a socket may neither take nor send a byte
 * while a call waits. Several threads may use one context. A child of fork() can't use its
 * parent's contexts.
 *
 * Every function may return these errors, which aren't repeated below:
 *
 *   VX_ERROR_INVALID_REFERENCE   a reference is NULL, was released, or is of another type
 *   VX_ERROR_INVALID_SCOPE       a reference belongs to another context
 *   VX_ERROR_INVALID_PARAMETERS  another required argument is NULL
 *   VX_ERROR_NO_MEMORY           there is no memory; nothing has changed, except that earlier parts
 *                                of a graph with scalar links may have run
 *   VX_FAILURE                   the server has ended or is late; a log entry says which
 *
 * A function that makes an object returns NULL only if its first argument isn't valid. Otherwise
 * vxGetStatus of the object gives the error. If the first argument is an object that couldn't be
 * made, the function returns that object.
 */
#ifndef VX_VX_H
#define VX_VX_H

#include <VX/vx_vendors.h>

#include <VX/vx_types.h>

#include <VX/vx_kernels.h>

#include <VX/vx_api.h>

#include <VX/vx_nodes.h>

#ifdef VX_USE_COMPATIBILITY
#include <VX/vx_compatibility.h>
#endif

#endif
