/*
 * Calls for contexts that OpenVX doesn't have: a connection by arguments, the end of a call from
 * another thread, and the reason of a failure. Statuses are as in VX/vx.h.
 */
#ifndef FEQYLDAN_CONTEXT_H
#define FEQYLDAN_CONTEXT_H

#include <VX/vx.h>

#ifdef __cplusplus
extern "C" {
#endif

/* Which server to use. The environment decides about each member that is NULL or 0, as it does for
   vxCreateContext. At most one of program, socket and server is given. */
typedef struct feqyldan_connection {
    /* The path of a program to start, or of a Unix socket to connect to. */
    const vx_char *program;
    const vx_char *socket;
    /* "core" for a server in this process, or "process" for one that the library starts. */
    const vx_char *server;
    /* The seconds for which the server may neither take nor send a byte, from 0.001 to 1000000. A
       call of a server in this process can't be given up. So with a timeout a process is started,
       unless a socket is given, and "core" is refused. */
    vx_float64 timeout;
    /* If this isn't NULL, it is called with the context before the library connects, so that
       another thread can end the wait by feqyldanCancel. No other call may use the context before
       it is made. If it can't be made, announce is called again, with NULL. */
    void(VX_CALLBACK *announce)(vx_context context, void *argument);
    void *argument;
} feqyldan_connection_t;

/* Makes a context as vxCreateContext does, and empties the fault. NULL: the fault says why in
   `size` bytes of words. */
VX_API_ENTRY vx_context VX_API_CALL feqyldanCreateContext(const feqyldan_connection_t *connection,
                                                          vx_char *fault, vx_size size);

/* Ends the context's connection from any thread. A call that waits for the server returns
   VX_FAILURE without delay, and so does every later one. A call that a server in this process runs
   can't be interrupted: it ends with its own status, and every later one returns VX_FAILURE. The
   context still has to be released. */
VX_API_ENTRY vx_status VX_API_CALL feqyldanCancel(vx_context context);

/* Copies the words of the context's last log entry, up to size - 1 bytes; empty where there was
   none. After a failed call that adds an entry they say why it failed. Calls that add none, such as
   vxCreateImage for a wrong format, leave those of an earlier one. This needs no log callback. */
VX_API_ENTRY vx_status VX_API_CALL feqyldanGetFault(vx_context context, vx_char *fault,
                                                    vx_size size);

#ifdef __cplusplus
}
#endif

#endif
