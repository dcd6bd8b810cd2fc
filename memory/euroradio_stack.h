/*
 * euroradio_stack.h - overwrites the stack below a call with zeros. The library's calls keep keys and messages in their
 * frames while they run, and leave them there: behind euroradio_call the KMAC is found on the stack several times. A
 * program that must wipe calls this, from the same function, behind each call that may have had them:
 *
 *     status = euroradio_call(&end, &settings, me, peer, kmac, random_number, now);
 *     euroradio_stack_wipe();
 *
 * STACK. It takes EURORADIO_STACK_WIPED octets of the stack, which the thread must have: more than any call of the
 * library took as it was measured, by either of the compilers that build it; docs/EMBEDDING.md tells. Define another
 * number as euroradio_stack.c is compiled, where less will do.
 *
 * It doesn't reach registers, nor what a compiler keeps in frames above: the program's own copies are the program's. Do
 * not compile it together with its callers by an optimiser of whole programs (-flto), which could take it into them.
 */
#ifndef EURORADIO_STACK_H
#define EURORADIO_STACK_H

#ifdef __cplusplus
extern "C" {
#endif

#ifndef EURORADIO_STACK_WIPED
#define EURORADIO_STACK_WIPED 98304
#endif

void euroradio_stack_wipe(void);

#ifdef __cplusplus
}
#endif
#endif
