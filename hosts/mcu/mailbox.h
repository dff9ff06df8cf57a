/*
 * mailbox.h: the CAN controller, as the device sees it. A port fills in the three functions from its chip's registers; sds_can.h carries
 * identifier, RTR, DLC and data to a record and back.
 */
#ifndef MAILBOX_H
#define MAILBOX_H

#include "sds_can.h"

/*
 * Starts the controller. Of the bus the device needs only frames to its own address: an acceptance filter of mask 7F8 hex, identifier
 * 8 * address, keeps the others out. Without it they are received and answered 4, that is, not at all.
 */
void mailbox_open(void);

enum mailbox { MAILBOX_EMPTY, MAILBOX_FRAME, MAILBOX_LOST };

/*
 * Gives MAILBOX_FRAME and the oldest frame that has come. Where none has, gives MAILBOX_EMPTY and leaves the record alone; it need not wait,
 * and may: the device has nothing else to do, so this is the place to sleep until an interrupt (WFI). Leave out frames with 29-bit
 * identifiers: they have no record. Never put a record together from two frames.
 *
 * Frames go on coming while the device sends, up to SDS_FRAMES answers in a row. They wait in the controller's FIFO, or in a ring that the
 * receive interrupt fills. Where that is full, and while the controller is off the bus, frames get lost. Give MAILBOX_LOST then, once, behind
 * the last frame that came before the loss and before the first that came after it. A chip that only has a flag for it does not say where in
 * the queue that is: look at the flag after you have taken a frame, and if it is set, reset it, throw that frame and all that wait away, and
 * give MAILBOX_LOST.
 *
 * It matters because a fragment does not say which message it is of. If one message loses its fragments 4 to 7 and the next to the same
 * attribute its 0 to 3, what is left are fragments 0 to 7, which are joined, written and acknowledged: a value that nobody sent. Upon
 * MAILBOX_LOST the device drops all that is half joined, so fragments behind a loss are answered with an Error until a number 0 comes, and the
 * host begins anew. A lost Read, whole Write or short Write is not answered, and the host repeats it. Frames that are lost before they reach
 * the bus are the sender's: it must not send the rest of a message whose number 0 it has dropped.
 */
enum mailbox mailbox_receive(uint8_t record[SDS_RECORD]);

/*
 * Sends a frame, after those before it: give them to one transmit mailbox, or to a FIFO, but not to several mailboxes that the controller
 * empties in the order of identifiers (the answers to one request have the same). RTR is 0, and the DLC 2 to 8, or 0 where it acknowledges a
 * short Write. Waits while there is no room. Where the bus is off or the frame is not taken in reasonable time, give up and return: the host
 * repeats what is not answered.
 */
void mailbox_send(const uint8_t record[SDS_RECORD]);

#endif
