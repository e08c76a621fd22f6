/* Mcal.h: the chip under the drivers: power, what happens outside, interrupts, callbacks, and what is called between two
   steps. */
#ifndef MCAL_H
#define MCAL_H

#include "Std_Types.h"

/* Switches the chip on with a configuration in TOML; the program of pipe.c is $MCAL_LIVE, or mcal_live on the path. 0, or -1
   where it doesn't run, or the configuration is refused: then Mcal_Refusal says why. */
int Mcal_PowerOn(const char *configuration);
/* Switches it off and on again, with the same configuration. */
void Mcal_PowerCycle(void);
void Mcal_PowerOff(void);
extern const char *Mcal_Refusal;

/* What happens outside. All ticks go by, also where the watchdog resets the chip at one of them. */
void Mcal_Tick(uint32 ticks);
void Mcal_SetLevel(uint8 pin, boolean level);
void Mcal_SetAnalog(uint8 input, uint16 value);
void Mcal_Trigger(uint8 input);
void Mcal_Miso(uint8 unit, uint16 word);
void Mcal_SpiFault(uint8 unit);
void Mcal_Detach(void);
/* Resets the chip: `power` or `watchdog`. */
void Mcal_Reset(const char *kind);

/* An interrupt: the handler of a line runs to its end, above whatever is under way. NULL_PTR, or the word for why it may not
   enter now. */
const char *Mcal_Interrupt(uint8 line);
/* The handlers of all lines that are pending enter, lowest line first, but for those that may not; how many did. */
uint32 Mcal_Serve(void);
/* The interrupt lines that are pending, line 0 in bit 0. */
uint32 Mcal_Pending(void);
/* The level of a pin, 0 or 1, where no service and no handler is under way; -1 where one is, or the pin isn't configured. */
int Mcal_Pin(uint8 pin);

/* Sends a line of the protocol in docs/LIVE.md, and hands out each line of its answer without its number. A frame that it
   begins or ends is none of the C stack's: it has to end where it began. */
void Mcal_Line(const char *line, void (*tell)(const char *row));

/* The level at which calls begin: a task's own. A callback has that of its handler or its caller. */
extern uint8 Mcal_Level;

/* Has a function called for a notice by its name and object: Mcal_On("GptNotification", 0, Alarm). A name that no notice
   has is told with the nearest one, and aborts. */
void Mcal_On(const char *kind, uint32 number, void (*callback)(void));

/* Called at each notice, ahead of its callback. */
extern void (*Mcal_OnNotice)(const char *kind, uint32 number);

/* Called before each step of a service or a handler. An interrupt may enter in it, time pass, a task of a higher level call
   services. It isn't called inside itself unless Mcal_HookNests is set. */
extern void (*Mcal_Hook)(void);
extern boolean Mcal_HookNests;
/* The steps that were made since power on, where a hook is there. */
extern unsigned long Mcal_Steps;

/* Called where a service may not begin here, which is a bug of the caller's. The default prints it and aborts. */
extern void (*Mcal_OnHeld)(const char *service, const char *cause);
/* Called at each error report; `runtime` where it is a runtime error. */
extern void (*Mcal_OnError)(const char *service, const char *error, uint8 value, boolean runtime);
/* Called where a reset dropped services or handlers, or was the watchdog's: what stands on the C stack for them has to go, by
   longjmp. Mcal_Level is 0 then. The default prints it and aborts, and so does what returns. */
extern void (*Mcal_OnReset)(const char *reason, uint32 dropped);
/* Asked for the word that comes in on a serial unit without a device, before the step that begins one. NULL_PTR: no device. */
extern uint16 (*Mcal_Exchange)(uint8 unit, uint16 sent);

#endif
