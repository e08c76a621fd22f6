/* Wdg.h: the watchdog driver. */
#ifndef WDG_H
#define WDG_H

#include "Std_Types.h"

#define WDG_E_DRIVER_STATE 0x10u
#define WDG_E_PARAM_MODE 0x11u
#define WDG_E_PARAM_CONFIG 0x12u
#define WDG_E_PARAM_TIMEOUT 0x13u
#define WDG_E_PARAM_POINTER 0x14u
#define WDG_E_INIT_FAILED 0x15u

typedef struct Wdg_ConfigType Wdg_ConfigType;
typedef enum { WDGIF_OFF_MODE, WDGIF_SLOW_MODE, WDGIF_FAST_MODE } WdgIf_ModeType;

void Wdg_Init(const Wdg_ConfigType *ConfigPtr);
Std_ReturnType Wdg_SetMode(WdgIf_ModeType Mode);
/* The time until the reset, from now on: in ticks of the oscillator in fast mode, in 16 of them in slow mode. */
void Wdg_SetTriggerCondition(uint16 timeout);

#endif
