/* Mcu.h: the driver of the clock, the RAM and the resets. */
#ifndef MCU_H
#define MCU_H

#include "Std_Types.h"

#define MCU_E_PARAM_CONFIG 0x0Au
#define MCU_E_PARAM_CLOCK 0x0Bu
#define MCU_E_PARAM_MODE 0x0Cu
#define MCU_E_PARAM_RAMSECTION 0x0Du
#define MCU_E_PLL_NOT_LOCKED 0x0Eu
#define MCU_E_UNINIT 0x0Fu
#define MCU_E_PARAM_POINTER 0x10u

typedef struct Mcu_ConfigType Mcu_ConfigType; /* the configuration is that of Mcal_PowerOn: pass NULL_PTR */
typedef uint8 Mcu_ClockType;
typedef uint8 Mcu_ModeType;
typedef uint8 Mcu_RamSectionType;
typedef enum { MCU_PLL_LOCKED, MCU_PLL_UNLOCKED, MCU_PLL_STATUS_UNDEFINED } Mcu_PllStatusType;
typedef enum { MCU_POWER_ON_RESET, MCU_WATCHDOG_RESET, MCU_SW_RESET, MCU_RESET_UNDEFINED } Mcu_ResetType;

void Mcu_Init(const Mcu_ConfigType *ConfigPtr);
Std_ReturnType Mcu_InitRamSection(Mcu_RamSectionType RamSection);
Std_ReturnType Mcu_InitClock(Mcu_ClockType ClockSetting);
Std_ReturnType Mcu_DistributePllClock(void);
Mcu_PllStatusType Mcu_GetPllStatus(void);
Mcu_ResetType Mcu_GetResetReason(void);
void Mcu_PerformReset(void);
void Mcu_SetMode(Mcu_ModeType McuMode);

#endif
