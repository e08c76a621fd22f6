/* Pwm.h: the driver of the pulse outputs. */
#ifndef PWM_H
#define PWM_H

#include "Std_Types.h"

#define PWM_E_INIT_FAILED 0x10u
#define PWM_E_UNINIT 0x11u
#define PWM_E_PARAM_CHANNEL 0x12u
#define PWM_E_PERIOD_UNCHANGEABLE 0x13u
#define PWM_E_ALREADY_INITIALIZED 0x14u
#define PWM_E_PARAM_POINTER 0x15u

typedef struct Pwm_ConfigType Pwm_ConfigType;
typedef uint8 Pwm_ChannelType;
typedef uint16 Pwm_PeriodType;
typedef enum { PWM_LOW, PWM_HIGH } Pwm_OutputStateType;
typedef enum { PWM_RISING_EDGE, PWM_FALLING_EDGE, PWM_BOTH_EDGES } Pwm_EdgeNotificationType;

void Pwm_Init(const Pwm_ConfigType *ConfigPtr);
void Pwm_DeInit(void);
void Pwm_SetDutyCycle(Pwm_ChannelType ChannelNumber, uint16 DutyCycle);
void Pwm_SetPeriodAndDuty(Pwm_ChannelType ChannelNumber, Pwm_PeriodType Period, uint16 DutyCycle);
void Pwm_SetOutputToIdle(Pwm_ChannelType ChannelNumber);
Pwm_OutputStateType Pwm_GetOutputState(Pwm_ChannelType ChannelNumber);
void Pwm_EnableNotification(Pwm_ChannelType ChannelNumber, Pwm_EdgeNotificationType Notification);
void Pwm_DisableNotification(Pwm_ChannelType ChannelNumber);

#endif
