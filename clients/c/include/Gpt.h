/* Gpt.h: the timer driver. */
#ifndef GPT_H
#define GPT_H

#include "Std_Types.h"

#define GPT_E_UNINIT 0x0Au
#define GPT_E_BUSY 0x0Bu
#define GPT_E_MODE 0x0Cu
#define GPT_E_ALREADY_INITIALIZED 0x0Du
#define GPT_E_PARAM_CHANNEL 0x14u
#define GPT_E_PARAM_VALUE 0x15u
#define GPT_E_PARAM_POINTER 0x16u
#define GPT_E_PARAM_MODE 0x1Fu

typedef struct Gpt_ConfigType Gpt_ConfigType;
typedef uint8 Gpt_ChannelType;
typedef uint32 Gpt_ValueType;
typedef enum { GPT_MODE_NORMAL, GPT_MODE_SLEEP } Gpt_ModeType;
typedef uint32 EcuM_WakeupSourceType;

void Gpt_Init(const Gpt_ConfigType *ConfigPtr);
void Gpt_DeInit(void);
Gpt_ValueType Gpt_GetTimeElapsed(Gpt_ChannelType Channel);
Gpt_ValueType Gpt_GetTimeRemaining(Gpt_ChannelType Channel);
void Gpt_StartTimer(Gpt_ChannelType Channel, Gpt_ValueType Value);
void Gpt_StopTimer(Gpt_ChannelType Channel);
void Gpt_EnableNotification(Gpt_ChannelType Channel);
void Gpt_DisableNotification(Gpt_ChannelType Channel);
void Gpt_SetMode(Gpt_ModeType Mode);
void Gpt_EnableWakeup(Gpt_ChannelType Channel);
void Gpt_DisableWakeup(Gpt_ChannelType Channel);
void Gpt_CheckWakeup(EcuM_WakeupSourceType WakeupSource);

#endif
